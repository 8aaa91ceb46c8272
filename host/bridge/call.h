/* One call of the core, as the two sides of the bridge share it in a file that both have mapped: its numbers, where its slices stand in the
 * file, and its answer. Both sides lay these records out alike: they have 64-bit sizes and 32-bit numbers only. */
#include "winchbarn.h"

#define FILE_SIZE ((size_t)64 << 20)

enum {
    RUN_SCRIPT,
    APPLY_EDIT,
    APPLY_EDIT_IN,
    APPLY_FRAME,
    WRITE_EDIT,
    WRITE_TEXT,
    WRITE_MARK,
    READ_EDIT,
    READ_TEXT,
    READ_MARK,
    UNDOABLE,
    SET_CURSOR,
    CLAMP_POSITION,
    BOX_FIT,
    SHIFT_POSITION,
    SHIFT_SEL,
    MERGE_OVERLAPPING,
    SEL_CARET,
    SEL_IS_CARET,
    SEL_START,
    SEL_END,
    SEL_OVERLAPS,
    SELECTION_HEAD,
    SELECTION_ANCHOR,
    SELECTION_EXTEND_TO,
    SELECTION_ROW_BOUNDS,
    ROW_SPAN,
    DECODE,
    ENCODE
};

/* A slice: its offset in the file in bytes, and its length in elements. */
typedef struct {
    size_t offset;
    size_t len;
} slice;

typedef struct {
    uint32_t function;
    uint32_t number;
    uint32_t row;
    uint32_t tab;
    size_t used;
    winchbarn_view view;
    winchbarn_edit edit;
    winchbarn_position pos;
    winchbarn_sel sel;
    winchbarn_sel other;
    slice slices[7];
    union {
        winchbarn_position position;
        winchbarn_sel sel;
        bool yes;
        winchbarn_count count;
        winchbarn_applied applied;
        winchbarn_viewed viewed;
        winchbarn_frame frame;
        winchbarn_place place;
        winchbarn_sel_place sel_place;
        winchbarn_span span;
        winchbarn_rows rows;
        winchbarn_said said;
    } answer;
} call;

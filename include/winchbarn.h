/* Winchbarn's core for C and for whatever calls C. The archive is libwinchbarn.a, made by tests/archive.sh: in target/staticlib for x86-64,
 * and on another machine in target/native for that one.
 *
 * A pointer with a length is a slice. NULL IS NOT ALLOWED, ALSO WHERE THE LENGTH IS 0: lend winchbarn_empty(), or for bytes
 * winchbarn_empty_bytes(), where there is nothing to lend (in C++ the data() of an empty vector may be null). Beyond that nothing is required of a caller but what C requires: a pointer is
 * aligned; as many elements as the length says may be read there, and where the pointer is not const, written; no slice that may be
 * written overlaps another slice of the same call; and the thread has the stack that the call needs (WINCHBARN_STACK_RUN_SCRIPT and those
 * below it).
 *
 * All input gets an answer. A `refusal` is 0, or one of the numbers from WINCHBARN_BAD_TEXT on: each function names those by which it
 * refuses, in the order in which it looks for them, and gives the first that holds. A refusal changes nothing that was lent.
 *
 * The archive holds a table that is made from Unicode's data. NOTICE has the licence that goes with it.
 *
 * No function keeps a pointer, allocates or has a state; calls in several threads do not meet. The archive calls memcpy and memset, and
 * nothing else that is not in it.
 *
 * A text is its buffer's first `used` elements: Unicode scalars but U+000B, U+000C, U+000D, U+0085, U+2028 and U+2029. Its rows end at
 * line feeds. Rows and columns count from 0, columns in characters. */
#ifndef WINCHBARN_H
#define WINCHBARN_H

#include <stdbool.h>
#include <stddef.h>
#include <stdint.h>

#define WINCHBARN_VERSION_MAJOR 0
#define WINCHBARN_VERSION_MINOR 2
#define WINCHBARN_VERSION_PATCH 0

#ifdef __cplusplus
extern "C" {
#endif

enum {
    WINCHBARN_TEXT_LIMIT = 16384,     /* characters of a text, and of a payload */
    WINCHBARN_LIST_LIMIT = 256,       /* items of an edit's list, rows that a DELETE_BLOCK spans, joins that a join would make */
    WINCHBARN_NUMBER_LIMIT = 1000000, /* an edit's number or list item, a number of what is shifted, a box's cells, a tab width */
    WINCHBARN_LINE_LIMIT = 36864,     /* digits of a line */
    WINCHBARN_SELECTION_LIMIT = 4096  /* numbers of the selections that are merged, four to each */
};

/* Refusals, by the numbers that they are given. */
enum {
    /* A used length over the buffer or WINCHBARN_TEXT_LIMIT; a value in the text that is not admitted. Where UTF-8 is written: a value that
     * is no Unicode scalar. */
    WINCHBARN_BAD_TEXT = 1,
    /* A number over WINCHBARN_NUMBER_LIMIT: one that the edit's kind uses, items of its lists included, one of what is shifted, a box's
     * cells or a tab width. */
    WINCHBARN_TOO_BIG = 2,
    /* A list of the edit with more than WINCHBARN_LIST_LIMIT items, a DELETE_BLOCK that spans more rows, a join that would make more joins;
     * a payload of more than WINCHBARN_TEXT_LIMIT characters; selections of more than WINCHBARN_SELECTION_LIMIT numbers. */
    WINCHBARN_TOO_MANY = 3,
    /* A payload with a value that no text may have; a line feed in a chunk; chunk lengths that do not sum to the payload; INSERT_CHAR
     * without exactly one character; selections not in fours. */
    WINCHBARN_BAD_PAYLOAD = 4,
    /* Bytes that are not UTF-8. `offset` is the place of the byte where the first bad sequence starts; in a line that is a place among the
     * bytes which the digits are, two to each. In every other answer `offset` is 0. */
    WINCHBARN_BAD_UTF8 = 5,
    /* Shifts only: a DELETE_CHAR or REPLACE whose start is after its end, a DELETE_LINE whose start's row is after its end's. */
    WINCHBARN_REVERSED = 6,
    /* SPLIT_LINES only, and not in shifts: a column with its flag set, past the end of the row at that step. */
    WINCHBARN_BEYOND_ROW = 7,
    /* The text would be longer than its buffer or WINCHBARN_TEXT_LIMIT, an output than its slice, or a line that
     * is written than WINCHBARN_LINE_LIMIT. */
    WINCHBARN_NO_ROOM = 8,
    /* The inverse is longer than the slices lent for it; the slice for merged selections is shorter than the selections given. */
    WINCHBARN_NO_RECORD = 9,
    /* A line that is no frame, or none that the function takes; an edit that has no frame; a kind that is none. */
    WINCHBARN_BAD_FRAME = 10
};

/* The name of a refusal; "" where the number is none. */
static inline const char *winchbarn_refusal_name(uint32_t refusal) {
    switch (refusal) {
    case WINCHBARN_BAD_TEXT:
        return "BadText";
    case WINCHBARN_TOO_BIG:
        return "TooBig";
    case WINCHBARN_TOO_MANY:
        return "TooMany";
    case WINCHBARN_BAD_PAYLOAD:
        return "BadPayload";
    case WINCHBARN_BAD_UTF8:
        return "BadUtf8";
    case WINCHBARN_REVERSED:
        return "Reversed";
    case WINCHBARN_BEYOND_ROW:
        return "BeyondRow";
    case WINCHBARN_NO_ROOM:
        return "NoRoom";
    case WINCHBARN_NO_RECORD:
        return "NoRecord";
    case WINCHBARN_BAD_FRAME:
        return "BadFrame";
    default:
        return "";
    }
}

/* What a refusal says, in a line; "" where the number is none. */
static inline const char *winchbarn_refusal_meaning(uint32_t refusal) {
    switch (refusal) {
    case WINCHBARN_BAD_TEXT:
        return "a used length over its buffer or 16,384, or a value that is not admitted";
    case WINCHBARN_TOO_BIG:
        return "a number over 1,000,000";
    case WINCHBARN_TOO_MANY:
        return "a list, rows of a block, joins, a payload or selections over their limit";
    case WINCHBARN_BAD_PAYLOAD:
        return "a payload that its kind does not admit, or selections not in fours";
    case WINCHBARN_BAD_UTF8:
        return "bytes that are not UTF-8";
    case WINCHBARN_REVERSED:
        return "a start after its end";
    case WINCHBARN_BEYOND_ROW:
        return "a column with its flag set, past the end of its row";
    case WINCHBARN_NO_ROOM:
        return "a text, an output or a line that would be too long";
    case WINCHBARN_NO_RECORD:
        return "an inverse or a merge that has no room for what it hands back";
    case WINCHBARN_BAD_FRAME:
        return "a line that is no frame here, an edit that has none, or a kind that is none";
    default:
        return "";
    }
}

/* An address to lend, with length 0, where there is nothing to lend. Nothing is read or written there. */
static inline uint32_t *winchbarn_empty(void) {
    static uint32_t nothing;
    return &nothing;
}

/* The same for a slice of bytes. */
static inline uint8_t *winchbarn_empty_bytes(void) {
    return (uint8_t *)winchbarn_empty();
}

typedef struct {
    uint32_t row;
    uint32_t col;
} winchbarn_position;

/* How much of the buffer is text, where the cursor is, and how many edits were accepted, modulo 2^64. */
typedef struct {
    size_t used;
    winchbarn_position cursor;
    uint64_t changes;
} winchbarn_view;

/* Two ends, both covered, in either order. */
typedef struct {
    winchbarn_position anchor;
    winchbarn_position head;
} winchbarn_sel;

/* An edit's numbers. Beside them a payload and two lists are lent. What a kind does not use is not read.
 *
 *    kind                    numbers              payload                     first           second
 *    INSERT_CHAR             start                one character
 *    INSERT_STR              start                what is put in
 *    DELETE_CHAR             start, end
 *    DELETE_LINE             start.row, end.row
 *    DELETE_BLOCK            start, end
 *    JOIN_LINES              start.row, count
 *    JOIN_LINES_SPACED       start.row, count
 *    SPLIT_LINES             start.row                                        columns         flags: 0, or not
 *    REPLACE                 start, end           what is put in
 *    INSERT_BLOCK            start                the chunks, in a row        their lengths
 *    DELETE_BLOCK_CHUNKS     start                                            widths          pads
 */
typedef struct {
    uint32_t kind;
    winchbarn_position start;
    winchbarn_position end;
    uint32_t count;
} winchbarn_edit;

/* What an edit does. A place is brought into the text as winchbarn_clamp_position has it. */
enum {
    /* Puts one character in at start, brought into the text. */
    WINCHBARN_INSERT_CHAR = 0,
    /* Puts the payload in at start, brought into the text. */
    WINCHBARN_INSERT_STR = 1,
    /* Deletes the characters from the earlier of start and end up to the later, both brought into the text. */
    WINCHBARN_DELETE_CHAR = 2,
    /* Deletes the rows between start.row and end.row, these two included, both brought into the text. */
    WINCHBARN_DELETE_LINE = 3,
    /* Deletes the rectangle with the corners start and end, both of them in it, as far as there are such rows and columns. */
    WINCHBARN_DELETE_BLOCK = 4,
    /* Joins start.row, brought into the text, with the next row, count times, or once for 0; it stops at the last row. */
    WINCHBARN_JOIN_LINES = 5,
    /* The same, with a space put between two parts that are both non-empty. */
    WINCHBARN_JOIN_LINES_SPACED = 6,
    /* Splits start.row, brought into the text, at the columns, last first. A flag says whether a space that stands there goes, and is 0
     * where it is missing; with 0 the column is brought into the row. */
    WINCHBARN_SPLIT_LINES = 7,
    /* Deletes as DELETE_CHAR, then puts the payload in at the earlier of start and end, brought into what is left. */
    WINCHBARN_REPLACE = 8,
    /* Puts a chunk into each row from start.row down, at start.col, up to which a shorter row is filled with spaces; rows that are not
     * there are passed over. */
    WINCHBARN_INSERT_BLOCK = 9,
    /* Cuts each row from start.row down, as far as it is there, from start.col less its pad up to start.col and its width. A pad is 0 where
     * it is missing. */
    WINCHBARN_DELETE_BLOCK_CHUNKS = 10
};

/* What a selection covers between its ends: the characters from one to the other, the rows whole (columns are not read), or the rectangle
 * whose corners they are. */
enum {
    WINCHBARN_SELECT_CHAR = 0,
    WINCHBARN_SELECT_LINE = 1,
    WINCHBARN_SELECT_BLOCK = 2
};

/* How much was written to the front of the output: so many elements, or, of a merge, so many selections. A refusal has count 0. */
typedef struct {
    uint32_t refusal;
    size_t offset;
    size_t count;
} winchbarn_count;

/* The view after the edit, and the edit's inverse: its numbers, and how many elements of its payload and lists were written to the front of
 * the slices lent for them. A refusal has the view as it was given, and zeros for the rest, but for `offset` under 5. */
typedef struct {
    uint32_t refusal;
    size_t offset;
    winchbarn_view view;
    winchbarn_edit inverse;
    size_t payload;
    size_t first;
    size_t second;
} winchbarn_applied;

/* The view with its cursor set. A refusal has the view as it was given. */
typedef struct {
    uint32_t refusal;
    winchbarn_view view;
} winchbarn_viewed;

/* An edit that a line is: its numbers, and how many elements of its payload and lists were written to the front of the slices lent for
 * them. A refusal has zeros for the rest, but for `offset` under 5. */
typedef struct {
    uint32_t refusal;
    size_t offset;
    winchbarn_edit edit;
    size_t payload;
    size_t first;
    size_t second;
} winchbarn_frame;

/* A position, where there is one; zeros where there is none. */
typedef struct {
    uint32_t refusal;
    bool found;
    winchbarn_position at;
} winchbarn_place;

/* A selection, where there is one; zeros where there is none. */
typedef struct {
    uint32_t refusal;
    bool found;
    winchbarn_sel sel;
} winchbarn_sel_place;

/* The columns of a row that are covered: none, those from lo to hi, or, if `open`, all from lo on. What is not said is 0. */
typedef struct {
    uint32_t refusal;
    bool covered;
    bool open;
    uint32_t lo;
    uint32_t hi;
} winchbarn_span;

/* The first and the last row of a selection. A refusal has zeros. */
typedef struct {
    uint32_t refusal;
    uint32_t top;
    uint32_t bottom;
} winchbarn_rows;

typedef struct {
    uint32_t refusal;
    bool yes;
} winchbarn_said;

/* The stack that a call needs, in bytes, from the frame of the function that makes it on: what is measured on x86-64 and AArch64, and
 * some more. tests/c/stack.c makes calls of each function with just that much. */
enum {
    WINCHBARN_STACK_RUN_SCRIPT = 253952,
    WINCHBARN_STACK_APPLY_EDIT = 8192,
    WINCHBARN_STACK_APPLY_EDIT_IN = 8192,
    WINCHBARN_STACK_APPLY_FRAME = 151552,
    WINCHBARN_STACK_WRITE_EDIT = 24576,
    WINCHBARN_STACK_WRITE_TEXT = 24576,
    WINCHBARN_STACK_WRITE_MARK = 2048,
    WINCHBARN_STACK_READ_EDIT = 45056,
    WINCHBARN_STACK_READ_TEXT = 45056,
    WINCHBARN_STACK_READ_MARK = 24576,
    WINCHBARN_STACK_UNDOABLE = 4096,
    WINCHBARN_STACK_SET_CURSOR = 2048,
    WINCHBARN_STACK_CLAMP_POSITION = 2048,
    WINCHBARN_STACK_BOX_FIT = 4096,
    WINCHBARN_STACK_SHIFT_POSITION = 4096,
    WINCHBARN_STACK_SHIFT_SEL = 4096,
    WINCHBARN_STACK_MERGE_OVERLAPPING = 40960,
    WINCHBARN_STACK_SEL = 2048,       /* each of the winchbarn_sel_ functions */
    WINCHBARN_STACK_SELECTION = 2048, /* each of the winchbarn_selection_ functions */
    WINCHBARN_STACK_ROW_SPAN = 2048,
    WINCHBARN_STACK_DECODE = 2048,
    WINCHBARN_STACK_ENCODE = 2048
};

/* Runs a script, as the program scriptrun does, and writes what it prints to the front of `out`; the rest of `out` is kept. What is wrong
 * with a line is told in what is printed. Refuses by 8. */
winchbarn_count winchbarn_run_script(const uint8_t *input, size_t input_len, uint8_t *out, size_t out_len);

/* Applies an edit to the text. Places of the buffer that the text gives up become 0, those behind are kept; so are the output slices
 * behind what is written. Every inverse has room in a payload as long as the buffer and WINCHBARN_LIST_LIMIT in each list. Refuses by 10
 * where the kind is none, then 1, 2, 3, 4, 7, 8, 9. */
winchbarn_applied winchbarn_apply_edit(uint32_t *text, size_t text_len, winchbarn_view view, winchbarn_edit edit,
                                       const uint32_t *payload, size_t payload_len, const uint32_t *first, size_t first_len,
                                       const uint32_t *second, size_t second_len, uint32_t *out_payload, size_t out_payload_len,
                                       uint32_t *out_first, size_t out_first_len, uint32_t *out_second, size_t out_second_len);

/* The same for the edit that a script's line is: lower-case hexadecimal, without the line feed. Refuses by 10 where the line is no frame of
 * an edit, by 5, then by 1, 2, 3, 4, 7, 8, 9. */
winchbarn_applied winchbarn_apply_frame(uint32_t *text, size_t text_len, winchbarn_view view, const uint8_t *line, size_t line_len,
                                        uint32_t *out_payload, size_t out_payload_len, uint32_t *out_first, size_t out_first_len,
                                        uint32_t *out_second, size_t out_second_len);

/* As winchbarn_apply_edit, with the view lent: it is updated where it stands to the answer's, and kept where the edit is refused. The
 * pointer to it is aligned and not null, and it overlaps no slice of the call. Refuses as winchbarn_apply_edit. */
winchbarn_applied winchbarn_apply_edit_in(uint32_t *text, size_t text_len, winchbarn_view *view, winchbarn_edit edit,
                                          const uint32_t *payload, size_t payload_len, const uint32_t *first, size_t first_len,
                                          const uint32_t *second, size_t second_len, uint32_t *out_payload, size_t out_payload_len,
                                          uint32_t *out_first, size_t out_first_len, uint32_t *out_second, size_t out_second_len);

/* Writes an edit as a script's line to the front of `out`, without a line feed; the rest of `out` is kept. No frame have INSERT_CHAR,
 * SPLIT_LINES whose flags are not as many as its columns or neither 0 nor 1, INSERT_BLOCK whose lengths do not sum to its payload, and
 * DELETE_BLOCK_CHUNKS whose pads are not as many as its widths. Refuses by 10 where the edit has no frame, or the kind is none, then 1, 8. */
winchbarn_count winchbarn_write_edit(winchbarn_edit edit, const uint32_t *payload, size_t payload_len, const uint32_t *first,
                                     size_t first_len, const uint32_t *second, size_t second_len, uint8_t *out, size_t out_len);

/* A text's line, the same way. Refuses by 1, then 8. */
winchbarn_count winchbarn_write_text(const uint32_t *text, size_t text_len, uint8_t *out, size_t out_len);

/* A mark's line, the same way. Refuses by 8. */
winchbarn_count winchbarn_write_mark(winchbarn_sel mark, uint8_t *out, size_t out_len);

/* The edit that a script's line is, without its line feed; its payload and lists go to the front of the slices, the rest of which is kept.
 * 18,432 characters and 4,608 and 3,687 items are always enough. Refuses by 10 where the line is no frame of an edit, then 5, 8. */
winchbarn_frame winchbarn_read_edit(const uint8_t *line, size_t line_len, uint32_t *out_payload, size_t out_payload_len,
                                    uint32_t *out_first, size_t out_first_len, uint32_t *out_second, size_t out_second_len);

/* The characters that a text's line holds, to the front of `out`; the rest of `out` is kept. They are any Unicode scalars, at most 18,431:
 * whether they are a text is judged where they are used as one. Refuses by 10 where the line is no frame of a text, then 5, 8. */
winchbarn_count winchbarn_read_text(const uint8_t *line, size_t line_len, uint32_t *out, size_t out_len);

/* The mark that a line is, found unless it is refused. Nothing lent is written. Refuses by 10 where the line is no frame of a mark. */
winchbarn_sel_place winchbarn_read_mark(const uint8_t *line, size_t line_len);

/* Whether the edit is sure to be taken back exactly, if it is accepted. Yes for insertions, DELETE_LINE, joins and INSERT_BLOCK; for
 * DELETE_CHAR and REPLACE where their earlier end is in the text; for DELETE_BLOCK where no row that it touches is shorter than its left
 * column. No for all else, which may still be taken back exactly, as SPLIT_LINES of "ab" at 1 is. Nothing lent is written. Refuses by 10
 * where the kind is none, then 1, 2, 3, 4. */
winchbarn_said winchbarn_undoable(const uint32_t *text, size_t text_len, winchbarn_view view, winchbarn_edit edit,
                                  const uint32_t *payload, size_t payload_len, const uint32_t *first, size_t first_len,
                                  const uint32_t *second, size_t second_len);

/* The view with its cursor at the position, brought into the text as winchbarn_clamp_position has it; the used length and the counter are
 * as they were. Nothing lent is written. Refuses by 1. */
winchbarn_viewed winchbarn_set_cursor(const uint32_t *text, size_t text_len, winchbarn_view view, winchbarn_position pos);

/* The position brought into the text: its row down to the last one, then its column to that row's length. It is found unless it is refused.
 * Nothing lent is written. Refuses by 1. */
winchbarn_place winchbarn_clamp_position(const uint32_t *text, size_t text_len, size_t used, winchbarn_position pos);

/* The first row that is wider than a box of so many cells, and the column of its first character whose last cell lies outside; none where
 * all rows fit. A character takes two cells where it is Wide or Fullwidth in UAX #11, by EastAsianWidth.txt of Unicode 15.0.0, and one
 * otherwise, also where it is combining; a tab runs to the next multiple of the tab width, 0 acting as 1, counted in cells from the row's
 * start, and takes one at least; a line feed takes none. Nothing lent is written. Refuses by 1, then 2. */
winchbarn_place winchbarn_box_fit(const uint32_t *text, size_t text_len, size_t used, uint32_t cells, uint32_t tab);

/* Where a position goes when the edit is made to the view's text; the pads of DELETE_BLOCK_CHUNKS are left out of account. None for
 * SPLIT_LINES, over which nothing is followed, and for no other kind. Over an accepted edit whose ends are in order and whose places are in
 * the text, other than SPLIT_LINES and DELETE_BLOCK_CHUNKS with a pad above 0, what is answered for the place of a character that stays, not
 * a line feed, is where it stands afterwards; blocks, joins and deletes of rows may name any place. Nothing lent is written. Refuses by 10
 * where the kind is none, then 1, 2, 3, 4, 6. */
winchbarn_place winchbarn_shift_position(const uint32_t *text, size_t text_len, winchbarn_view view, winchbarn_edit edit,
                                         const uint32_t *payload, size_t payload_len, const uint32_t *first, size_t first_len,
                                         const uint32_t *second, size_t second_len, winchbarn_position pos);

/* The same of both ends of a selection, which are judged together and not put in order. Refuses as winchbarn_shift_position. */
winchbarn_sel_place winchbarn_shift_sel(const uint32_t *text, size_t text_len, winchbarn_view view, winchbarn_edit edit,
                                        const uint32_t *payload, size_t payload_len, const uint32_t *first, size_t first_len,
                                        const uint32_t *second, size_t second_len, winchbarn_sel sel);

/* Selections as four numbers each (anchor row and column, head row and column), sorted by start and merged where they share even one
 * position, to the front of `out`; the rest of `out` is kept. One that was merged runs forward, the others keep their ends. The count is
 * one of selections. Refuses by 3, 4, 9. */
winchbarn_count winchbarn_merge_overlapping(const uint32_t *sels, size_t sels_len, uint32_t *out, size_t out_len);

/* Both ends at the position. Another selection is made by naming its ends. */
winchbarn_sel winchbarn_sel_caret(winchbarn_position pos);

/* Whether both ends are at one position. */
bool winchbarn_sel_is_caret(winchbarn_sel sel);

/* The earlier end, and the later one: by row, then column. */
winchbarn_position winchbarn_sel_start(winchbarn_sel sel);
winchbarn_position winchbarn_sel_end(winchbarn_sel sel);

/* Whether the two share even one position. */
bool winchbarn_sel_overlaps(winchbarn_sel sel, winchbarn_sel other);

/* The head and the anchor of a selection; those of WINCHBARN_SELECT_LINE are at column 0. Found unless refused. They refuse by 10 where the
 * kind is none. */
winchbarn_place winchbarn_selection_head(uint32_t kind, winchbarn_sel sel);
winchbarn_place winchbarn_selection_anchor(uint32_t kind, winchbarn_sel sel);

/* The selection with its head moved to the position; the columns of WINCHBARN_SELECT_LINE are told as 0. Found unless refused. Refuses by
 * 10 where the kind is none. */
winchbarn_sel_place winchbarn_selection_extend_to(uint32_t kind, winchbarn_sel sel, winchbarn_position pos);

/* The first and the last row that a selection covers. Refuses by 10 where the kind is none. */
winchbarn_rows winchbarn_selection_row_bounds(uint32_t kind, winchbarn_sel sel);

/* The columns of a row that a selection covers. Refuses by 10 where the kind is none. */
winchbarn_span winchbarn_row_span(uint32_t kind, winchbarn_sel sel, uint32_t row);

/* UTF-8 to scalars, to the front of `out`; the rest of `out` is kept. Refuses by 5, then 8. */
winchbarn_count winchbarn_decode(const uint8_t *bytes, size_t bytes_len, uint32_t *out, size_t out_len);

/* Scalars to UTF-8, to the front of `out`; the rest of `out` is kept. Refuses by 1, then 8. */
winchbarn_count winchbarn_encode(const uint32_t *scalars, size_t scalars_len, uint8_t *out, size_t out_len);

#ifdef __cplusplus
}
#endif

#endif

/* Calls every function of winchbarn.h once from C and checks its answer. The examples are document 01's where it has one. */
#include "winchbarn.h"

#include <stdio.h>
#include <string.h>

#define LENGTH(array) (sizeof(array) / sizeof((array)[0]))

typedef struct {
    const char *name;
    bool (*holds)(void);
} check;

static const winchbarn_position origin = {0, 0};

static winchbarn_view opened(size_t used) {
    winchbarn_view view = {used, {0, 0}, 0};
    return view;
}

static winchbarn_position at(uint32_t row, uint32_t col) {
    winchbarn_position position = {row, col};
    return position;
}

static winchbarn_edit edit(uint32_t kind, winchbarn_position start, winchbarn_position end, uint32_t count) {
    winchbarn_edit made = {kind, start, end, count};
    return made;
}

static bool same_place(winchbarn_position a, winchbarn_position b) {
    return a.row == b.row && a.col == b.col;
}

static bool same_sel(winchbarn_sel sel, winchbarn_position anchor, winchbarn_position head) {
    return same_place(sel.anchor, anchor) && same_place(sel.head, head);
}

static bool same_view(winchbarn_view a, winchbarn_view b) {
    return a.used == b.used && same_place(a.cursor, b.cursor) && a.changes == b.changes;
}

static bool same_edit(winchbarn_edit a, winchbarn_edit b) {
    return a.kind == b.kind && same_place(a.start, b.start) && same_place(a.end, b.end) && a.count == b.count;
}

static bool same_numbers(const uint32_t *a, const uint32_t *b, size_t count) {
    return memcmp(a, b, count * sizeof *a) == 0;
}

static bool layouts(void) {
    return sizeof(winchbarn_position) == 8 && sizeof(winchbarn_view) == 24 && sizeof(winchbarn_sel) == 16 &&
           sizeof(winchbarn_edit) == 24 && sizeof(winchbarn_count) == 24 && sizeof(winchbarn_applied) == 88 &&
           sizeof(winchbarn_viewed) == 32 && sizeof(winchbarn_frame) == 64 && sizeof(winchbarn_place) == 16 &&
           sizeof(winchbarn_sel_place) == 24 && sizeof(winchbarn_span) == 16 && sizeof(winchbarn_rows) == 12 &&
           sizeof(winchbarn_said) == 8;
}

/* Each refusal has a name and a meaning of its own, and no other number has one. */
static bool refusals(void) {
    bool named = strcmp(winchbarn_refusal_name(WINCHBARN_BAD_TEXT), "BadText") == 0 &&
                 strcmp(winchbarn_refusal_name(WINCHBARN_BAD_FRAME), "BadFrame") == 0;
    for (uint32_t i = 0; i <= WINCHBARN_BAD_FRAME + 1; i++) {
        bool row = i >= WINCHBARN_BAD_TEXT && i <= WINCHBARN_BAD_FRAME;
        named = named && (*winchbarn_refusal_name(i) != 0) == row && (*winchbarn_refusal_meaning(i) != 0) == row;
        for (uint32_t k = WINCHBARN_BAD_TEXT; k < i && row; k++) {
            named = named && strcmp(winchbarn_refusal_name(i), winchbarn_refusal_name(k)) != 0 &&
                    strcmp(winchbarn_refusal_meaning(i), winchbarn_refusal_meaning(k)) != 0;
        }
    }
    return named;
}

static bool run_script(void) {
    static const char input[] = "0161620a6364\n0200000001000000010000000100000002\n100000000000000001580a\n";
    static const char printed[] = "00110000000000000000010000000100000000\n0161580a620a6364\n0200000002000000010000000200000002\n";
    uint8_t out[200];
    winchbarn_count answer = winchbarn_run_script((const uint8_t *)input, sizeof input - 1, out, sizeof out);
    return answer.refusal == 0 && answer.count == sizeof printed - 1 && memcmp(out, printed, answer.count) == 0;
}

static bool run_nothing(void) {
    uint8_t out[3];
    winchbarn_count answer = winchbarn_run_script(winchbarn_empty_bytes(), 0, out, sizeof out);
    return answer.refusal == 0 && answer.count == 3 && memcmp(out, "01\n", 3) == 0;
}

/* "ab/cdef", the characters from (0,99) to (1,2): "abef", and back by "/cd" at (0,99). */
static bool apply_edit(void) {
    uint32_t text[9] = {'a', 'b', '\n', 'c', 'd', 'e', 'f', 7, 7};
    static const uint32_t after[9] = {'a', 'b', 'e', 'f', 0, 0, 0, 7, 7};
    static const uint32_t cut[3] = {'\n', 'c', 'd'};
    const uint32_t *none = winchbarn_empty();
    uint32_t payload[LENGTH(text)], first[WINCHBARN_LIST_LIMIT], second[WINCHBARN_LIST_LIMIT];
    winchbarn_applied answer =
        winchbarn_apply_edit(text, LENGTH(text), opened(7), edit(WINCHBARN_DELETE_CHAR, at(0, 99), at(1, 2), 0), none, 0,
                             none, 0, none, 0, payload, LENGTH(payload), first, LENGTH(first), second, LENGTH(second));
    return answer.refusal == 0 && answer.offset == 0 && answer.view.used == 4 && same_place(answer.view.cursor, at(0, 4)) &&
           answer.view.changes == 1 && answer.inverse.kind == WINCHBARN_INSERT_STR &&
           same_place(answer.inverse.start, at(0, 99)) && answer.payload == 3 && answer.first == 0 && answer.second == 0 &&
           same_numbers(text, after, LENGTH(text)) && same_numbers(payload, cut, LENGTH(cut));
}

/* The same edit on a view that is lent, twice: the second time the cut is at the end of the text, and takes nothing. */
static bool apply_edit_in(void) {
    uint32_t text[9] = {'a', 'b', '\n', 'c', 'd', 'e', 'f', 7, 7};
    static const uint32_t after[9] = {'a', 'b', 'e', 'f', 0, 0, 0, 7, 7};
    static const uint32_t cut[4] = {'\n', 'c', 'd', 8};
    const uint32_t *none = winchbarn_empty();
    uint32_t payload[4] = {8, 8, 8, 8}, first[WINCHBARN_LIST_LIMIT], second[WINCHBARN_LIST_LIMIT];
    winchbarn_view view = {7, {5, 5}, UINT64_MAX};
    static const winchbarn_view once = {4, {0, 4}, 0}, twice = {4, {0, 4}, 1};
    winchbarn_edit cutting = edit(WINCHBARN_DELETE_CHAR, at(0, 99), at(1, 2), 0);
    winchbarn_applied answer = winchbarn_apply_edit_in(text, LENGTH(text), &view, cutting, none, 0, none, 0, none, 0, payload,
                                                       LENGTH(payload), first, LENGTH(first), second, LENGTH(second));
    if (answer.refusal != 0 || !same_view(view, once) || !same_view(answer.view, once) || answer.payload != 3 ||
        !same_edit(answer.inverse, edit(WINCHBARN_INSERT_STR, at(0, 99), origin, 0)) ||
        !same_numbers(text, after, LENGTH(text)) || !same_numbers(payload, cut, LENGTH(cut))) {
        return false;
    }
    answer = winchbarn_apply_edit_in(text, LENGTH(text), &view, cutting, none, 0, none, 0, none, 0, payload,
                                     LENGTH(payload), first, LENGTH(first), second, LENGTH(second));
    return answer.refusal == 0 && same_view(view, twice) && same_view(answer.view, twice) && answer.payload == 0 &&
           same_numbers(text, after, LENGTH(text)) && same_numbers(payload, cut, LENGTH(cut));
}

/* No room for the record (9), a number over 1,000,000 (2), a used length over the buffer (1), and a kind that is none (10). */
static bool apply_edit_in_refuses(void) {
    static const winchbarn_position far = {1000001, 0};
    winchbarn_edit edits[4];
    static const uint32_t refusals[4] = {9, 2, 1, 10};
    edits[0] = edit(WINCHBARN_DELETE_CHAR, at(0, 0), at(0, 1), 0);
    edits[1] = edit(WINCHBARN_DELETE_CHAR, at(0, 0), far, 0);
    edits[2] = edits[0];
    edits[3] = edit(11, at(0, 0), at(0, 1), 0);
    for (size_t i = 0; i < LENGTH(edits); i++) {
        uint32_t text[2] = {'a', 'b'}, unwritten[1] = {8};
        static const uint32_t kept[2] = {'a', 'b'};
        const uint32_t *none = winchbarn_empty();
        const winchbarn_view given = {i == 2 ? 3 : 2, {7, 9}, 5};
        winchbarn_view view = given;
        winchbarn_applied answer = winchbarn_apply_edit_in(text, LENGTH(text), &view, edits[i], none, 0, none, 0, none, 0,
                                                           unwritten, 0, unwritten, 0, unwritten, 0);
        if (answer.refusal != refusals[i] || !same_view(view, given) || !same_view(answer.view, given) || answer.payload != 0 ||
            !same_edit(answer.inverse, edit(0, origin, origin, 0)) || !same_numbers(text, kept, LENGTH(text)) || unwritten[0] != 8) {
            return false;
        }
    }
    return true;
}

/* "a/b/c", five joins with spaces: "a b c", and back by splits at 1 and 3 that each take a space. */
static bool apply_frame(void) {
    uint32_t text[5] = {'a', '\n', 'b', '\n', 'c'};
    static const uint32_t after[5] = {'a', ' ', 'b', ' ', 'c'};
    static const uint32_t columns[2] = {1, 3}, flags[2] = {1, 1};
    static const char line[] = "12000000000000000501";
    uint32_t payload[LENGTH(text)], first[WINCHBARN_LIST_LIMIT], second[WINCHBARN_LIST_LIMIT];
    winchbarn_applied answer =
        winchbarn_apply_frame(text, LENGTH(text), opened(5), (const uint8_t *)line, sizeof line - 1, payload, LENGTH(payload),
                              first, LENGTH(first), second, LENGTH(second));
    return answer.refusal == 0 && answer.view.used == 5 && same_numbers(text, after, LENGTH(text)) &&
           answer.inverse.kind == WINCHBARN_SPLIT_LINES && answer.payload == 0 && answer.first == 2 && answer.second == 2 &&
           same_numbers(first, columns, 2) && same_numbers(second, flags, 2);
}

static bool apply_frame_refuses(void) {
    uint32_t text[1] = {'a'};
    static const char line[] = "10000000000000000061c080";
    uint32_t payload[1], first[1], second[1];
    winchbarn_applied answer =
        winchbarn_apply_frame(text, 1, opened(1), (const uint8_t *)line, sizeof line - 1, payload, 1, first, 1, second, 1);
    return answer.refusal == WINCHBARN_BAD_UTF8 && answer.offset == 10 && answer.view.used == 1 && answer.view.changes == 0 && text[0] == 'a';
}

static bool write_edit(void) {
    static const uint32_t payload[2] = {'X', '\n'};
    const uint32_t *none = winchbarn_empty();
    static const char line[] = "100000000000000001580a";
    uint8_t out[64];
    winchbarn_count answer = winchbarn_write_edit(edit(WINCHBARN_INSERT_STR, at(0, 1), origin, 0), payload, LENGTH(payload),
                                                  none, 0, none, 0, out, sizeof out);
    return answer.refusal == 0 && answer.count == sizeof line - 1 && memcmp(out, line, answer.count) == 0;
}

static const winchbarn_edit split_at_one = {WINCHBARN_SPLIT_LINES, {0, 0}, {0, 0}, 0};

/* "ab" split at 1 is not among the edits that are sure to be taken back, and its inverse takes it back. */
static bool split(void) {
    uint32_t text[3] = {'a', 'b', 7}, payload[3], first[WINCHBARN_LIST_LIMIT], second[WINCHBARN_LIST_LIMIT];
    static const uint32_t after[3] = {'a', '\n', 'b'}, back[3] = {'a', 'b', 0}, column = 1;
    uint32_t *none = winchbarn_empty();
    winchbarn_said sure = winchbarn_undoable(text, LENGTH(text), opened(2), split_at_one, none, 0, &column, 1, none, 0);
    winchbarn_applied there =
        winchbarn_apply_edit(text, LENGTH(text), opened(2), split_at_one, none, 0, &column, 1, none, 0, payload, LENGTH(payload),
                             first, LENGTH(first), second, LENGTH(second));
    bool parted = same_numbers(text, after, LENGTH(text));
    winchbarn_applied again = winchbarn_apply_edit(text, LENGTH(text), there.view, there.inverse, none, there.payload, none,
                                                   there.first, none, there.second, payload, LENGTH(payload), first,
                                                   LENGTH(first), second, LENGTH(second));
    return sure.refusal == 0 && !sure.yes && there.refusal == 0 && parted && again.refusal == 0 && again.view.used == 2 &&
           same_numbers(text, back, LENGTH(text));
}

static bool write_text(void) {
    static const uint32_t text[3] = {'a', '\n', 0xe9}, surrogate = 0xd800;
    static const uint8_t line[] = "01610ac3a9..";
    uint8_t out[12] = {'.', '.', '.', '.', '.', '.', '.', '.', '.', '.', '.', '.'};
    winchbarn_count bad = winchbarn_write_text(&surrogate, 1, out, sizeof out);
    winchbarn_count short_of_room = winchbarn_write_text(text, LENGTH(text), out, 9);
    bool unwritten = memcmp(out, "............", sizeof out) == 0;
    winchbarn_count answer = winchbarn_write_text(text, LENGTH(text), out, sizeof out);
    return bad.refusal == 1 && short_of_room.refusal == 8 && short_of_room.count == 0 && unwritten && answer.refusal == 0 &&
           answer.count == 10 && memcmp(out, line, sizeof out) == 0;
}

static bool write_mark(void) {
    static const char line[] = "0200000001000000020000000300000004.";
    winchbarn_sel mark = {{1, 2}, {3, 4}};
    uint8_t out[35];
    memset(out, '.', sizeof out);
    winchbarn_count short_of_room = winchbarn_write_mark(mark, out, 33);
    bool unwritten = out[0] == '.' && out[32] == '.';
    winchbarn_count answer = winchbarn_write_mark(mark, out, sizeof out);
    return short_of_room.refusal == 8 && unwritten && answer.refusal == 0 && answer.count == 34 &&
           memcmp(out, line, sizeof out) == 0;
}

/* A split of row 1 at columns 2 and 3, the second of which takes a space. */
static bool read_edit(void) {
    static const char line[] = "130000000100000002000000000301";
    uint32_t payload[1] = {8}, first[3] = {8, 8, 8}, second[3] = {8, 8, 8};
    static const uint32_t columns[3] = {2, 3, 8}, flags[3] = {0, 1, 8};
    winchbarn_frame answer = winchbarn_read_edit((const uint8_t *)line, sizeof line - 1, payload, LENGTH(payload), first,
                                                 LENGTH(first), second, LENGTH(second));
    return answer.refusal == 0 && answer.offset == 0 && same_edit(answer.edit, edit(WINCHBARN_SPLIT_LINES, at(1, 0), origin, 0)) &&
           answer.payload == 0 && answer.first == 2 && answer.second == 2 && payload[0] == 8 &&
           same_numbers(first, columns, LENGTH(first)) && same_numbers(second, flags, LENGTH(second));
}

/* A text (10), bad UTF-8 (5), and a payload that is longer than its slice (8). */
static bool read_edit_refuses(void) {
    static const char *const lines[3] = {"0161", "10000000000000000061c080", "1000000000000000006161"};
    static const uint32_t refusals[3] = {10, 5, 8};
    static const size_t offsets[3] = {0, 10, 0};
    for (size_t i = 0; i < LENGTH(lines); i++) {
        uint32_t payload[1] = {8}, first[1] = {8}, second[1] = {8};
        winchbarn_frame answer = winchbarn_read_edit((const uint8_t *)lines[i], strlen(lines[i]), payload, 1, first, 1, second, 1);
        if (answer.refusal != refusals[i] || answer.offset != offsets[i] || !same_edit(answer.edit, edit(0, origin, origin, 0)) ||
            answer.payload != 0 || answer.first != 0 || answer.second != 0 || payload[0] != 8 || first[0] != 8 || second[0] != 8) {
            return false;
        }
    }
    return true;
}

static winchbarn_count text_in(const char *line, uint32_t *out, size_t out_len) {
    return winchbarn_read_text((const uint8_t *)line, strlen(line), out, out_len);
}

static bool read_text(void) {
    static const uint32_t text[3] = {0xe9, 'a', 8}, unwritten[3] = {8, 8, 8};
    uint32_t out[3] = {8, 8, 8};
    winchbarn_count edit_line = text_in("10000000000000000061", out, LENGTH(out));
    winchbarn_count bad_edit = text_in("100000000000000000ff", out, LENGTH(out));
    winchbarn_count bad = text_in("0161ff", out, LENGTH(out));
    winchbarn_count short_of_room = text_in("01616161", out, 2);
    bool kept = same_numbers(out, unwritten, LENGTH(out));
    winchbarn_count answer = text_in("01c3a961", out, LENGTH(out));
    return edit_line.refusal == 10 && bad_edit.refusal == 10 && bad.refusal == 5 && bad.offset == 2 && short_of_room.refusal == 8 &&
           kept && answer.refusal == 0 && answer.count == 2 && same_numbers(out, text, LENGTH(out));
}

static bool read_mark(void) {
    static const char line[] = "0200000001000000020000000300000004";
    winchbarn_sel_place answer = winchbarn_read_mark((const uint8_t *)line, sizeof line - 1);
    winchbarn_sel_place text_line = winchbarn_read_mark((const uint8_t *)"0161", 4);
    winchbarn_sel_place cut_off = winchbarn_read_mark((const uint8_t *)line, sizeof line - 3);
    return answer.refusal == 0 && answer.found && same_sel(answer.sel, at(1, 2), at(3, 4)) && text_line.refusal == 10 &&
           !text_line.found && same_sel(text_line.sel, origin, origin) && cut_off.refusal == 10 && !cut_off.found;
}

static bool undoable(void) {
    static const uint32_t text[7] = {'a', 'b', '\n', 'c', 'd', 'e', 'f'};
    const uint32_t *none = winchbarn_empty();
    winchbarn_said past = winchbarn_undoable(text, LENGTH(text), opened(7), edit(WINCHBARN_DELETE_CHAR, at(0, 99), at(1, 2), 0),
                                             none, 0, none, 0, none, 0);
    winchbarn_said within = winchbarn_undoable(text, LENGTH(text), opened(7),
                                               edit(WINCHBARN_DELETE_CHAR, at(0, 1), at(1, 2), 0), none, 0, none, 0, none, 0);
    return past.refusal == 0 && !past.yes && within.refusal == 0 && within.yes;
}

static bool set_cursor(void) {
    static const uint32_t text[3] = {'a', '\n', 7}, bad = 0xd;
    const winchbarn_view given = {2, {0, 1}, UINT64_MAX}, set = {2, {1, 0}, UINT64_MAX}, no_text = {1, {4, 5}, 6};
    winchbarn_viewed answer = winchbarn_set_cursor(text, LENGTH(text), given, at(UINT32_MAX, UINT32_MAX));
    winchbarn_viewed refused = winchbarn_set_cursor(&bad, 1, no_text, origin);
    return answer.refusal == 0 && same_view(answer.view, set) && refused.refusal == 1 && same_view(refused.view, no_text);
}

static bool clamp_position(void) {
    static const uint32_t text[2] = {'a', '\n'};
    winchbarn_place answer = winchbarn_clamp_position(text, LENGTH(text), 2, at(9, 9));
    return answer.refusal == 0 && answer.found && same_place(answer.at, at(1, 0));
}

/* Of kana and a tab: the first row is three cells wide, and the second eight and two. */
static bool box_fit(void) {
    static const uint32_t text[5] = {'a', 0x3042, '\n', '\t', 0x3044};
    winchbarn_place first = winchbarn_box_fit(text, LENGTH(text), 5, 2, 8);
    winchbarn_place second = winchbarn_box_fit(text, LENGTH(text), 5, 9, 8);
    winchbarn_place fits = winchbarn_box_fit(text, LENGTH(text), 5, 10, 8);
    return first.refusal == 0 && first.found && same_place(first.at, at(0, 1)) && second.refusal == 0 && second.found &&
           same_place(second.at, at(1, 1)) && fits.refusal == 0 && !fits.found && same_place(fits.at, origin);
}

/* By 1 whatever the numbers are, then by 2; the limit itself is taken. */
static bool box_fit_refuses(void) {
    static const uint32_t text[2] = {'\t', '\r'};
    winchbarn_place at_limit = winchbarn_box_fit(text, LENGTH(text), 1, WINCHBARN_NUMBER_LIMIT, WINCHBARN_NUMBER_LIMIT);
    winchbarn_place box = winchbarn_box_fit(text, LENGTH(text), 1, WINCHBARN_NUMBER_LIMIT + 1, 8);
    winchbarn_place tab = winchbarn_box_fit(text, LENGTH(text), 1, 8, WINCHBARN_NUMBER_LIMIT + 1);
    winchbarn_place bad = winchbarn_box_fit(text, LENGTH(text), 2, UINT32_MAX, UINT32_MAX);
    return at_limit.refusal == 0 && !at_limit.found && box.refusal == WINCHBARN_TOO_BIG && !box.found && tab.refusal == WINCHBARN_TOO_BIG &&
           !tab.found && bad.refusal == WINCHBARN_BAD_TEXT && !bad.found;
}

/* "ab/cd" joined with a space: (1,2) goes to (0,5). */
static const uint32_t two_rows[5] = {'a', 'b', '\n', 'c', 'd'};

static bool shift_position(void) {
    const uint32_t *none = winchbarn_empty();
    winchbarn_place answer = winchbarn_shift_position(two_rows, LENGTH(two_rows), opened(5),
                                                      edit(WINCHBARN_JOIN_LINES_SPACED, origin, origin, 1), none, 0, none,
                                                      0, none, 0, at(1, 2));
    return answer.refusal == 0 && answer.found && same_place(answer.at, at(0, 5));
}

static bool shift_sel(void) {
    const uint32_t *none = winchbarn_empty();
    winchbarn_sel sel = {{1, 2}, {0, 1}};
    winchbarn_sel_place answer = winchbarn_shift_sel(two_rows, LENGTH(two_rows), opened(5),
                                                     edit(WINCHBARN_JOIN_LINES_SPACED, origin, origin, 1), none, 0, none, 0,
                                                     none, 0, sel);
    return answer.refusal == 0 && answer.found && same_place(answer.sel.anchor, at(0, 5)) &&
           same_place(answer.sel.head, at(0, 1));
}

static bool merge_overlapping(void) {
    static const uint32_t sels[8] = {0, 0, 0, 3, 0, 5, 0, 3};
    static const uint32_t merged[8] = {0, 0, 0, 5, 7, 7, 7, 7};
    uint32_t out[8] = {7, 7, 7, 7, 7, 7, 7, 7};
    winchbarn_count answer = winchbarn_merge_overlapping(sels, LENGTH(sels), out, LENGTH(out));
    return answer.refusal == 0 && answer.count == 1 && same_numbers(out, merged, LENGTH(out));
}

static bool sels(void) {
    winchbarn_sel backward = {{3, 4}, {1, 2}}, touching = {{3, 5}, {4, 0}}, sharing = {{3, 4}, {3, 4}};
    winchbarn_sel caret = winchbarn_sel_caret(at(5, UINT32_MAX));
    return same_sel(caret, at(5, UINT32_MAX), at(5, UINT32_MAX)) && winchbarn_sel_is_caret(caret) &&
           !winchbarn_sel_is_caret(backward) && same_place(winchbarn_sel_start(backward), at(1, 2)) &&
           same_place(winchbarn_sel_end(backward), at(3, 4)) && !winchbarn_sel_overlaps(backward, touching) &&
           winchbarn_sel_overlaps(backward, sharing) && winchbarn_sel_overlaps(sharing, backward);
}

/* By characters (0) and by whole rows (1), whose columns are not read; and a kind that is none. */
static bool selection_ends(void) {
    winchbarn_sel sel = {{3, 4}, {1, 2}};
    winchbarn_place head = winchbarn_selection_head(0, sel), head_row = winchbarn_selection_head(1, sel);
    winchbarn_place anchor = winchbarn_selection_anchor(2, sel), anchor_row = winchbarn_selection_anchor(1, sel);
    winchbarn_place no_head = winchbarn_selection_head(3, sel), no_anchor = winchbarn_selection_anchor(3, sel);
    return head.refusal == 0 && head.found && same_place(head.at, at(1, 2)) && same_place(head_row.at, at(1, 0)) &&
           anchor.refusal == 0 && anchor.found && same_place(anchor.at, at(3, 4)) && same_place(anchor_row.at, at(3, 0)) &&
           no_head.refusal == 10 && !no_head.found && no_anchor.refusal == 10 && !no_anchor.found;
}

static bool selection_extend_to(void) {
    winchbarn_sel sel = {{3, 4}, {1, 2}};
    winchbarn_sel_place block = winchbarn_selection_extend_to(2, sel, at(5, 6));
    winchbarn_sel_place rows = winchbarn_selection_extend_to(1, sel, at(5, 6));
    winchbarn_sel_place none = winchbarn_selection_extend_to(3, sel, at(5, 6));
    return block.refusal == 0 && block.found && same_sel(block.sel, at(3, 4), at(5, 6)) && rows.refusal == 0 && rows.found &&
           same_sel(rows.sel, at(3, 0), at(5, 0)) && none.refusal == 10 && !none.found && same_sel(none.sel, origin, origin);
}

static bool selection_row_bounds(void) {
    winchbarn_sel sel = {{3, 4}, {1, 2}};
    winchbarn_rows rows = winchbarn_selection_row_bounds(0, sel);
    winchbarn_rows none = winchbarn_selection_row_bounds(3, sel);
    return rows.refusal == 0 && rows.top == 1 && rows.bottom == 3 && none.refusal == 10 && none.top == 0 && none.bottom == 0;
}

static bool row_span(void) {
    winchbarn_sel sel = {{3, 4}, {1, 2}};
    winchbarn_span open = winchbarn_row_span(WINCHBARN_SELECT_CHAR, sel, 1);
    winchbarn_span closed = winchbarn_row_span(WINCHBARN_SELECT_CHAR, sel, 3);
    winchbarn_span outside = winchbarn_row_span(WINCHBARN_SELECT_CHAR, sel, 4);
    winchbarn_span none = winchbarn_row_span(3, sel, 1);
    return open.refusal == 0 && open.covered && open.open && open.lo == 2 && open.hi == 0 && closed.refusal == 0 &&
           closed.covered && !closed.open && closed.lo == 0 && closed.hi == 4 && outside.refusal == 0 && !outside.covered &&
           none.refusal == WINCHBARN_BAD_FRAME;
}

static bool decode(void) {
    static const uint8_t bytes[10] = {0x61, 0xc3, 0xa9, 0xe3, 0x81, 0x82, 0xf4, 0x8f, 0xbf, 0xbf};
    static const uint32_t scalars[5] = {0x61, 0xe9, 0x3042, 0x10ffff, 7};
    uint32_t out[5] = {7, 7, 7, 7, 7};
    winchbarn_count answer = winchbarn_decode(bytes, sizeof bytes, out, LENGTH(out));
    winchbarn_count bad = winchbarn_decode(bytes, 8, out, LENGTH(out));
    return answer.refusal == 0 && answer.count == 4 && same_numbers(out, scalars, LENGTH(out)) && bad.refusal == WINCHBARN_BAD_UTF8 &&
           bad.offset == 6 && bad.count == 0;
}

static bool encode(void) {
    static const uint32_t scalars[2] = {0x3042, 0x61}, surrogate = 0xd800;
    static const uint8_t bytes[5] = {0xe3, 0x81, 0x82, 0x61, '.'};
    uint8_t out[5] = {'.', '.', '.', '.', '.'};
    winchbarn_count answer = winchbarn_encode(scalars, LENGTH(scalars), out, sizeof out);
    winchbarn_count bad = winchbarn_encode(&surrogate, 1, out, sizeof out);
    return answer.refusal == 0 && answer.count == 4 && memcmp(out, bytes, sizeof bytes) == 0 && bad.refusal == WINCHBARN_BAD_TEXT;
}

static const check checks[] = {
    {"layouts", layouts},
    {"refusals", refusals},
    {"run_script", run_script},
    {"run_script of nothing", run_nothing},
    {"apply_edit", apply_edit},
    {"apply_edit_in", apply_edit_in},
    {"apply_edit_in refuses", apply_edit_in_refuses},
    {"apply_frame", apply_frame},
    {"apply_frame refuses", apply_frame_refuses},
    {"write_edit", write_edit},
    {"write_text", write_text},
    {"write_mark", write_mark},
    {"read_edit", read_edit},
    {"read_edit refuses", read_edit_refuses},
    {"read_text", read_text},
    {"read_mark", read_mark},
    {"undoable", undoable},
    {"split", split},
    {"set_cursor", set_cursor},
    {"clamp_position", clamp_position},
    {"box_fit", box_fit},
    {"box_fit refuses", box_fit_refuses},
    {"shift_position", shift_position},
    {"shift_sel", shift_sel},
    {"merge_overlapping", merge_overlapping},
    {"sel_caret, sel_is_caret, sel_start, sel_end, sel_overlaps", sels},
    {"selection_head, selection_anchor", selection_ends},
    {"selection_extend_to", selection_extend_to},
    {"selection_row_bounds", selection_row_bounds},
    {"row_span", row_span},
    {"decode", decode},
    {"encode", encode},
};

int main(void) {
    size_t failed = 0;
    for (size_t i = 0; i < LENGTH(checks); i++) {
        if (!checks[i].holds()) {
            fprintf(stderr, "%s: not what was expected\n", checks[i].name);
            failed++;
        }
    }
    printf("%zu passed, %zu failed\n", LENGTH(checks) - failed, failed);
    return failed != 0;
}

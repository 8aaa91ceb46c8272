/* Makes calls of every function of winchbarn.h in a thread that has just as much stack left as the header says, with no page below it that may be
 * touched, and prints how much of it was used. What is left is counted from the frame of the function that calls. */
#define _GNU_SOURCE
#include "winchbarn.h"

#include <pthread.h>
#include <stdio.h>
#include <string.h>
#include <sys/mman.h>
#include <sys/wait.h>
#include <unistd.h>

#define LENGTH(array) (sizeof(array) / sizeof((array)[0]))
#define GUARD ((size_t)1 << 20)
#define ABOVE ((size_t)512 << 10) /* for what a thread itself has on its stack, and for as much of it as is taken away */
#define UNTOUCHED 0xa5

typedef struct {
    const char *name;
    size_t needed;
    bool (*calls)(void);
    bool overflows;
} check;

/* An edit of a text whose rows have nine characters, and how much is lent beside it. */
typedef struct {
    winchbarn_edit edit;
    size_t payload, first, second;
} whole;

static const whole edits[] = {
    {{WINCHBARN_INSERT_CHAR, {10, 3}, {0, 0}, 0}, 1, 0, 0},
    {{WINCHBARN_INSERT_STR, {10, 3}, {0, 0}, 0}, 2000, 0, 0},
    {{WINCHBARN_INSERT_STR, {10, 3}, {0, 0}, 0}, 10, 0, 0},
    {{WINCHBARN_DELETE_CHAR, {10, 3}, {20, 7}, 0}, 0, 0, 0},
    {{WINCHBARN_DELETE_LINE, {10, 0}, {20, 0}, 0}, 0, 0, 0},
    {{WINCHBARN_DELETE_BLOCK, {10, 3}, {265, 5}, 0}, 0, 0, 0},
    {{WINCHBARN_JOIN_LINES, {10, 0}, {0, 0}, 30}, 0, 0, 0},
    {{WINCHBARN_JOIN_LINES_SPACED, {10, 0}, {0, 0}, 30}, 0, 0, 0},
    {{WINCHBARN_SPLIT_LINES, {10, 0}, {0, 0}, 0}, 0, 8, 8},
    {{WINCHBARN_REPLACE, {10, 3}, {20, 7}, 0}, 1000, 0, 0},
    {{WINCHBARN_INSERT_BLOCK, {10, 12}, {0, 0}, 0}, 256, 256, 0},
    {{WINCHBARN_DELETE_BLOCK_CHUNKS, {10, 3}, {0, 0}, 0}, 0, 256, 256},
};

static uint32_t text[WINCHBARN_TEXT_LIMIT], payload[WINCHBARN_TEXT_LIMIT];
static uint32_t ones[WINCHBARN_LIST_LIMIT], columns[WINCHBARN_LIST_LIMIT];
static uint32_t out_payload[WINCHBARN_TEXT_LIMIT], out_first[WINCHBARN_LIST_LIMIT], out_second[WINCHBARN_LIST_LIMIT];
static uint32_t sels[WINCHBARN_SELECTION_LIMIT], merged[WINCHBARN_SELECTION_LIMIT];
static uint8_t lines[LENGTH(edits)][WINCHBARN_LINE_LIMIT], bytes[4 * WINCHBARN_TEXT_LIMIT];
static size_t line_lens[LENGTH(edits)], byte_count;
static uint8_t script[1 << 17], printed[1 << 18];
static size_t script_len;

static const uint32_t *first_of(const whole *w) {
    return w->edit.kind == WINCHBARN_SPLIT_LINES ? columns : ones;
}

static winchbarn_view open_text(size_t used) {
    winchbarn_view view = {used, {0, 0}, 0};
    for (size_t i = 0; i < used; i++) {
        text[i] = i % 10 == 9 ? '\n' : 0x3042 + i % 26;
    }
    return view;
}

static void print(const void *line, size_t len) {
    memcpy(script + script_len, line, len);
    script[script_len + len] = '\n';
    script_len += len + 1;
}

static void prepare_script(void) {
    char frame[4096];
    size_t len = (size_t)sprintf(frame, "01");
    for (int i = 0; i < 1000; i++) {
        len += (size_t)sprintf(frame + len, i % 10 == 9 ? "0a" : "61");
    }
    print(frame, len);
    for (int i = 0; i < 64; i++) {
        print("0200000009000000010000001500000004", 34);
    }
    for (size_t i = 0; i < LENGTH(edits); i++) {
        print(lines[i], line_lens[i]);
    }
}

static void prepare(void) {
    for (size_t i = 0; i < LENGTH(payload); i++) {
        payload[i] = 0x10ffff;
    }
    for (uint32_t i = 0; i < WINCHBARN_LIST_LIMIT; i++) {
        ones[i] = 1;
        columns[i] = i + 1;
    }
    for (uint32_t i = 0; i < WINCHBARN_SELECTION_LIMIT; i++) {
        sels[i] = i * 2654435761u >> 20;
    }
    for (size_t i = 0; i < LENGTH(edits); i++) {
        const whole *w = &edits[i];
        winchbarn_count count = winchbarn_write_edit(w->edit, payload, w->payload, first_of(w), w->first, ones, w->second, lines[i],
                                                     WINCHBARN_LINE_LIMIT);
        line_lens[i] = count.count;
    }
    byte_count = winchbarn_encode(payload, LENGTH(payload), bytes, sizeof bytes).count;
    prepare_script();
}

static bool run_script(void) {
    return winchbarn_run_script(script, script_len, printed, sizeof printed).refusal == 0;
}

static bool apply_edit(void) {
    for (size_t i = 0; i < LENGTH(edits); i++) {
        const whole *w = &edits[i];
        winchbarn_view view = open_text(12000);
        if (winchbarn_apply_edit(text, LENGTH(text), view, w->edit, payload, w->payload, first_of(w), w->first, ones, w->second,
                                 out_payload, LENGTH(out_payload), out_first, LENGTH(out_first), out_second, LENGTH(out_second))
                .refusal != 0) {
            return false;
        }
    }
    return true;
}

static bool apply_edit_in(void) {
    for (size_t i = 0; i < LENGTH(edits); i++) {
        const whole *w = &edits[i];
        winchbarn_view view = open_text(12000);
        if (winchbarn_apply_edit_in(text, LENGTH(text), &view, w->edit, payload, w->payload, first_of(w), w->first, ones, w->second,
                                    out_payload, LENGTH(out_payload), out_first, LENGTH(out_first), out_second, LENGTH(out_second))
                .refusal != 0) {
            return false;
        }
    }
    return true;
}

static bool apply_frame(void) {
    for (size_t i = 0; i < LENGTH(edits); i++) {
        winchbarn_view view = open_text(12000);
        uint32_t refusal = winchbarn_apply_frame(text, LENGTH(text), view, lines[i], line_lens[i], out_payload, LENGTH(out_payload),
                                                 out_first, LENGTH(out_first), out_second, LENGTH(out_second))
                               .refusal;
        if (refusal != (edits[i].edit.kind == WINCHBARN_INSERT_CHAR ? WINCHBARN_BAD_FRAME : 0)) {
            return false;
        }
    }
    return true;
}

static bool write_edit(void) {
    for (size_t i = 0; i < LENGTH(edits); i++) {
        const whole *w = &edits[i];
        uint32_t refusal = winchbarn_write_edit(w->edit, payload, w->payload, first_of(w), w->first, ones, w->second, printed,
                                                sizeof printed)
                               .refusal;
        if (refusal != (w->edit.kind == WINCHBARN_INSERT_CHAR ? WINCHBARN_BAD_FRAME : 0)) {
            return false;
        }
    }
    return true;
}

static bool write_text(void) {
    return winchbarn_write_text(payload, 4000, printed, sizeof printed).refusal == 0;
}

static const winchbarn_sel sel = {{15, 5}, {12, 1}};

static bool write_mark(void) {
    return winchbarn_write_mark(sel, printed, sizeof printed).refusal == 0;
}

static bool read_edit(void) {
    for (size_t i = 0; i < LENGTH(edits); i++) {
        uint32_t refusal = winchbarn_read_edit(lines[i], line_lens[i], out_payload, LENGTH(out_payload), out_first, LENGTH(out_first),
                                               out_second, LENGTH(out_second))
                               .refusal;
        if (refusal != (edits[i].edit.kind == WINCHBARN_INSERT_CHAR ? WINCHBARN_BAD_FRAME : 0)) {
            return false;
        }
    }
    return true;
}

/* The script begins with a text, which is longer than what is read into small arrays, and a mark. */
static bool read_text(void) {
    static const char *const short_line = "0161";
    return winchbarn_read_text(script, 2002, out_payload, LENGTH(out_payload)).count == 1000 &&
           winchbarn_read_text((const uint8_t *)short_line, 4, out_payload, LENGTH(out_payload)).count == 1;
}

static bool read_mark(void) {
    return winchbarn_read_mark(script + 2003, 34).found && winchbarn_read_mark(script, 2002).refusal == WINCHBARN_BAD_FRAME;
}

static bool undoable(void) {
    winchbarn_view view = open_text(12000);
    for (size_t i = 0; i < LENGTH(edits); i++) {
        const whole *w = &edits[i];
        if (winchbarn_undoable(text, LENGTH(text), view, w->edit, payload, w->payload, first_of(w), w->first, ones, w->second)
                .refusal != 0) {
            return false;
        }
    }
    return true;
}

static bool set_cursor(void) {
    winchbarn_position pos = {5000, 5000};
    return winchbarn_set_cursor(text, LENGTH(text), open_text(12000), pos).refusal == 0;
}

static bool clamp_position(void) {
    winchbarn_view view = open_text(12000);
    winchbarn_position pos = {5000, 5000};
    return winchbarn_clamp_position(text, LENGTH(text), view.used, pos).refusal == 0;
}

/* Rows of a tab and eight kana, which just fit, so that every one of them is looked for in the table of widths. */
static bool box_fit(void) {
    winchbarn_view view = open_text(12000);
    for (size_t i = 0; i < view.used; i += 10) {
        text[i] = '\t';
    }
    winchbarn_place fits = winchbarn_box_fit(text, LENGTH(text), view.used, 24, 8);
    return fits.refusal == 0 && !fits.found && winchbarn_box_fit(text, LENGTH(text), view.used, 23, 8).found;
}

static bool shift_position(void) {
    winchbarn_view view = open_text(12000);
    winchbarn_position pos = {15, 5};
    for (size_t i = 0; i < LENGTH(edits); i++) {
        const whole *w = &edits[i];
        if (winchbarn_shift_position(text, LENGTH(text), view, w->edit, payload, w->payload, first_of(w), w->first, ones, w->second,
                                     pos)
                .refusal != 0) {
            return false;
        }
    }
    return true;
}

static bool shift_sel(void) {
    winchbarn_view view = open_text(12000);
    for (size_t i = 0; i < LENGTH(edits); i++) {
        const whole *w = &edits[i];
        if (winchbarn_shift_sel(text, LENGTH(text), view, w->edit, payload, w->payload, first_of(w), w->first, ones, w->second, sel)
                .refusal != 0) {
            return false;
        }
    }
    return true;
}

static bool merge_overlapping(void) {
    return winchbarn_merge_overlapping(sels, LENGTH(sels), merged, LENGTH(merged)).refusal == 0;
}

static bool sel_functions(void) {
    winchbarn_sel caret = winchbarn_sel_caret(winchbarn_sel_start(sel));
    return winchbarn_sel_is_caret(caret) && !winchbarn_sel_is_caret(sel) && winchbarn_sel_overlaps(sel, caret) &&
           winchbarn_sel_end(sel).row == 15;
}

static bool selection_functions(void) {
    bool found = true;
    for (uint32_t kind = WINCHBARN_SELECT_CHAR; kind <= WINCHBARN_SELECT_BLOCK; kind++) {
        found = found && winchbarn_selection_head(kind, sel).found && winchbarn_selection_anchor(kind, sel).found &&
                winchbarn_selection_extend_to(kind, sel, sel.head).found && winchbarn_selection_row_bounds(kind, sel).bottom == 15;
    }
    return found;
}

static bool row_span(void) {
    bool covered = true;
    for (uint32_t kind = WINCHBARN_SELECT_CHAR; kind <= WINCHBARN_SELECT_BLOCK; kind++) {
        covered = covered && winchbarn_row_span(kind, sel, 13).covered;
    }
    return covered;
}

static bool decode(void) {
    return winchbarn_decode(bytes, byte_count, out_payload, LENGTH(out_payload)).count == LENGTH(payload);
}

static bool encode(void) {
    return winchbarn_encode(payload, LENGTH(payload), bytes, sizeof bytes).refusal == 0;
}

/* A function that uses 8 KB and some bytes. */
static bool known(void) {
    static volatile size_t last = 8191;
    volatile uint8_t taken[8192];
    taken[0] = 1;
    taken[last] = 1;
    return taken[0] == taken[last];
}

static const check checks[] = {
    {"run_script", WINCHBARN_STACK_RUN_SCRIPT, run_script, false},
    {"apply_edit", WINCHBARN_STACK_APPLY_EDIT, apply_edit, false},
    {"apply_edit_in", WINCHBARN_STACK_APPLY_EDIT_IN, apply_edit_in, false},
    {"apply_frame", WINCHBARN_STACK_APPLY_FRAME, apply_frame, false},
    {"write_edit", WINCHBARN_STACK_WRITE_EDIT, write_edit, false},
    {"write_text", WINCHBARN_STACK_WRITE_TEXT, write_text, false},
    {"write_mark", WINCHBARN_STACK_WRITE_MARK, write_mark, false},
    {"read_edit", WINCHBARN_STACK_READ_EDIT, read_edit, false},
    {"read_text", WINCHBARN_STACK_READ_TEXT, read_text, false},
    {"read_mark", WINCHBARN_STACK_READ_MARK, read_mark, false},
    {"undoable", WINCHBARN_STACK_UNDOABLE, undoable, false},
    {"set_cursor", WINCHBARN_STACK_SET_CURSOR, set_cursor, false},
    {"clamp_position", WINCHBARN_STACK_CLAMP_POSITION, clamp_position, false},
    {"box_fit", WINCHBARN_STACK_BOX_FIT, box_fit, false},
    {"shift_position", WINCHBARN_STACK_SHIFT_POSITION, shift_position, false},
    {"shift_sel", WINCHBARN_STACK_SHIFT_SEL, shift_sel, false},
    {"merge_overlapping", WINCHBARN_STACK_MERGE_OVERLAPPING, merge_overlapping, false},
    {"sel_..", WINCHBARN_STACK_SEL, sel_functions, false},
    {"selection_..", WINCHBARN_STACK_SELECTION, selection_functions, false},
    {"row_span", WINCHBARN_STACK_ROW_SPAN, row_span, false},
    {"decode", WINCHBARN_STACK_DECODE, decode, false},
    {"encode", WINCHBARN_STACK_ENCODE, encode, false},
    {"8 KB in 9", 9 << 10, known, false},
    {"8 KB in 8", 8 << 10, known, true},
};

/* The lowest byte of the thread's stack, the check that it makes, and whether its answers are as expected. */
static uint8_t *floor_of_stack;
static const check *made;
static bool held;

static void *leave_what_is_needed(void *unused) {
    uint8_t here = 0;
    volatile uint8_t taken[(size_t)(&here - floor_of_stack) - made->needed];
    taken[0] = here;
    held = made->calls();
    (void)taken[0];
    return unused;
}

/* Makes the calls in a thread and answers how much of what was left they used; 0 where an answer was not as expected. */
static size_t used_by(const check *c) {
    size_t size = ABOVE + c->needed;
    uint8_t *region = (uint8_t *)mmap(NULL, GUARD + size, PROT_READ | PROT_WRITE, MAP_PRIVATE | MAP_ANONYMOUS, -1, 0);
    pthread_attr_t attributes;
    pthread_t thread;
    if (region == MAP_FAILED || mprotect(region, GUARD, PROT_NONE) != 0) {
        return 0;
    }
    made = c;
    floor_of_stack = region + GUARD;
    memset(floor_of_stack, UNTOUCHED, size);
    if (pthread_attr_init(&attributes) != 0 || pthread_attr_setstack(&attributes, floor_of_stack, size) != 0 ||
        pthread_create(&thread, &attributes, leave_what_is_needed, NULL) != 0 || pthread_join(thread, NULL) != 0) {
        return 0;
    }
    size_t untouched = 0;
    while (untouched < c->needed && floor_of_stack[untouched] == UNTOUCHED) {
        untouched++;
    }
    return held ? c->needed - untouched : 0;
}

/* Whether the calls do with what the header says, in a process of their own, since they end it if they do not. */
static bool holds(const check *c) {
    int status = 0;
    fflush(stdout);
    pid_t child = fork();
    if (child == 0) {
        if (c->overflows && freopen("/dev/null", "w", stderr) == NULL) {
            _exit(1);
        }
        size_t used = used_by(c);
        printf("%s: %zu of %zu bytes of stack\n", c->name, used, c->needed);
        fflush(stdout);
        _exit(used == 0);
    }
    if (child < 0 || waitpid(child, &status, 0) != child) {
        return false;
    }
    return c->overflows ? WIFSIGNALED(status) : WIFEXITED(status) && WEXITSTATUS(status) == 0;
}

int main(void) {
    size_t failed = 0;
    prepare();
    for (size_t i = 0; i < LENGTH(checks); i++) {
        if (!holds(&checks[i])) {
            fprintf(stderr, "%s: not within %zu bytes of stack\n", checks[i].name, checks[i].needed);
            failed++;
        }
    }
    printf("%zu passed, %zu failed\n", LENGTH(checks) - failed, failed);
    return failed != 0;
}

/* The side of the bridge that a program links: the core's functions, each of which hands its call to the server and waits for the answer.
 * Slices are copied to the server's file, between guard bytes, and those that may be written are copied back. A guard byte or a const slice
 * that the core changed ends the program. */
#define _GNU_SOURCE
#include "call.h"

#include <fcntl.h>
#include <pthread.h>
#include <stdio.h>
#include <stdlib.h>
#include <string.h>
#include <sys/mman.h>
#include <unistd.h>

#define GUARD 64
#define GUARD_BYTE 0xa5

static pthread_mutex_t one_call = PTHREAD_MUTEX_INITIALIZER;
static uint8_t *file;
static int to_server, from_server;
static size_t filled;
static struct {
    void *home;
    size_t offset, bytes;
    int written;
} lent[7];
static int lent_count;

static void fail(const char *why) {
    fprintf(stderr, "bridge: %s\n", why);
    abort();
}

static void take_turns(void) {
    char turn = 0;
    if (write(to_server, &turn, 1) != 1 || read(from_server, &turn, 1) != 1) {
        fail("the server does not answer");
    }
}

static void start_server(void) {
    int fd = memfd_create("winchbarn", 0), there[2], back[2];
    char word[16];
    snprintf(word, sizeof word, "%d", fd);
    if (fd < 0 || ftruncate(fd, FILE_SIZE) || pipe2(there, O_CLOEXEC) || pipe2(back, O_CLOEXEC)) {
        fail("no file or no pipe");
    }
    file = mmap(NULL, FILE_SIZE, PROT_READ | PROT_WRITE, MAP_SHARED, fd, 0);
    if (file == MAP_FAILED) {
        fail("the file is not mapped");
    }
    if (fork() == 0) {
        dup2(there[0], STDIN_FILENO);
        dup2(back[1], STDOUT_FILENO);
        execl(EMULATOR, EMULATOR, LOADER, "--library-path", LIBRARIES, SERVER, word, (char *)NULL);
        _exit(127);
    }
    close(there[0]);
    close(back[1]);
    close(fd);
    to_server = there[1];
    from_server = back[0];
    ((call *)file)->function = ROW_SPAN;
    take_turns();
}

static call *begin(uint32_t function) {
    pthread_mutex_lock(&one_call);
    if (file == NULL) {
        start_server();
    }
    call *c = (call *)file;
    memset(c, 0, sizeof *c);
    c->function = function;
    filled = sizeof *c;
    lent_count = 0;
    return c;
}

static void lend(call *c, const void *home, size_t len, size_t size, int written) {
    size_t bytes = len * size;
    size_t offset = (filled + GUARD + 7) / 8 * 8;
    if (FILE_SIZE - GUARD < bytes || FILE_SIZE - GUARD - bytes < offset) {
        fail("a call is too long");
    }
    memset(file + offset - GUARD, GUARD_BYTE, GUARD);
    memcpy(file + offset, home, bytes);
    memset(file + offset + bytes, GUARD_BYTE, GUARD);
    lent[lent_count].home = (void *)(uintptr_t)home;
    lent[lent_count].offset = offset;
    lent[lent_count].bytes = bytes;
    lent[lent_count].written = written;
    c->slices[lent_count] = (slice){offset, len};
    lent_count += 1;
    filled = offset + bytes + GUARD;
}

static void take_back(int i) {
    uint8_t *copy = file + lent[i].offset;
    for (size_t k = 0; k < GUARD; k++) {
        if (copy[lent[i].bytes + k] != GUARD_BYTE || *(copy - 1 - k) != GUARD_BYTE) {
            fail("the core wrote outside of a slice");
        }
    }
    if (lent[i].written) {
        memcpy(lent[i].home, copy, lent[i].bytes);
    } else if (memcmp(lent[i].home, copy, lent[i].bytes) != 0) {
        fail("the core wrote to a const slice");
    }
}

static void make(void) {
    take_turns();
    for (int i = 0; i < lent_count; i++) {
        take_back(i);
    }
}

#define READ(p) lend(c, p, p##_len, sizeof *(p), 0)
#define WRITTEN(p) lend(c, p, p##_len, sizeof *(p), 1)
#define ANSWER(type, field)                \
    make();                                \
    type answer = c->answer.field;         \
    pthread_mutex_unlock(&one_call);       \
    return answer

winchbarn_count winchbarn_run_script(const uint8_t *input, size_t input_len, uint8_t *out, size_t out_len) {
    call *c = begin(RUN_SCRIPT);
    READ(input);
    WRITTEN(out);
    ANSWER(winchbarn_count, count);
}

winchbarn_applied winchbarn_apply_edit(uint32_t *text, size_t text_len, winchbarn_view view, winchbarn_edit edit,
                                       const uint32_t *payload, size_t payload_len, const uint32_t *first, size_t first_len,
                                       const uint32_t *second, size_t second_len, uint32_t *out_payload, size_t out_payload_len,
                                       uint32_t *out_first, size_t out_first_len, uint32_t *out_second, size_t out_second_len) {
    call *c = begin(APPLY_EDIT);
    c->view = view;
    c->edit = edit;
    WRITTEN(text);
    READ(payload);
    READ(first);
    READ(second);
    WRITTEN(out_payload);
    WRITTEN(out_first);
    WRITTEN(out_second);
    ANSWER(winchbarn_applied, applied);
}

winchbarn_applied winchbarn_apply_edit_in(uint32_t *text, size_t text_len, winchbarn_view *view, winchbarn_edit edit,
                                          const uint32_t *payload, size_t payload_len, const uint32_t *first, size_t first_len,
                                          const uint32_t *second, size_t second_len, uint32_t *out_payload, size_t out_payload_len,
                                          uint32_t *out_first, size_t out_first_len, uint32_t *out_second, size_t out_second_len) {
    call *c = begin(APPLY_EDIT_IN);
    c->view = *view;
    c->edit = edit;
    WRITTEN(text);
    READ(payload);
    READ(first);
    READ(second);
    WRITTEN(out_payload);
    WRITTEN(out_first);
    WRITTEN(out_second);
    make();
    *view = c->view;
    winchbarn_applied answer = c->answer.applied;
    pthread_mutex_unlock(&one_call);
    return answer;
}

winchbarn_applied winchbarn_apply_frame(uint32_t *text, size_t text_len, winchbarn_view view, const uint8_t *line, size_t line_len,
                                        uint32_t *out_payload, size_t out_payload_len, uint32_t *out_first, size_t out_first_len,
                                        uint32_t *out_second, size_t out_second_len) {
    call *c = begin(APPLY_FRAME);
    c->view = view;
    WRITTEN(text);
    READ(line);
    WRITTEN(out_payload);
    WRITTEN(out_first);
    WRITTEN(out_second);
    ANSWER(winchbarn_applied, applied);
}

winchbarn_count winchbarn_write_edit(winchbarn_edit edit, const uint32_t *payload, size_t payload_len, const uint32_t *first,
                                     size_t first_len, const uint32_t *second, size_t second_len, uint8_t *out, size_t out_len) {
    call *c = begin(WRITE_EDIT);
    c->edit = edit;
    READ(payload);
    READ(first);
    READ(second);
    WRITTEN(out);
    ANSWER(winchbarn_count, count);
}

winchbarn_count winchbarn_write_text(const uint32_t *text, size_t text_len, uint8_t *out, size_t out_len) {
    call *c = begin(WRITE_TEXT);
    READ(text);
    WRITTEN(out);
    ANSWER(winchbarn_count, count);
}

winchbarn_count winchbarn_write_mark(winchbarn_sel mark, uint8_t *out, size_t out_len) {
    call *c = begin(WRITE_MARK);
    c->sel = mark;
    WRITTEN(out);
    ANSWER(winchbarn_count, count);
}

winchbarn_frame winchbarn_read_edit(const uint8_t *line, size_t line_len, uint32_t *out_payload, size_t out_payload_len,
                                    uint32_t *out_first, size_t out_first_len, uint32_t *out_second, size_t out_second_len) {
    call *c = begin(READ_EDIT);
    READ(line);
    WRITTEN(out_payload);
    WRITTEN(out_first);
    WRITTEN(out_second);
    ANSWER(winchbarn_frame, frame);
}

winchbarn_count winchbarn_read_text(const uint8_t *line, size_t line_len, uint32_t *out, size_t out_len) {
    call *c = begin(READ_TEXT);
    READ(line);
    WRITTEN(out);
    ANSWER(winchbarn_count, count);
}

winchbarn_sel_place winchbarn_read_mark(const uint8_t *line, size_t line_len) {
    call *c = begin(READ_MARK);
    READ(line);
    ANSWER(winchbarn_sel_place, sel_place);
}

winchbarn_said winchbarn_undoable(const uint32_t *text, size_t text_len, winchbarn_view view, winchbarn_edit edit,
                                  const uint32_t *payload, size_t payload_len, const uint32_t *first, size_t first_len,
                                  const uint32_t *second, size_t second_len) {
    call *c = begin(UNDOABLE);
    c->view = view;
    c->edit = edit;
    READ(text);
    READ(payload);
    READ(first);
    READ(second);
    ANSWER(winchbarn_said, said);
}

winchbarn_viewed winchbarn_set_cursor(const uint32_t *text, size_t text_len, winchbarn_view view, winchbarn_position pos) {
    call *c = begin(SET_CURSOR);
    c->view = view;
    c->pos = pos;
    READ(text);
    ANSWER(winchbarn_viewed, viewed);
}

winchbarn_place winchbarn_clamp_position(const uint32_t *text, size_t text_len, size_t used, winchbarn_position pos) {
    call *c = begin(CLAMP_POSITION);
    c->used = used;
    c->pos = pos;
    READ(text);
    ANSWER(winchbarn_place, place);
}

winchbarn_place winchbarn_box_fit(const uint32_t *text, size_t text_len, size_t used, uint32_t cells, uint32_t tab) {
    call *c = begin(BOX_FIT);
    c->used = used;
    c->number = cells;
    c->tab = tab;
    READ(text);
    ANSWER(winchbarn_place, place);
}

winchbarn_place winchbarn_shift_position(const uint32_t *text, size_t text_len, winchbarn_view view, winchbarn_edit edit,
                                         const uint32_t *payload, size_t payload_len, const uint32_t *first, size_t first_len,
                                         const uint32_t *second, size_t second_len, winchbarn_position pos) {
    call *c = begin(SHIFT_POSITION);
    c->view = view;
    c->edit = edit;
    c->pos = pos;
    READ(text);
    READ(payload);
    READ(first);
    READ(second);
    ANSWER(winchbarn_place, place);
}

winchbarn_sel_place winchbarn_shift_sel(const uint32_t *text, size_t text_len, winchbarn_view view, winchbarn_edit edit,
                                        const uint32_t *payload, size_t payload_len, const uint32_t *first, size_t first_len,
                                        const uint32_t *second, size_t second_len, winchbarn_sel sel) {
    call *c = begin(SHIFT_SEL);
    c->view = view;
    c->edit = edit;
    c->sel = sel;
    READ(text);
    READ(payload);
    READ(first);
    READ(second);
    ANSWER(winchbarn_sel_place, sel_place);
}

winchbarn_count winchbarn_merge_overlapping(const uint32_t *sels, size_t sels_len, uint32_t *out, size_t out_len) {
    call *c = begin(MERGE_OVERLAPPING);
    READ(sels);
    WRITTEN(out);
    ANSWER(winchbarn_count, count);
}

winchbarn_sel winchbarn_sel_caret(winchbarn_position pos) {
    call *c = begin(SEL_CARET);
    c->pos = pos;
    ANSWER(winchbarn_sel, sel);
}

bool winchbarn_sel_is_caret(winchbarn_sel sel) {
    call *c = begin(SEL_IS_CARET);
    c->sel = sel;
    ANSWER(bool, yes);
}

winchbarn_position winchbarn_sel_start(winchbarn_sel sel) {
    call *c = begin(SEL_START);
    c->sel = sel;
    ANSWER(winchbarn_position, position);
}

winchbarn_position winchbarn_sel_end(winchbarn_sel sel) {
    call *c = begin(SEL_END);
    c->sel = sel;
    ANSWER(winchbarn_position, position);
}

bool winchbarn_sel_overlaps(winchbarn_sel sel, winchbarn_sel other) {
    call *c = begin(SEL_OVERLAPS);
    c->sel = sel;
    c->other = other;
    ANSWER(bool, yes);
}

winchbarn_place winchbarn_selection_head(uint32_t kind, winchbarn_sel sel) {
    call *c = begin(SELECTION_HEAD);
    c->number = kind;
    c->sel = sel;
    ANSWER(winchbarn_place, place);
}

winchbarn_place winchbarn_selection_anchor(uint32_t kind, winchbarn_sel sel) {
    call *c = begin(SELECTION_ANCHOR);
    c->number = kind;
    c->sel = sel;
    ANSWER(winchbarn_place, place);
}

winchbarn_sel_place winchbarn_selection_extend_to(uint32_t kind, winchbarn_sel sel, winchbarn_position pos) {
    call *c = begin(SELECTION_EXTEND_TO);
    c->number = kind;
    c->sel = sel;
    c->pos = pos;
    ANSWER(winchbarn_sel_place, sel_place);
}

winchbarn_rows winchbarn_selection_row_bounds(uint32_t kind, winchbarn_sel sel) {
    call *c = begin(SELECTION_ROW_BOUNDS);
    c->number = kind;
    c->sel = sel;
    ANSWER(winchbarn_rows, rows);
}

winchbarn_span winchbarn_row_span(uint32_t kind, winchbarn_sel sel, uint32_t row) {
    call *c = begin(ROW_SPAN);
    c->number = kind;
    c->sel = sel;
    c->row = row;
    ANSWER(winchbarn_span, span);
}

winchbarn_count winchbarn_decode(const uint8_t *bytes, size_t bytes_len, uint32_t *out, size_t out_len) {
    call *c = begin(DECODE);
    READ(bytes);
    WRITTEN(out);
    ANSWER(winchbarn_count, count);
}

winchbarn_count winchbarn_encode(const uint32_t *scalars, size_t scalars_len, uint8_t *out, size_t out_len) {
    call *c = begin(ENCODE);
    READ(scalars);
    WRITTEN(out);
    ANSWER(winchbarn_count, count);
}

/* The side of the bridge that holds the core. For each byte on standard input it makes the call that stands in the file whose descriptor is
 * its argument, and writes a byte to standard output. */
#include "call.h"

#include <stdio.h>
#include <stdlib.h>
#include <sys/mman.h>
#include <unistd.h>

static uint8_t *file;

#define BYTES(i) (uint8_t *)(file + c->slices[i].offset), c->slices[i].len
#define WORDS(i) (uint32_t *)(file + c->slices[i].offset), c->slices[i].len

static void serve(call *c) {
    switch (c->function) {
    case RUN_SCRIPT:
        c->answer.count = winchbarn_run_script(BYTES(0), BYTES(1));
        break;
    case APPLY_EDIT:
        c->answer.applied =
            winchbarn_apply_edit(WORDS(0), c->view, c->edit, WORDS(1), WORDS(2), WORDS(3), WORDS(4), WORDS(5), WORDS(6));
        break;
    case APPLY_EDIT_IN:
        c->answer.applied =
            winchbarn_apply_edit_in(WORDS(0), &c->view, c->edit, WORDS(1), WORDS(2), WORDS(3), WORDS(4), WORDS(5), WORDS(6));
        break;
    case APPLY_FRAME:
        c->answer.applied = winchbarn_apply_frame(WORDS(0), c->view, BYTES(1), WORDS(2), WORDS(3), WORDS(4));
        break;
    case WRITE_EDIT:
        c->answer.count = winchbarn_write_edit(c->edit, WORDS(0), WORDS(1), WORDS(2), BYTES(3));
        break;
    case WRITE_TEXT:
        c->answer.count = winchbarn_write_text(WORDS(0), BYTES(1));
        break;
    case WRITE_MARK:
        c->answer.count = winchbarn_write_mark(c->sel, BYTES(0));
        break;
    case READ_EDIT:
        c->answer.frame = winchbarn_read_edit(BYTES(0), WORDS(1), WORDS(2), WORDS(3));
        break;
    case READ_TEXT:
        c->answer.count = winchbarn_read_text(BYTES(0), WORDS(1));
        break;
    case READ_MARK:
        c->answer.sel_place = winchbarn_read_mark(BYTES(0));
        break;
    case UNDOABLE:
        c->answer.said = winchbarn_undoable(WORDS(0), c->view, c->edit, WORDS(1), WORDS(2), WORDS(3));
        break;
    case SET_CURSOR:
        c->answer.viewed = winchbarn_set_cursor(WORDS(0), c->view, c->pos);
        break;
    case CLAMP_POSITION:
        c->answer.place = winchbarn_clamp_position(WORDS(0), c->used, c->pos);
        break;
    case BOX_FIT:
        c->answer.place = winchbarn_box_fit(WORDS(0), c->used, c->number, c->tab);
        break;
    case SHIFT_POSITION:
        c->answer.place = winchbarn_shift_position(WORDS(0), c->view, c->edit, WORDS(1), WORDS(2), WORDS(3), c->pos);
        break;
    case SHIFT_SEL:
        c->answer.sel_place = winchbarn_shift_sel(WORDS(0), c->view, c->edit, WORDS(1), WORDS(2), WORDS(3), c->sel);
        break;
    case MERGE_OVERLAPPING:
        c->answer.count = winchbarn_merge_overlapping(WORDS(0), WORDS(1));
        break;
    case SEL_CARET:
        c->answer.sel = winchbarn_sel_caret(c->pos);
        break;
    case SEL_IS_CARET:
        c->answer.yes = winchbarn_sel_is_caret(c->sel);
        break;
    case SEL_START:
        c->answer.position = winchbarn_sel_start(c->sel);
        break;
    case SEL_END:
        c->answer.position = winchbarn_sel_end(c->sel);
        break;
    case SEL_OVERLAPS:
        c->answer.yes = winchbarn_sel_overlaps(c->sel, c->other);
        break;
    case SELECTION_HEAD:
        c->answer.place = winchbarn_selection_head(c->number, c->sel);
        break;
    case SELECTION_ANCHOR:
        c->answer.place = winchbarn_selection_anchor(c->number, c->sel);
        break;
    case SELECTION_EXTEND_TO:
        c->answer.sel_place = winchbarn_selection_extend_to(c->number, c->sel, c->pos);
        break;
    case SELECTION_ROW_BOUNDS:
        c->answer.rows = winchbarn_selection_row_bounds(c->number, c->sel);
        break;
    case ROW_SPAN:
        c->answer.span = winchbarn_row_span(c->number, c->sel, c->row);
        break;
    case DECODE:
        c->answer.count = winchbarn_decode(BYTES(0), WORDS(1));
        break;
    case ENCODE:
        c->answer.count = winchbarn_encode(WORDS(0), BYTES(1));
        break;
    default:
        abort();
    }
}

int main(int count, char **words) {
    int fd = count == 2 ? atoi(words[1]) : -1;
    file = mmap(NULL, FILE_SIZE, PROT_READ | PROT_WRITE, MAP_SHARED, fd, 0);
    if (file == MAP_FAILED) {
        perror("the bridge's file");
        return 1;
    }
    char turn;
    while (read(STDIN_FILENO, &turn, 1) == 1) {
        serve((call *)file);
        if (write(STDOUT_FILENO, &turn, 1) != 1) {
            return 1;
        }
    }
    return 0;
}

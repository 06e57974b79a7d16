/* Live editors for C and C++: each is kept between calls, in a slot of the caller's.
 *
 *     lx_live_slot slot = LX_LIVE_NO_EDITOR;
 *     if (lx_live_open(&slot, false, 1000) == LX_LIVE_DONE)
 *         lx_live_line(&slot, line, line_length, output, sizeof output, &length);
 *     lx_live_close(&slot);
 *
 * Nothing checks a caller. Each pointer has to lead to as many bytes as its length says. It isn't null, also where the
 * length is 0. Neither of the slot, the output and the length may overlap anything else that is passed.
 *
 * A slot begins as LX_LIVE_NO_EDITOR, and from then on only these calls write it. It may be moved, but of two copies only
 * one is used. An editor that isn't closed keeps its memory.
 *
 * A slot is used by one thread at a time. Different slots share nothing, so threads may use theirs at once, if malloc,
 * realloc and free may be called from several. No call is made from a signal handler, nor in the forked child of a
 * process with threads. */
#ifndef LX_LIVE_H
#define LX_LIVE_H
#include <stdbool.h>
#include <stddef.h>
#include <stdint.h>

#ifdef __cplusplus
extern "C" {
#endif

/* What calls answer. The program `lexical` ends with 0, 5 and 6 for the same reasons: a line may be as long as the whole
 * input there. */
#define LX_LIVE_DONE 0     /* done; a line is answered, also where its reply says that it was refused */
#define LX_LIVE_CLOSED 1   /* the slot has no editor: nothing was done */
#define LX_LIVE_MEMORY 5   /* malloc gave none: each call says what holds then */
#define LX_LIVE_TOO_LONG 6 /* the line has more than 16,777,216 bytes: nothing was done */
#define LX_LIVE_SPENT 7    /* the editor has made 4,294,967,295 commits, and can't make more: nothing was done */

/* Room for one editor. All zero, it has none. */
typedef struct {
    bool is_open;
    void *editor;
} lx_live_slot;
#define LX_LIVE_NO_EDITOR {false, NULL}

/* Opens a new editor in the slot, in the place of one that is there. Its reply is empty before the first line. With
 * `tells_view` replies to commits include the view, as HTML. Typing goes on in one entry of the history while less than
 * `delay` milliseconds lie between two commits. LX_LIVE_DONE, or LX_LIVE_MEMORY: the slot is as it was. */
uint8_t lx_live_open(lx_live_slot *slot, bool tells_view, uint64_t delay);

/* Answers a line, without its end: a line end inside would be read as white space. At LX_LIVE_DONE `*length` is that of
 * the whole reply. The output then begins with as much of the reply as goes in, and what stands behind that stays. At
 * each other number `*length` is 0, and the output stays. At LX_LIVE_MEMORY the editor is as it was, with the reply
 * before, but updates that wait for a flush may be dropped. */
uint8_t lx_live_line(lx_live_slot *slot, const uint8_t *line, size_t line_length, uint8_t *output, size_t output_length,
                     size_t *length);

/* Puts the reply to the line that was answered last into the output: from byte `from` on, as much as goes in. `*length`
 * is that of the whole reply. So a long reply is had in pieces, and that takes no memory. LX_LIVE_DONE, or
 * LX_LIVE_CLOSED: `*length` is 0, and the output stays. */
uint8_t lx_live_reply(lx_live_slot *slot, size_t from, uint8_t *output, size_t output_length, size_t *length);

/* Drops the editor, and gives its memory back. Without an editor it does nothing. */
void lx_live_close(lx_live_slot *slot);

#ifdef __cplusplus
}
#endif
#endif

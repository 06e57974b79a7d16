/* The editor for C: one call answers a session of JSON lines.
 *
 * Nothing checks a caller. Each pointer has to lead to as many bytes as its length says, `written` to one size_t, and neither of
 * the output and `written` may overlap anything else that is passed. A pointer isn't null, also where its length is 0. The
 * call isn't made from a signal handler, nor in the forked child of a process with threads; calls from several threads share
 * nothing, if malloc, realloc and free may be called from several. */
#ifndef LX_C_H
#define LX_C_H
#include <stddef.h>
#include <stdint.h>

#define LX_DONE 0           /* all replies were written */
#define LX_NO_ROOM 4        /* the output is too short: a front of the replies was written */
#define LX_NO_MEMORY 5      /* malloc gave none: a front of the replies was written */
#define LX_INPUT_TOO_LONG 6 /* more than 16,777,216 bytes: the lines that ended before the next byte are answered */

/* Answers the lines of the input, on a new editor, as the program `lexical` without words. The replies are the first `*written`
 * bytes of the output, and what stands behind these stays. It takes memory for both lengths, beside what the editor needs. */
uint8_t lx_answer(const uint8_t *input, size_t input_length, uint8_t *output, size_t output_length, size_t *written);
#endif

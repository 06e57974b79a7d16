/* Answers the lines of standard input on standard output, as ./lexical does, by the library. */
#include <stdio.h>
#include <stdlib.h>
#include "lx_c.h"

#define MOST_INPUT 16777217 /* one byte more than a session may have */
#define LX_WRITE_FAULT 255  /* standard output failed */

/* Answers with twice the room each time, until the replies fit. */
static int answer(const uint8_t *input, size_t length) {
    for (size_t room = 1 << 20; room <= (size_t)1 << 32; room *= 2) {
        uint8_t *output = malloc(room);
        size_t written = 0;
        if (output == NULL)
            return LX_NO_MEMORY;
        uint8_t status = lx_answer(input, length, output, room, &written);
        if (status != LX_NO_ROOM && fwrite(output, 1, written, stdout) != written)
            status = LX_WRITE_FAULT;
        free(output);
        if (status != LX_NO_ROOM)
            return status == LX_WRITE_FAULT ? 4 : status;
    }
    return LX_NO_MEMORY;
}

int main(void) {
    uint8_t *input = malloc(MOST_INPUT);
    if (input == NULL)
        return LX_NO_MEMORY;
    int status = answer(input, fread(input, 1, MOST_INPUT, stdin));
    free(input);
    return status;
}

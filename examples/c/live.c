/* Two editors that are open at once, typed into in turn. Replies are had in pieces, through a small buffer. */
#include <stdio.h>
#include <stdlib.h>
#include <string.h>
#include "lx_live.h"

#define EDITORS 2
#define PIECE 64      /* bytes at a time of a reply */
#define WRITE_FAULT 4 /* standard output failed: the program's status for that */

static const char *const begin = "{\"update\":[{\"append\":\"\"},"
                                 "{\"select\":{\"anchor\":[1,0,\"element\"],\"focus\":[1,0,\"element\"]}}]}";

static size_t smaller(size_t one, size_t other) {
    return one < other ? one : other;
}

/* Ends the program where a call isn't done, with the number that it answered. */
static void need(uint8_t told) {
    if (told != LX_LIVE_DONE)
        exit(told);
}

/* Prints the reply to a line, however long it is: piece by piece, without memory for all of it. */
static void say(lx_live_slot *slot, const char *line) {
    uint8_t piece[PIECE];
    size_t length = 0, from = 0, pieces = 0;
    need(lx_live_line(slot, (const uint8_t *)line, strlen(line), piece, sizeof piece, &length));
    while (from < length) {
        size_t count = smaller(length - from, sizeof piece);
        fwrite(piece, 1, count, stdout);
        from += count;
        pieces += 1;
        if (from < length)
            need(lx_live_reply(slot, from, piece, sizeof piece, &length));
    }
    printf("\n    %zu bytes in pieces: %zu\n", length, pieces);
}

/* Types each of the words into its editor, in turn. */
static void type(lx_live_slot *slots, const char *const words[][EDITORS], size_t rounds) {
    char line[100];
    for (size_t i = 0; i < rounds * EDITORS; i += 1) {
        const char *word = words[i / EDITORS][i % EDITORS];
        snprintf(line, sizeof line, "{\"dispatch\":\"insert-text\",\"payload\":\"%s\"}", word);
        say(&slots[i % EDITORS], line);
    }
}

int main(void) {
    static const char *const words[][EDITORS] = {{"Good ", "Guten "}, {"morning", "Morgen"}};
    lx_live_slot slots[EDITORS] = {LX_LIVE_NO_EDITOR, LX_LIVE_NO_EDITOR};
    uint8_t none[1];
    size_t length = 0;
    for (int i = 0; i < EDITORS; i += 1) {
        need(lx_live_open(&slots[i], false, 1000));
        say(&slots[i], begin);
    }
    type(slots, words, sizeof words / sizeof words[0]);
    say(&slots[0], "{\"dispatch\":\"undo\"}"); /* what was typed in one editor is undone there alone */
    say(&slots[0], "{\"show\":\"view\"}");
    say(&slots[1], "{\"show\":\"state\"}");
    lx_live_close(&slots[0]);
    if (lx_live_reply(&slots[0], 0, none, sizeof none, &length) == LX_LIVE_CLOSED)
        printf("the first one is closed\n");
    say(&slots[1], "{\"show\":\"history\"}"); /* the other goes on */
    lx_live_close(&slots[1]);
    return fflush(stdout) != 0 || ferror(stdout) ? WRITE_FAULT : LX_LIVE_DONE;
}

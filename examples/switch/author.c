/*
 * The author's side: translates a restriction into the blocks that a switch loads.
 *
 *   author TEXT KEYS BLOCKS
 *
 * TEXT is the restriction, KEYS the table's key list in bytes (`desk pack keys` makes it), BLOCKS the file to write. It is
 * written only if the text passes. Status: 0 written, 2 refused, 3 wrong usage or a file that cannot be read or written.
 */
#include <inttypes.h>
#include <stdio.h>

#include "files.h"
#include "pollux.h"

int main(int count, char **words)
{
    if (count != 4) {
        fprintf(stderr, "usage: author TEXT KEYS BLOCKS\n");
        return 3;
    }
    struct bytes text = read_file(words[1]);
    struct bytes list = read_file(words[2]);

    /* Large enough for any text, so refusal 15 cannot come. */
    static uint8_t buffer[POLLUX_MAX_BLOCKS_SIZE];
    struct pollux_answer answer =
        pollux_translate(text.at, text.length, list.at, list.length, buffer, sizeof buffer);
    if (answer.says == POLLUX_REFUSED) {
        const char *file = answer.input == POLLUX_TEXT ? words[1] : words[2];
        fprintf(stderr, "%s: refused, number %" PRIu64 " at byte %" PRIu64 "\n", file, answer.number, answer.value);
        return 2;
    }
    size_t length = POLLUX_BLOCKS_SIZE(answer.value);
    write_file(words[3], buffer, length);
    printf("%" PRIu64 " instructions in %zu blocks\n", answer.value, length / POLLUX_BLOCK_SIZE);
    return 0;
}

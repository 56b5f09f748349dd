/*
 * On site: says for each entry why it is turned away.
 *
 *   why TEXT KEYS ENTRIES     the restriction, the key list, and entries end to end, each a file
 *
 * For each entry a line: accepted; violated, with the part of the restriction that is false, as it stands in the text; or refused, with
 * the number and the key whose record breaks its rule, or else the input and the byte offset in it. A switch needs only blocks to
 * judge; what broke is a piece of the text, so this is given the text as well.
 * Status: 0 the entries were judged, 3 wrong usage or a file that cannot be read.
 */
#include <inttypes.h>
#include <stdio.h>

#include "files.h"
#include "pollux.h"

/* The piece is not copied: it stands in the text, or in the key list, from its start on. */
static void print_piece(struct bytes input, struct pollux_reason reason)
{
    fwrite(input.at + reason.start, 1, reason.length, stdout);
    printf("\n");
}

static void print_reason(struct pollux_reason reason, struct bytes text, struct bytes list)
{
    static const char *const inputs[] = { "nowhere", "text", "list", "entry", "blocks", "buffer" };
    if (reason.says == POLLUX_ACCEPTED) {
        printf("accepted\n");
    } else if (reason.says == POLLUX_VIOLATED) {
        printf("violated, part %" PRIu64 ": ", reason.part);
        print_piece(text, reason);
    } else if (reason.length > 0) {
        printf("refused %" PRIu64 ", key ", reason.number);
        print_piece(list, reason);
    } else {
        printf("refused %" PRIu64 " %s %" PRIu64 "\n", reason.number, inputs[reason.input], reason.value);
    }
}

/* What is left at the end of a cut file is handed over as it is, and refused for its length. */
static void explain_all(struct bytes text, struct bytes list, struct bytes entries)
{
    size_t size = POLLUX_ENTRY_SIZE(list.length / POLLUX_KEY_SIZE);
    while (entries.length > 0) {
        size_t length = entries.length < size ? entries.length : size;
        print_reason(pollux_explain(text.at, text.length, list.at, list.length, entries.at, length), text, list);
        entries.at += length;
        entries.length -= length;
    }
}

int main(int count, char **words)
{
    if (count != 4) {
        fprintf(stderr, "usage: why TEXT KEYS ENTRIES\n");
        return 3;
    }
    explain_all(read_file(words[1]), read_file(words[2]), read_file(words[3]));
    return 0;
}

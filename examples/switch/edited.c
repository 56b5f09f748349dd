/*
 * A controller after an edit: rechecks each entry, with the answer that it kept of the entry before.
 *
 *   edited TEXT KEYS OLD NEW     the restriction, the key list, and the entries before and after, end to end, each a file
 *
 * The answers of the old entries are worked out first, as a controller would when it wrote them. Then for each new entry a line: its answer,
 * and whether it was reused; a refusal with its number, input and byte offset. The last line counts both.
 * Status: 0 the entries were rechecked, 3 wrong usage, a file that cannot be read, or files of different lengths.
 */
#include <inttypes.h>
#include <stdio.h>
#include <stdlib.h>

#include "files.h"
#include "pollux.h"

/* The answers of entries that stand end to end. What is left at the end of a cut file is handed over as it is, and refused for its length. */
static struct pollux_answer *kept_answers(struct bytes text, struct bytes list, struct bytes entries)
{
    size_t size = POLLUX_ENTRY_SIZE(list.length / POLLUX_KEY_SIZE), kept = 0;
    struct pollux_answer *answers = malloc((entries.length / size + 1) * sizeof *answers);
    if (answers == NULL) {
        perror("answers");
        exit(3);
    }
    for (size_t at = 0; at < entries.length; at += size) {
        size_t length = entries.length - at < size ? entries.length - at : size;
        answers[kept++] = pollux_judge(text.at, text.length, list.at, list.length, entries.at + at, length);
    }
    return answers;
}

static void print_rechecked(struct pollux_rechecked it)
{
    static const char *const inputs[] = { "nowhere", "text", "list", "entry", "blocks", "buffer" };
    if (it.says == POLLUX_REFUSED)
        printf("refused %" PRIu64 " %s %" PRIu64, it.number, inputs[it.input], it.value);
    else
        printf("%s", it.says == POLLUX_ACCEPTED ? "accepted" : "violated");
    printf(", %s\n", it.reused ? "reused" : "judged");
}

static void recheck_all(struct bytes text, struct bytes list, struct bytes old, struct bytes new)
{
    size_t size = POLLUX_ENTRY_SIZE(list.length / POLLUX_KEY_SIZE), count = 0, reused = 0;
    struct pollux_answer *answers = kept_answers(text, list, old);
    for (size_t at = 0; at < new.length; at += size, count++) {
        size_t length = new.length - at < size ? new.length - at : size;
        struct pollux_rechecked it = pollux_recheck(text.at, text.length, list.at, list.length, old.at + at, length, answers[count],
                                                    new.at + at, length);
        print_rechecked(it);
        reused += it.reused;
    }
    printf("%zu reused, %zu judged\n", reused, count - reused);
    free(answers);
}

int main(int count, char **words)
{
    if (count != 5) {
        fprintf(stderr, "usage: edited TEXT KEYS OLD NEW\n");
        return 3;
    }
    struct bytes old = read_file(words[3]), new = read_file(words[4]);
    if (old.length != new.length) {
        fprintf(stderr, "%s and %s have different lengths\n", words[3], words[4]);
        return 3;
    }
    recheck_all(read_file(words[1]), read_file(words[2]), old, new);
    return 0;
}

/*
 * The program `count` in plain C, with all its checks, as a careful engineer would write it without proofs:
 *
 *   plain TEXT KEYS ENTRIES
 */
#include <stdio.h>
#include <stdlib.h>

#include "../plain_parts.h"

enum { BUFFER = 65536 };

struct file {
    uint8_t at[POLLUX_MAX_TEXT + 1];
    size_t held, size;
};

struct counted {
    uint64_t parts[POLLUX_MAX_PARTS];
    struct pollux_counts totals;
    size_t whole;
};

static _Noreturn void cannot_read(const char *path)
{
    perror(path);
    printf("cannot read %s\n", path);
    exit(3);
}

static FILE *opened(const char *path)
{
    FILE *file = fopen(path, "rb");
    if (file == NULL)
        cannot_read(path);
    return file;
}

/* The first bytes of a file, as many as there is room for, and how many it has. */
static void read_file(const char *path, struct file *file, size_t room)
{
    uint8_t more[4096];
    FILE *from = opened(path);
    file->held = file->size = fread(file->at, 1, room, from);
    for (size_t got; (got = fread(more, 1, sizeof more, from)) > 0;)
        file->size += got;
    if (ferror(from))
        cannot_read(path);
    fclose(from);
}

static size_t true_offset(const struct file *file, size_t at)
{
    return at == file->held ? file->size : at;
}

/* Whether there are not too many. */
static bool count_file(const struct rule *rule, const struct file *list, FILE *from, struct counted *counted)
{
    static uint8_t buffer[BUFFER];
    size_t size = POLLUX_ENTRY_SIZE(list->held / POLLUX_KEY_SIZE), want = sizeof buffer - sizeof buffer % size, got;
    do {
        got = fread(buffer, 1, want, from);
        counted->whole += got / size;
        if (counted->whole > POLLUX_MAX_ENTRIES)
            return false;
        for (size_t at = 0; at + size <= got; at += size)
            count_entry(rule, list->at, list->held, buffer + at, size, &counted->totals, counted->parts);
        counted->totals.cut = got % size;
    } while (got == want);
    return true;
}

static void print_counts(const struct rule *rule, const struct counted *counted)
{
    const struct pollux_counts *totals = &counted->totals;
    for (size_t k = 0; k < rule->count; k++)
        printf("part %zu %llu\n", k + 1, (unsigned long long)counted->parts[k]);
    printf("accepted %llu\nviolated %llu\nrefused %llu\n", (unsigned long long)totals->accepted,
           (unsigned long long)totals->violated, (unsigned long long)totals->refused);
    if (totals->cut > 0)
        printf("cut %llu\n", (unsigned long long)totals->cut);
}

int main(int argc, char **argv)
{
    static struct file text, list;
    static struct rule rule;
    static struct counted counted;
    struct pollux_answer answer;
    if (argc != 4) {
        printf("usage: plain TEXT KEYS ENTRIES\n");
        return 3;
    }
    read_file(argv[1], &text, POLLUX_MAX_TEXT + 1);
    read_file(argv[2], &list, POLLUX_MAX_LIST + 1);
    if (!read_rule(text.at, text.held, list.at, list.held, &rule, &answer)) {
        printf("refusal %u %zu\n", (unsigned)answer.number, true_offset(answer.input == POLLUX_LIST ? &list : &text, answer.value));
        return 0;
    }
    FILE *entries = opened(argv[3]);
    if (!count_file(&rule, &list, entries, &counted))
        printf("refusal %d\n", POLLUX_ENTRIES_MANY);
    else if (ferror(entries))
        cannot_read(argv[3]);
    else
        print_counts(&rule, &counted);
    return 0;
}

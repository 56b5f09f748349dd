#include "files.h"

#include <stdio.h>
#include <stdlib.h>

static _Noreturn void give_up(const char *path)
{
    perror(path);
    exit(3);
}

static uint8_t *enlarged(uint8_t *old, size_t size, const char *path)
{
    uint8_t *larger = realloc(old, size);
    if (larger == NULL)
        give_up(path);
    return larger;
}

struct bytes read_file(const char *path)
{
    FILE *file = fopen(path, "rb");
    if (file == NULL)
        give_up(path);
    size_t room = 65536, got;
    struct bytes contents = { enlarged(NULL, room, path), 0 };
    while ((got = fread(contents.at + contents.length, 1, room - contents.length, file)) > 0) {
        contents.length += got;
        if (contents.length == room) {
            room *= 2;
            contents.at = enlarged(contents.at, room, path);
        }
    }
    if (ferror(file))
        give_up(path);
    fclose(file);
    return contents;
}

struct bytes make_bytes(size_t length)
{
    return (struct bytes){ enlarged(NULL, length + 1, "memory"), length };
}

void write_file(const char *path, const uint8_t *at, size_t length)
{
    FILE *file = fopen(path, "wb");
    if (file == NULL || fwrite(at, 1, length, file) != length || fclose(file) != 0)
        give_up(path);
}

/*
 * What the kit's library os has in C, for a program that is compiled for Arm: only what those that are measured call. The kit's own code for it is
 * x86-64's.
 */
#include <stddef.h>
#include <stdint.h>
#include <string.h>

int open(const char *path, int flags, ...);
int *__errno_location(void);

static int argument_count;
static char **arguments;

/* glibc gives these to each function that it runs before main. */
__attribute__((constructor)) static void keep_arguments(int count, char **all)
{
    argument_count = count;
    arguments = all;
}

int32_t rattle_open_to_read(const uint8_t *path)
{
    return open((const char *)path, 0);
}

int32_t rattle_errno(void)
{
    return *__errno_location();
}

void rattle_set_errno(int32_t error)
{
    *__errno_location() = error;
}

size_t rattle_arg_count(void)
{
    return (size_t)argument_count;
}

ptrdiff_t rattle_arg(size_t i, uint8_t *into, size_t room)
{
    if (i >= (size_t)argument_count)
        return -1;
    size_t length = strlen(arguments[i]);
    memcpy(into, arguments[i], length < room ? length : room);
    return length <= room ? (ptrdiff_t)length : -2;
}

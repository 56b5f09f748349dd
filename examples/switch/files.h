/* Whole files, for programs that run on a desk. On a switch the bytes are in flash or come over the wire. */
#ifndef FILES_H
#define FILES_H

#include <stddef.h>
#include <stdint.h>

struct bytes {
    uint8_t *at; /* never NULL, also where length is 0 */
    size_t length;
};

/* The contents of a file. A file that cannot be read ends the program, with status 3. */
struct bytes read_file(const char *path);

/* Memory for so many bytes, or the end of the program. On a switch an array does. */
struct bytes make_bytes(size_t length);

/* Writes a file whole, or ends the program in the same way. */
void write_file(const char *path, const uint8_t *at, size_t length);

#endif

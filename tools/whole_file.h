/* Reads a whole stream into memory, for the programs that take files. */
#ifndef WHOLE_FILE_H
#define WHOLE_FILE_H

#include <stdint.h>
#include <stdio.h>
#include <stdlib.h>

/* Gives the bytes (never NULL unless reading failed) for the caller to free. */
static inline uint8_t *whole_file(FILE *file, size_t *length)
{
    size_t room = 65536;
    uint8_t *bytes = malloc(room);
    *length = 0;
    while (bytes != NULL) {
        *length += fread(bytes + *length, 1, room - *length, file);
        if (*length < room)
            break;
        room *= 2;
        uint8_t *larger = realloc(bytes, room);
        if (larger == NULL)
            free(bytes);
        bytes = larger;
    }
    if (bytes != NULL && ferror(file)) {
        free(bytes);
        bytes = NULL;
    }
    return bytes;
}

#endif

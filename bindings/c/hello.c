/* Renders a request that stands on standard input, and tells its status. */
#include "dalecolander.h"

#include <stdio.h>
#include <stdlib.h>

/* All of a file, with its length. */
static uint8_t *read_all(FILE *file, size_t *length) {
    size_t room = 4096;
    uint8_t *bytes = malloc(room);
    *length = 0;
    while (bytes != NULL) {
        *length += fread(bytes + *length, 1, room - *length, file);
        if (*length < room) {
            return bytes;
        }
        uint8_t *more = realloc(bytes, room *= 2);
        if (more == NULL) {
            free(bytes);
        }
        bytes = more;
    }
    return NULL;
}

int main(void) {
    size_t length, written, room = 1024;
    uint8_t *request = read_all(stdin, &length);
    uint8_t *out = malloc(room);
    if (request == NULL || out == NULL) {
        return DALECOLANDER_MEMORY;
    }
    uint8_t status = dalecolander_render(request, length, out, room, &written);
    if (written > room) {
        room = written;
        free(out);
        if ((out = malloc(room)) == NULL) {
            return DALECOLANDER_MEMORY;
        }
        status = dalecolander_render(request, length, out, room, &written);
    }
    fwrite(out, 1, written < room ? written : room, stdout);
    free(out);
    free(request);
    return status;
}

/* Reads an input, and prints what its run tells. */
#include "simplex.h"

#include <stdio.h>
#include <stdlib.h>

/* All that the stream holds. */
static uint8_t *read_all(FILE *stream, size_t *length)
{
    size_t room = 65536;
    uint8_t *bytes = malloc(room);
    *length = 0;
    while (bytes != NULL) {
        *length += fread(bytes + *length, 1, room - *length, stream);
        if (*length < room)
            return bytes;
        room *= 2;
        uint8_t *more = realloc(bytes, room);
        if (more == NULL)
            free(bytes);
        bytes = more;
    }
    return NULL;
}

int main(void)
{
    size_t length, size = 65536, room;
    uint8_t *input = read_all(stdin, &length), *text = NULL, status;
    if (input == NULL)
        return 7;
    do {
        room = size;
        free(text);
        text = malloc(room);
        if (text == NULL)
            return 7;
        status = simplex_run(input, length, text, room, &size);
    } while (size > room);
    fwrite(text, 1, size, stdout);
    free(text);
    free(input);
    return status;
}

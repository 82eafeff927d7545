/* A file read whole into a lent buffer; the number of its bytes. */
#ifndef FILE_H
#define FILE_H

#include <stdint.h>
#include <stdio.h>
#include <stdlib.h>

static size_t read_file(const char *path, uint8_t *bytes, size_t room)
{
    FILE *file = fopen(path, "rb");
    if (file == NULL) {
        perror(path);
        exit(2);
    }
    size_t length = fread(bytes, 1, room, file);
    fclose(file);
    return length;
}

#endif

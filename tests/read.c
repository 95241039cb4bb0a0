/*
 * read BYTES: reads a script from standard input with a file slice of so many bytes, and writes its tree file; refused,
 * 7F 00 01 and the number, as the program delta_null does.
 */
#include <stdio.h>
#include <stdlib.h>

#include "delta_null.h"

/* one byte more than a script may have, so that one that is too long is refused and not cut */
static uint8_t script[DN_MAX_SCRIPT_BYTES + 1];
static uint8_t file[2 * DN_FILE_BUFFER_BYTES];

int main(int argc, char **argv)
{
    size_t length = argc > 1 ? (size_t)strtoul(argv[1], NULL, 10) : DN_FILE_BUFFER_BYTES;
    size_t script_length = fread(script, 1, sizeof script, stdin);
    size_t bytes = 0;
    uint32_t number;
    if (ferror(stdin) || length > sizeof file)
        return 1;
    number = dn_read(script, script_length, file, length, &bytes);
    if (number != DN_OK) {
        uint8_t refused[4] = {0x7F, 0, 1, 0};
        refused[3] = (uint8_t)number;
        return fwrite(refused, 1, sizeof refused, stdout) != sizeof refused;
    }
    return bytes > length || fwrite(file, 1, bytes, stdout) != bytes;
}

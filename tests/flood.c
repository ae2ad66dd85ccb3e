/* Runs standard input as one session of the library for C, a line at a time, and writes nothing. */
#define _GNU_SOURCE
#include "tera.h"

#include <stdio.h>
#include <stdlib.h>
#include <string.h>

int main(void) {
    const uint8_t seed[16] = {3, 1, 4, 1, 5, 9, 2, 6, 5, 3, 5, 8, 9, 7, 9, 3};
    char *line = NULL;
    size_t room = 0, len = 0;
    ssize_t read;
    tera_session *session = NULL;
    int status = tera_open_seeded(&session, seed);
    while (status == TERA_DONE && (read = getline(&line, &room, stdin)) > 0)
        status = tera_line(&session, (const uint8_t *)line, (size_t)read - 1, &len);
    tera_close(&session);
    free(line);
    return status;
}

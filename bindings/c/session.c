/* A session from C: each argument is a line, and its reply is written. With no argument, two lines of its own. */
#include "tera.h"

#include <stdio.h>
#include <stdlib.h>
#include <string.h>

/* Runs a line, and writes its reply to standard output, or its report to standard error. */
static int say(tera_session **session, const char *line) {
    size_t needed = 0;
    uint8_t status = tera_line(session, tera_bytes(line), strlen(line), &needed);
    uint8_t *room = (uint8_t *)malloc(needed + 1);
    if (!room) return TERA_NO_MEMORY;
    if (tera_reply(session, room, needed, &needed) == TERA_DONE)
        fwrite(room, 1, needed, status == TERA_BAD ? stderr : stdout);
    free(room);
    return status;
}

int main(int count, char **words) {
    tera_session *session = NULL;
    int last = TERA_DONE;
    if (tera_open(&session) != TERA_DONE) return EXIT_FAILURE;
    if (count < 2) {
        say(&session, "set page {\"title\": \"A & B\"}");
        last = say(&session, "path page \"title\"");
    }
    for (int at = 1; at < count; at++) last = say(&session, words[at]);
    tera_close(&session);
    return last;
}

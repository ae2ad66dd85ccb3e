/* What is counted of the library for C: `lines` runs standard input as one session, a line at a time, and `escape LETTER COUNT
 * ROUNDS` escapes a text of so many times one letter, so many times. */
#include "tera.h"

#include <stdio.h>
#include <stdlib.h>
#include <string.h>

enum { LINE = 4096 };

static int lines(void) {
    char line[LINE];
    uint8_t room[LINE];
    size_t len = 0;
    tera_session *session = NULL;
    if (tera_open(&session) != TERA_DONE) return 1;
    while (fgets(line, LINE, stdin)) {
        tera_line(&session, (const uint8_t *)line, strcspn(line, "\n"), &len);
        if (tera_reply(&session, room, LINE, &len) != TERA_DONE) return 1;
        fwrite(room, 1, len, stdout);
    }
    tera_close(&session);
    return 0;
}

static int escape(int letter, size_t count, size_t rounds) {
    size_t size = 6 * count, len = 0;
    uint8_t *text = (uint8_t *)malloc(count), *room = (uint8_t *)malloc(size);
    if (!text || !room) return 1;
    memset(text, letter, count);
    uint8_t status = TERA_DONE;
    for (size_t round = 0; round < rounds; round++) status |= tera_escape(text, count, room, size, &len);
    free(text);
    free(room);
    return status;
}

int main(int count, char **words) {
    if (count == 5 && strcmp(words[1], "escape") == 0)
        return escape(words[2][0], strtoul(words[3], NULL, 10), strtoul(words[4], NULL, 10));
    return lines();
}

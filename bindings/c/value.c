/* A title goes into a session as it is, and comes out as JSON. */
#include "tera.h"

#include <stdio.h>
#include <string.h>

/* Keeps a title under a name, and prints it as JSON. */
static uint8_t show(tera_session **session, const char *title) {
    const uint8_t *name = tera_bytes("title");
    uint8_t json[256];
    size_t len = 0;
    uint8_t status = tera_set_text(session, name, 5, tera_bytes(title), strlen(title), 0);
    if (status == TERA_DONE) status = tera_get_json(session, name, 5, json, sizeof json, &len);
    if (status == TERA_DONE) printf("%.*s\n", (int)len, (const char *)json);
    return status;
}

int main(int count, char **words) {
    tera_session *session = NULL;
    uint8_t status = tera_open(&session);
    if (status == TERA_DONE) status = show(&session, count > 1 ? words[1] : "<b>A & B</b>");
    tera_close(&session);
    return status;
}

/* Sessions that are closed give back all that they held, whatever they were told before: linked with tests/counted.c, which
 * counts the blocks, and run under valgrind, which sees one that is lost. The status is 0 where none is held at the end. */
#include "tera.h"

#include <stddef.h>
#include <stdio.h>
#include <string.h>

size_t blocks(void);

static const char *const LINES[] = {"set a {\"k\": [1, \"no less than twenty bytes of a text\"]}", "get a", "frob", "# says nothing",
                                    "extend {\"b\": 1, \"a\": s\"x\"}", "add a b"};
enum { COUNT = sizeof LINES / sizeof *LINES };

/* A session that takes so many of the lines, and is then closed: whether it held a block, and holds none any more. */
static int is_closed(size_t count) {
    tera_session *session = NULL;
    size_t told = 0;
    if (tera_open(&session) != TERA_DONE || blocks() == 0) return 0;
    for (size_t at = 0; at < count; at++) tera_line(&session, (const uint8_t *)LINES[at], strlen(LINES[at]), &told);
    tera_close(&session);
    return session == NULL && blocks() == 0;
}

int main(void) {
    for (size_t count = 0; count <= COUNT; count++) {
        if (is_closed(count)) continue;
        fprintf(stderr, "after %zu lines, a closed session holds %zu blocks\n", count, blocks());
        return 1;
    }
    return 0;
}

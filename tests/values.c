/* Values that go into a session and come out of it, into rooms of every size from none to two bytes more than is needed, each a
 * block of the heap of its own, so that valgrind sees a byte written past one. It is C and C++. The status is 0 where each export
 * is as include/tera.h says. */
#include "tera.h"

#include <stdio.h>
#include <stdlib.h>
#include <string.h>

static const uint8_t FILL = 0xa5;
static int faults = 0;

static uint8_t set(tera_session **session, const char *name, const char *literal) {
    return tera_set(session, tera_bytes(name), strlen(name), tera_bytes(literal), strlen(literal));
}

/* What delivers something: a value as a literal or as JSON, the names, or the script. */
static uint8_t give(tera_session **session, char what, const char *name, uint8_t *room, size_t size, size_t *told) {
    if (what == 'l') return tera_get(session, tera_bytes(name), strlen(name), room, size, told);
    if (what == 'j') return tera_get_json(session, tera_bytes(name), strlen(name), room, size, told);
    return what == 'n' ? tera_names(session, room, size, told) : tera_save(session, room, size, told);
}

/* Counts a fault where a room of some size does not get the text as it has to. */
static void gives(tera_session **session, char what, const char *name, const char *text) {
    size_t len = strlen(text);
    for (size_t size = 0; size <= len + 2; size++) {
        size_t told = 0, front = size < len ? 0 : len;
        uint8_t *room = (uint8_t *)malloc(size);
        if (!room) exit(3);
        memset(room, FILL, size);
        faults += give(session, what, name, room, size, &told) != (front == len ? TERA_DONE : TERA_SMALL) || told != len;
        faults += memcmp(room, text, front) != 0;
        for (size_t at = front; at < size; at++) faults += room[at] != FILL;
        free(room);
    }
}

/* Counts a fault where what is not delivered changes the room, or tells a length. */
static void refuses(tera_session **session, char what, const char *name, uint8_t wanted) {
    uint8_t room[4];
    size_t told = 1;
    memset(room, FILL, sizeof room);
    faults += give(session, what, name, room, sizeof room, &told) != wanted || told != 0;
    for (size_t at = 0; at < sizeof room; at++) faults += room[at] != FILL;
}

static void rooms(void) {
    tera_session *session = NULL;
    refuses(&session, 'l', "a", TERA_CLOSED);
    faults += set(&session, "a", "1") != TERA_CLOSED || session != NULL;
    if (tera_open(&session) != TERA_DONE) exit(3);
    gives(&session, 'n', "", "");
    gives(&session, 's', "", "");
    faults += set(&session, "a", "{\"k\": [1u64, s\"\xc3\xa9\"]}") != TERA_DONE;
    faults += tera_set_text(&session, tera_bytes("t"), 1, tera_bytes(NULL), 0, 1) != TERA_DONE;
    faults += tera_set_json(&session, tera_bytes("j"), 1, tera_bytes("[null, {\"a\": \"b\"}]"), 18) != TERA_DONE;
    gives(&session, 'l', "a", "{\"k\": [1u64, s\"\\u{e9}\"]}");
    gives(&session, 'j', "a", "{\"k\":[1,\"\xc3\xa9\"]}");
    gives(&session, 'l', "t", "s\"\"");
    gives(&session, 'l', "j", "[none, {\"a\": \"b\"}]");
    gives(&session, 'n', "", "a\nj\nt\n");
    gives(&session, 's', "", "set a {\"k\": [1u64, s\"\\u{e9}\"]}\nset j [none, {\"a\": \"b\"}]\nset t s\"\"\n");
    refuses(&session, 'l', "b", TERA_MISSING);
    refuses(&session, 'j', "b", TERA_MISSING);
    refuses(&session, 'l', "\xff", TERA_BAD);
    faults += set(&session, "a", "x\"00\"") != TERA_DONE;
    refuses(&session, 'j', "a", TERA_REFUSED);
    faults += tera_has(&session, tera_bytes("t"), 1) != TERA_DONE || tera_remove(&session, tera_bytes("t"), 1) != TERA_DONE;
    faults += tera_has(&session, tera_bytes("t"), 1) != TERA_MISSING || tera_remove(&session, tera_bytes("t"), 1) != TERA_MISSING;
    tera_close(&session);
}

int main(void) {
    rooms();
    if (faults) fprintf(stderr, "%d faults\n", faults);
    return faults ? 1 : 0;
}

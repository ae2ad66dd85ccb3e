/* Rooms of every size from none to two bytes more than is needed, each a block of the heap of its own, so that valgrind
 * sees a byte written past one: for a reply, the report of a line, an escaped text, and a script's answers and report.
 * Lines with each end of line and with a line feed inside; sessions that are closed, or opened twice; texts that are NULL.
 * It is C and C++. The status is 0 where each room is as include/tera.h says. */
#include "tera.h"

#include <stdio.h>
#include <stdlib.h>
#include <string.h>

static const uint8_t FILL = 0xa5;
static int faults = 0;

static uint8_t *room_of(size_t size) {
    uint8_t *room = (uint8_t *)malloc(size);
    if (!room) exit(3);
    memset(room, FILL, size);
    return room;
}

/* Counts a fault where a room of this size, which is freed, does not begin with so much of the text, or is changed behind. */
static void look(uint8_t *room, size_t size, const char *text, size_t front) {
    int is_wrong = front > size || memcmp(room, text, front) != 0;
    for (size_t at = front; at < size; at++) is_wrong |= room[at] != FILL;
    faults += is_wrong;
    free(room);
}

/* Counts a fault where this is not how a call that delivers the text ends with a room of this size. */
static void delivered(uint8_t status, size_t told, uint8_t *room, size_t size, const char *text) {
    size_t len = strlen(text);
    faults += told != len || status != (size < len ? TERA_SMALL : TERA_DONE);
    look(room, size, text, size < len ? 0 : len);
}

static void reply(const char *line, uint8_t wanted, const char *text) {
    tera_session *session = NULL;
    size_t told = 0;
    if (tera_open(&session) != TERA_DONE) exit(3);
    faults += tera_line(&session, tera_bytes(line), strlen(line), &told) != wanted || told != strlen(text);
    for (size_t size = 0; size <= strlen(text) + 2; size++) {
        uint8_t *room = room_of(size);
        uint8_t status = tera_reply(&session, room, size, &told);
        delivered(status, told, room, size, text);
    }
    tera_close(&session);
    faults += session != NULL;
}

static void escape(const char *text, const char *wanted) {
    for (size_t size = 0; size <= strlen(wanted) + 2; size++) {
        size_t told = 0;
        uint8_t *room = room_of(size);
        uint8_t status = tera_escape(tera_bytes(text), strlen(text), room, size, &told);
        delivered(status, told, room, size, wanted);
    }
}

/* A script with rooms of these sizes, by the status of the program, its answers and its report. */
static void replay(const char *script, size_t answers_size, size_t report_size, uint8_t ends, const char *answers,
                   const char *report) {
    size_t answers_len = 0, report_len = 0;
    uint8_t *room = room_of(answers_size), *other = room_of(report_size);
    uint8_t status = tera_replay(tera_bytes(script), strlen(script), room, answers_size, &answers_len, other, report_size,
                                 &report_len);
    int fits = strlen(answers) <= answers_size && strlen(report) <= report_size;
    faults += answers_len != strlen(answers) || report_len != strlen(report) || status != (fits ? ends : (uint8_t)TERA_SMALL);
    look(room, answers_size, answers, fits ? strlen(answers) : 0);
    look(other, report_size, report, fits ? strlen(report) : 0);
}

static void replays(const char *script, uint8_t ends, const char *answers, const char *report) {
    for (size_t size = 0; size <= strlen(answers) + 2; size++)
        for (size_t other = 0; other <= strlen(report) + 2; other++) replay(script, size, other, ends, answers, report);
}

/* A closed session, before it was open and behind that: it takes no line, has no reply, and is closed again. */
static void closed(tera_session **session) {
    size_t told = 1;
    uint8_t *room = room_of(4);
    faults += tera_line(session, tera_bytes("get a"), 5, &told) != TERA_CLOSED || told != 0 || *session != NULL;
    told = 1;
    faults += tera_reply(session, room, 4, &told) != TERA_CLOSED || told != 0 || *session != NULL;
    look(room, 4, "", 0);
    tera_close(session);
    faults += *session != NULL;
}

/* A session that is opened twice and closed twice: it keeps its names until it is closed. */
static void twice(void) {
    tera_session *session = NULL;
    size_t told = 0;
    closed(&session);
    if (tera_open(&session) != TERA_DONE) exit(3);
    faults += tera_line(&session, tera_bytes("set a 1"), 7, &told) != TERA_DONE;
    faults += tera_open(&session) != TERA_OPEN || session == NULL;
    faults += tera_line(&session, tera_bytes("get a"), 5, &told) != TERA_DONE || told != strlen("value 1\n");
    tera_close(&session);
    faults += session != NULL;
    closed(&session);
}

/* Texts and rooms of no length that may be NULL. */
static void none(void) {
    tera_session *session = NULL;
    size_t told = 1, other = 1;
    if (tera_open(&session) != TERA_DONE) exit(3);
    faults += tera_line(&session, tera_bytes(NULL), 0, &told) != TERA_DONE || told != 0;
    faults += tera_reply(&session, tera_room(NULL), 0, &told) != TERA_DONE || told != 0;
    tera_close(&session);
    told = 1;
    faults += tera_escape(tera_bytes(NULL), 0, tera_room(NULL), 0, &told) != TERA_DONE || told != 0;
    told = 1;
    faults += tera_replay(tera_bytes(NULL), 0, tera_room(NULL), 0, &told, tera_room(NULL), 0, &other) != TERA_DONE;
    faults += told != 0 || other != 0;
}

/* What is said of a line feed inside a line, with what stands before it, and as much room under that. */
#define INSIDE(at, before, under) \
    "error: bad line: a line feed stands inside it\n --> line 1:1:" at "\n  |\n1 | " before "\n  | " under "^\n"

int main(void) {
    size_t told = 1;
    uint8_t *room = room_of(4);
    faults += tera_version() != TERA_VERSION;
    reply("cmp a b", TERA_DONE, "equal\n");
    reply("# says nothing", TERA_DONE, "");
    reply("frob", TERA_BAD, "error: bad line\n --> line 1:1:1\n  |\n1 | frob\n  | ^^^^\n");
    reply("cmp a b\n", TERA_DONE, "equal\n");
    reply("cmp a b\r\n", TERA_DONE, "equal\n");
    reply("# says nothing\r\n", TERA_DONE, "");
    reply("\n", TERA_DONE, "");
    reply("cmp a b\r", TERA_BAD, "error: bad line\n --> line 1:1:1\n  |\n1 | cmp a b\r\n  | ^^^^^^^^\n");
    reply("cmp a b\r\r\n", TERA_BAD, "error: bad line\n --> line 1:1:1\n  |\n1 | cmp a b\r\n  | ^^^^^^^^\n");
    reply("# hides\nset a 1", TERA_BAD, INSIDE("8", "# hides", "       "));
    reply("cmp a b\n\n", TERA_BAD, INSIDE("8", "cmp a b", "       "));
    reply("\n\tget a\r\n", TERA_BAD, INSIDE("1", "", ""));
    reply("\t\xc3\xa9\n\r", TERA_BAD, INSIDE("3", "\t\xc3\xa9", "\t "));
    reply("\xff\nget a", TERA_BAD, INSIDE("1", "", ""));
    twice();
    none();
    escape("a<b>&\"'", "a&lt;b&gt;&amp;&quot;&#39;");
    escape("", "");
    faults += tera_escape((const uint8_t *)"\xff", 1, room, 4, &told) != TERA_BAD || told != 0;
    look(room, 4, "", 0);
    replays("set a 1u64\neq a a\n", TERA_DONE, "ok\ntrue\n", "");
    replays("kind a\nfrob\nkind a\n", TERA_BAD, "kind undefined\n", "error: bad line\n --> line 2:1:1\n  |\n1 | frob\n  | ^^^^\n");
    if (faults) fprintf(stderr, "%d faults\n", faults);
    return faults ? 1 : 0;
}

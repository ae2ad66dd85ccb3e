/* Every call on values of 64 levels, arrays, maps and both by turns, in sessions and in scripts, each on a thread whose stack is
 * as small as include/tera.h says that it may be: where one needs more, the system ends the program by a signal. The status is 0
 * where every line is answered, and 1 where one is not. */
#include "tera.h"

#include <pthread.h>
#include <stdio.h>
#include <string.h>

enum { STACK = TERA_STACK, LEVELS = 64 };

static const char *const calls[] = {
    "set v 1",          "get a",           "get a -> b",      "has a",           "remove b",           "path a \"0.k.0.k\"",
    "path a \"k.0.k.0\"", "path a \"0\" -> b", "path a \"k\" -> b", "attr a \"k\"",      "attr a \"k\" -> b",    "item a i",
    "item a i -> b",    "item a k",        "item a k -> b",   "slice a _ _ _",   "slice a _ _ -1 -> b", "reverse a",
    "reverse a -> b",   "add a c",         "negate a",        "read u8 a",       "contains a c",        "contains d a",
    "fields a",         "walk a",          "len a",           "truthy a",        "is_safe a",           "kind a",
    "mark_safe a",      "mark_safe a -> b", "eq a c",          "cmp a c",         "try_cmp a c",         "print a",
    "escape a",         "set c 1",         "remove a",        "remove b",        "set d 1",
};

static char text[1 << 16];

/* Writes so many levels of a literal: `a` for an array, `m` for a map, `x` for a map in an array in a map. */
static char *nested(char *to, char kind, int levels) {
    for (int level = 0; level < levels; level++)
        to += sprintf(to, "%s", kind == 'a' || (kind == 'x' && level % 2) ? "[" : "{\"k\": ");
    *to++ = '1';
    for (int level = levels; level-- > 0;) *to++ = kind == 'a' || (kind == 'x' && level % 2) ? ']' : '}';
    *to = 0;
    return to;
}

/* Writes a script of every call on values of this kind. */
static void script_of(char kind) {
    char *to = text;
    const char *const sets[] = {"set a ", "set c "};
    for (int at = 0; at < 2; at++) {
        to = nested(to + sprintf(to, "%s", sets[at]), kind, LEVELS);
        *to++ = '\n';
    }
    to = nested(to + sprintf(to, "set d ["), kind, LEVELS - 1);
    to += sprintf(to, "]\nset i 0\nset k \"k\"\n");
    for (size_t at = 0; at < sizeof calls / sizeof *calls; at++) to += sprintf(to, "%s\n", calls[at]);
    to = nested(to + sprintf(to, "extend {\"a\": "), kind, LEVELS - 1);
    sprintf(to, "}\n");
}

static int faults = 0;

/* Runs the script line by line in a session, which then ends with what it holds. */
static void *in_a_session(void *unused) {
    tera_session *session = NULL;
    size_t told = 0;
    (void)unused;
    faults += tera_open(&session) != TERA_DONE;
    for (const char *line = text; *line;) {
        size_t len = strcspn(line, "\n");
        faults += tera_line(&session, (const uint8_t *)line, len, &told) != TERA_DONE || told == 0;
        line += len + 1;
    }
    faults += tera_line(&session, (const uint8_t *)"get a", 5, &told) != TERA_DONE;
    tera_close(&session);
    return NULL;
}

static uint8_t answers[1 << 16], report[1 << 10];

static void *in_a_script(void *unused) {
    size_t answers_len = 0, report_len = 0;
    (void)unused;
    faults += tera_replay((const uint8_t *)text, strlen(text), answers, sizeof answers, &answers_len, report, sizeof report,
                          &report_len) != TERA_DONE;
    return NULL;
}

/* The exports for values, by the literal and the JSON of so many levels that stand in the text. */
static void *in_values(void *unused) {
    tera_session *session = NULL;
    const uint8_t *name = (const uint8_t *)"a", *value = (const uint8_t *)text;
    size_t told = 0, len = strlen(text);
    (void)unused;
    faults += tera_open(&session) != TERA_DONE;
    faults += tera_set(&session, name, 1, value, len) != TERA_DONE;
    faults += tera_get(&session, name, 1, answers, sizeof answers, &told) != TERA_DONE || told != len;
    faults += tera_get_json(&session, name, 1, answers, sizeof answers, &told) != TERA_DONE;
    faults += tera_set_json(&session, name, 1, answers, told) != TERA_DONE;
    faults += tera_save(&session, answers, sizeof answers, &told) != TERA_DONE || told != len + strlen("set a \n");
    nested(text, 'm', 2 * LEVELS);
    faults += tera_set_json(&session, name, 1, value, strlen(text)) != TERA_REFUSED;
    faults += tera_set_text(&session, name, 1, value, len, 1) != TERA_DONE || tera_remove(&session, name, 1) != TERA_DONE;
    tera_close(&session);
    return NULL;
}

static void on_a_small_stack(void *(*run)(void *)) {
    pthread_t thread;
    pthread_attr_t how;
    if (pthread_attr_init(&how) || pthread_attr_setstacksize(&how, STACK) || pthread_create(&thread, &how, run, NULL) ||
        pthread_join(thread, NULL))
        faults++;
    pthread_attr_destroy(&how);
}

int main(void) {
    const char kinds[] = "amx";
    for (const char *kind = kinds; *kind; kind++) {
        script_of(*kind);
        on_a_small_stack(in_a_session);
        on_a_small_stack(in_a_script);
        nested(text, *kind, LEVELS);
        on_a_small_stack(in_values);
    }
    return faults != 0;
}

/* Dithvong for C and C++: the values of the template engine Tera, by scripts of calls (docs/SCRIPT.md).
 *
 * What holds everywhere:
 * - Lengths and rooms are counted in bytes. A room is memory that the caller gives and keeps; nothing is written past its
 *   length, and nothing behind what is written is changed.
 * - No pointer is NULL, also where its length is 0: `tera_bytes` and `tera_room` stand for what may be. What a call is to write
 *   overlaps nothing else that it is given.
 * - A call keeps no pointer that it was given, once it has returned.
 * - A handle `*session` is NULL, which is closed, or what a call left there, which is open. Each call takes both: of a closed one
 *   TERA_CLOSED is answered, and to close it does nothing, so it may be closed twice; one that is open is not opened again,
 *   which is TERA_OPEN. A call may change the handle: no copy of it is kept. A session stays on the thread that opened it, and
 *   takes one call at a time.
 * - Each call returns, and want of memory ends no process. A thread needs a stack of TERA_STACK bytes for them, beside what
 *   its own functions take: on less, a value of many levels can end the process.
 * - Names and the keys of maps are hashed. Whoever knows the seed can make some that collide, and then a line takes long. The
 *   calls that take no seed go by a fixed one, which everybody knows: they are for scripts that one trusts. Draw a seed of 16
 *   bytes at random for all others. No answer hangs on it.
 * - A caller that breaks a rule of this page is owed nothing.
 * docs/BORDER.md has more: memory, threads, and what is proved.
 */
#ifndef TERA_H
#define TERA_H

#include <stddef.h>
#include <stdint.h>

#ifdef __cplusplus
extern "C" {
#endif

/* The version of this header, 0.2.0: major * 65536 + minor * 256 + patch. */
#define TERA_VERSION 512

/* How many bytes a thread's stack needs at most, whatever the lines say: literals nest at most 64 levels. */
#define TERA_STACK 98304

/* What a call answers. */
enum tera_status {
    TERA_DONE = 0,      /* it did what it is for */
    TERA_WANTED = 1,    /* so it did, and an answer is `Out of memory`; of a script also: it found no memory itself */
    TERA_BAD = 2,       /* a line is no call, and its report is given; of all else: an argument is not what it is to be */
    TERA_SMALL = 3,     /* a room is too small: nothing is written, and the lengths that are needed are told */
    TERA_NO_MEMORY = 4, /* the call found no memory: no name has changed, and what it was to deliver is empty */
    TERA_NO_REPLY = 5,  /* the line was run, and no memory was found for its reply, which is now empty */
    TERA_CLOSED = 6,    /* the session is closed: nothing has changed, and there is no reply */
    TERA_OPEN = 7,      /* the session is open already: nothing has changed */
    TERA_MISSING = 8,   /* the session holds no such name: nothing has changed */
    TERA_REFUSED = 9    /* a value cannot be had so: no name has changed, and the reply says why */
};

/* The bytes at `p`, or those of an empty text where it is NULL, as where a vector or a view is empty. */
static inline const uint8_t *tera_bytes(const void *p) { return p ? (const uint8_t *)p : (const uint8_t *)""; }

/* The room at `p`, or one that is not NULL for a length of 0. */
static inline uint8_t *tera_room(void *p) {
    static uint8_t none;
    return p ? (uint8_t *)p : &none;
}

/* The version of the library, as TERA_VERSION is that of the header. */
uint32_t tera_version(void);

/* A session: names, what they mean, and the reply to the last line. Whoever opened it owns it, until it is closed. */
typedef struct tera_session tera_session;

/* Opens a session with no names, where `*session` is NULL. TERA_DONE: the session is there. TERA_NO_MEMORY: `*session` is
 * still NULL. TERA_OPEN. */
uint8_t tera_open(tera_session **session);

/* The same, under a seed of 16 bytes. */
uint8_t tera_open_seeded(tera_session **session, const uint8_t seed[16]);

/* Runs one line, and keeps its reply in the session until the next line; `*reply_len` is its length. An end of line behind it,
 * a line feed or a carriage return and a line feed, is taken away, as that of a line in a script is; a line feed anywhere else
 * makes the line bad, and a comment too. The reply ends in a line feed, and a report does; a line that says nothing has an empty
 * reply.
 * TERA_DONE, TERA_WANTED: the reply answers the line. TERA_BAD: it is the report of the line, which calls it line 1, and no
 * name has changed; of a line feed inside it says so, and shows what stands before. TERA_NO_MEMORY: no name has changed, and
 * the reply is empty. TERA_NO_REPLY: as it says. TERA_CLOSED: the length is 0. */
uint8_t tera_line(tera_session **session, const uint8_t *line, size_t line_len, size_t *reply_len);

/* Copies the reply to the last line into a room, as often as you like; `*reply_len` is its length.
 * TERA_DONE, or TERA_SMALL. TERA_CLOSED: the length is 0, and nothing is written. */
uint8_t tera_reply(tera_session **session, uint8_t *room, size_t room_len, size_t *reply_len);

/* Closes a session, and sets `*session` to NULL. Where it is NULL nothing happens. */
void tera_close(tera_session **session);

/* Values of a session, by themselves. What holds of all these calls:
 * - They leave the reply as it was, but where they answer TERA_REFUSED: then it is that of a line that is refused, `error: `, the
 *   reason and a line feed.
 * - What they read is UTF-8. To be set, a name is an ASCII letter or `_`, and then letters, digits and `_`. `extend` can bring
 *   others: `tera_get`, `tera_get_json`, `tera_has` and `tera_remove` take any text.
 * - Of all else than TERA_DONE no name has changed. `*len` is the length of what is delivered, also where that is TERA_SMALL;
 *   of all else than these two it is 0, and nothing is written.
 * - Any of them answers TERA_NO_MEMORY, but for `tera_has` and `tera_remove`, and TERA_CLOSED. */

/* Sets a name to the value that a literal spells, as the line `set NAME LITERAL` does (docs/SCRIPT.md), with blanks around it or
 * none.
 * TERA_DONE. TERA_BAD: the name is no name, or the literal is none. */
uint8_t tera_set(tera_session **session, const uint8_t *name, size_t name_len, const uint8_t *literal, size_t literal_len);

/* Sets a name to a text, which stands as it is: nothing in it is quoted or escaped. It is marked safe unless `safe` is 0.
 * TERA_DONE. TERA_BAD: the name is no name, or the text is no UTF-8. */
uint8_t tera_set_text(tera_session **session, const uint8_t *name, size_t name_len, const uint8_t *text, size_t text_len,
                      uint8_t safe);

/* Sets a name to the value of a text of JSON: null is none, a string a text that is not marked safe, a number an integer of the
 * first kind that holds it, of i64, u64, i128 and u128; an object keeps its order, and of equal names the first place and the
 * last value.
 * TERA_DONE. TERA_BAD: the name is no name, or the text is no UTF-8. TERA_REFUSED: the text is not JSON, or nests deeper than
 * 64 levels, or has a number that is no such integer, and where that is. */
uint8_t tera_set_json(tera_session **session, const uint8_t *name, size_t name_len, const uint8_t *json, size_t json_len);

/* Writes the literal of the value of a name, which `tera_set` reads back as that very value: it is ASCII, and holds no control
 * byte. A name that means none or undefined is there.
 * TERA_DONE, or TERA_SMALL. TERA_MISSING. TERA_BAD: the name is no UTF-8. TERA_REFUSED: the value nests deeper than 64 levels. */
uint8_t tera_get(tera_session **session, const uint8_t *name, size_t name_len, uint8_t *room, size_t room_len, size_t *len);

/* Writes the value of a name as JSON, without blanks: none is null, and a key that is no text is the text that it prints. Kinds
 * of integers and marks of safe texts are not written.
 * TERA_DONE, or TERA_SMALL. TERA_MISSING. TERA_BAD: the name is no UTF-8. TERA_REFUSED: the value holds undefined or bytes, or
 * nests deeper than 64 levels, or has two keys that would be one text, and where that is. */
uint8_t tera_get_json(tera_session **session, const uint8_t *name, size_t name_len, uint8_t *room, size_t room_len, size_t *len);

/* Whether a name is there: TERA_DONE, or TERA_MISSING. TERA_BAD: the name is no UTF-8. */
uint8_t tera_has(tera_session **session, const uint8_t *name, size_t name_len);

/* Takes a name away. TERA_DONE: it was there. TERA_MISSING. TERA_BAD: the name is no UTF-8. */
uint8_t tera_remove(tera_session **session, const uint8_t *name, size_t name_len);

/* Writes each name with a line feed behind it, in the order of their bytes.
 * TERA_DONE, or TERA_SMALL. TERA_REFUSED: a line feed stands inside a name. */
uint8_t tera_names(tera_session **session, uint8_t *room, size_t room_len, size_t *len);

/* Writes the session as a script: a line of `set` for each name, in the order of their bytes. Run from no names, it gives the
 * session's names and values.
 * TERA_DONE, or TERA_SMALL. TERA_REFUSED: `set` takes no such name, or a value nests deeper than 64 levels, and which. */
uint8_t tera_save(tera_session **session, uint8_t *room, size_t room_len, size_t *len);

/* Runs a whole script: its answers into one room, and the report of what ended it early into another. `*answers_len` and
 * `*report_len` are their lengths. TERA_DONE, TERA_WANTED and TERA_BAD are the status that the program ends with, and both are
 * whole. TERA_SMALL: one of the two is longer than its room, and neither is written; called again, it runs the script from its
 * start. TERA_NO_MEMORY: no memory was found for one of the two; both lengths are 0, and nothing is written. */
uint8_t tera_replay(const uint8_t *script, size_t script_len, uint8_t *answers, size_t answers_room, size_t *answers_len,
                    uint8_t *report, size_t report_room, size_t *report_len);

/* The same, under a seed of 16 bytes. */
uint8_t tera_replay_seeded(const uint8_t *script, size_t script_len, const uint8_t seed[16], uint8_t *answers,
                           size_t answers_room, size_t *answers_len, uint8_t *report, size_t report_room, size_t *report_len);

/* Writes a text, which is UTF-8, with `&`, `<`, `>`, `"` and `'` as entities; `*escaped_len` is the length of that.
 * TERA_DONE; TERA_SMALL; TERA_BAD and TERA_NO_MEMORY, where the length is 0 and nothing is written. */
uint8_t tera_escape(const uint8_t *text, size_t text_len, uint8_t *room, size_t room_len, size_t *escaped_len);

#ifdef __cplusplus
}
#endif

#endif

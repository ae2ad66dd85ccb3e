/* Linked with the library for C by `--wrap`: counts its requests for memory and the blocks that it holds, and refuses the
 * requests of some numbers. */
#include <stddef.h>

void *__real_malloc(size_t size);
void *__real_realloc(void *block, size_t size);
void __real_free(void *block);

static size_t asked, held, first, last;

/* Refuses the requests from one number to another, counted from now on. */
void refuse(size_t from, size_t to) {
    asked = 0;
    first = from;
    last = to;
}

size_t requests(void) { return asked; }

size_t blocks(void) { return held; }

static int is_refused(void) {
    asked++;
    return first <= asked && asked <= last;
}

void *__wrap_malloc(size_t size) {
    void *block = is_refused() ? NULL : __real_malloc(size);
    held += block != NULL;
    return block;
}

void *__wrap_realloc(void *block, size_t size) {
    void *moved = is_refused() ? NULL : __real_realloc(block, size);
    held += !block && moved;
    return moved;
}

void __wrap_free(void *block) {
    held -= block != NULL;
    __real_free(block);
}

/* Escapes a text. */
#include "tera.h"

#include <stdio.h>

int main(void) {
    const uint8_t text[] = "<b>A & B</b>";
    uint8_t room[64];
    size_t len = 0;
    uint8_t status = tera_escape(text, sizeof text - 1, room, sizeof room, &len);
    if (status == TERA_DONE)
        printf("%.*s\n", (int)len, (const char *)room);
    return status;
}

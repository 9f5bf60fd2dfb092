/*
 * Names of files and words of the command line as they are printed: no control character reaches a terminal, and none breaks a line.
 */
#include <errno.h>
#include <stdio.h>
#include <stdlib.h>
#include <string.h>

#include "profile.h"

/* How many bytes the character has that begins here, where so many are left; 0, if it is a control character or no UTF-8. */
size_t character(const uint8_t *at, size_t left) {
    size_t length = at[0] < 0x7f ? at[0] >= ' ' : at[0] < 0xc2 ? 0 : at[0] < 0xe0 ? 2 : at[0] < 0xf0 ? 3 : at[0] < 0xf5 ? 4 : 0;
    if (length > left) {
        return 0;
    }
    for (size_t k = 1; k < length; k++) {
        if ((at[k] & 0xc0) != 0x80) {
            return 0;
        }
    }
    switch (at[0]) {
    case 0xc2: /* 80 to 9F are controls too */
    case 0xe0:
        return at[1] < 0xa0 ? 0 : length;
    case 0xed:
        return at[1] > 0x9f ? 0 : length;
    case 0xf0:
        return at[1] < 0x90 ? 0 : length;
    case 0xf4:
        return at[1] > 0x8f ? 0 : length;
    default:
        return length;
    }
}

/* A text as it is printed, a byte that may not be as \xHH. It holds until the call after the next; errno stays. */
const char *shown(const char *text) {
    static char *kept[2];
    static unsigned turn;
    int error = errno;
    char *to = malloc(4 * strlen(text) + 1);
    if (to == NULL) {
        errno = error;
        return "?";
    }
    turn ^= 1;
    free(kept[turn]);
    kept[turn] = to;
    for (const unsigned char *at = (const unsigned char *)text; *at != 0;) {
        size_t length = *at == '\\' ? 0 : character(at, 4);
        if (length == 0) {
            to += sprintf(to, "\\x%02x", *at++);
        } else {
            memcpy(to, at, length);
            to += length;
            at += length;
        }
    }
    *to = 0;
    errno = error;
    return kept[turn];
}

/* How a path is shown: standard input by its name. */
const char *shown_path(const char *path) {
    return strcmp(path, "-") == 0 ? "standard input" : shown(path);
}

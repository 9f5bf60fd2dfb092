/*
 * What a file is that was taken for another kind of file, by its first bytes and its length (docs/FORMAT.md). The library has refused it at its beginning.
 */
#include "profile.h"

enum { LOOKED_AT = 64 };

/* Whether the beginning of a file is text. */
static int is_text(const uint8_t *bytes, size_t length) {
    for (size_t k = 0; k < length && k < LOOKED_AT; k++) {
        if (bytes[k] != '\t' && bytes[k] != '\n' && bytes[k] != '\r' && (bytes[k] < ' ' || bytes[k] > '~')) {
            return 0;
        }
    }
    return 1;
}

/* What is said of a file that does not begin with the tag of what it was taken for: the kind that it is; nothing, where that is not known. */
const char *mistaken(const uint8_t *bytes, size_t length, uint8_t tag) {
    if (length == 0) {
        return ": this is empty";
    }
    if (bytes[0] == tag) {
        return "";
    }
    if (is_text(bytes, length)) {
        return ": this is a text";
    }
    switch (bytes[0]) {
    case 0x10:
        return ": this is a tree";
    case 0x40:
    case 0x42:
        return length >= TREE_ROOM ? ": this is a session" : "";
    case 0x50:
        return ": this is an image";
    default:
        return bytes[0] == 0x58 ? ": this is the chin unit's form" : "";
    }
}

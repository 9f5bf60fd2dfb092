/*
 * Where literals stand: trees by depth-first reading, images and sessions by their fields (document 01).
 */
#include "places.h"

#include <string.h>

enum { TREE_LIMIT = 32768, NAME_LIMIT = 32 };

/* What may stand at a place of a tree, besides one tag: kinds of fields, numbered behind the tags. */
enum { STATEMENT = 0x100, EXPRESSION, FUNCTION_NAME };

/* The tree that is read. */
static const uint8_t *bytes;
static uint8_t *marks;

/* The fields that are left in a content. */
struct content {
    size_t at, end;
};

/* A number of two bytes. */
static size_t two_bytes(const uint8_t *at) {
    return at[0] * (size_t)256 + at[1];
}

/* Whether a tag may stand where a kind is asked for. */
static int fits(int kind, uint8_t tag) {
    switch (kind) {
    case STATEMENT:
        return tag >= 0x11 && tag <= 0x14;
    case EXPRESSION:
        return tag >= 0x20 && tag <= 0x2c;
    case FUNCTION_NAME:
        return tag == 0x30;
    default:
        return tag == kind;
    }
}

/* Whether a field's own bytes are right. */
static int is_right(int kind, uint8_t tag, const uint8_t *content, size_t length) {
    switch (tag) {
    case 0x20:
        return length >= 1 && length <= NAME_LIMIT;
    case 0x26:
        return length == 8;
    case 0x27:
        return length == 1 && content[0] <= 1;
    case 0x30:
        return length <= NAME_LIMIT && (length >= 1 || kind == FUNCTION_NAME);
    case 0x32:
        return length == 1 && content[0] <= 9;
    default:
        return 1;
    }
}

static int read_children(uint8_t tag, struct content *c);

/* Reads a field and all in it, and goes on behind it; whether it stands. */
static int read_field(int kind, struct content *c) {
    if (c->end - c->at < 3 || !fits(kind, bytes[c->at])) {
        return 0;
    }
    uint8_t tag = bytes[c->at];
    size_t length = two_bytes(bytes + c->at + 1);
    struct content own = {c->at + 3, c->at + 3 + length};
    if (own.end > c->end || !is_right(kind, tag, bytes + own.at, length)) {
        return 0;
    }
    if (tag >= 0x26 && tag <= 0x28) {
        memset(marks + own.at, tag - 0x26 + INTEGER, length);
    }
    c->at = own.end;
    return read_children(tag, &own);
}

/* Reads fields of one kind to the end; whether all stand. */
static int read_list(int kind, struct content *c) {
    while (c->at < c->end) {
        if (!read_field(kind, c)) {
            return 0;
        }
    }
    return 1;
}

/* Reads the fields that must stand there in this order; whether all do. */
static int read_row(struct content *c, int first, int second, int third) {
    int kinds[] = {first, second, third};
    for (size_t k = 0; k < 3 && kinds[k] != 0; k++) {
        if (!read_field(kinds[k], c)) {
            return 0;
        }
    }
    return 1;
}

/* Reads what is in a field; whether it stands. What is missing or left over is refused behind all literals, and moves none. */
static int read_children(uint8_t tag, struct content *c) {
    switch (tag) {
    case 0x10:
    case 0x12:
        return read_list(STATEMENT, c);
    case 0x11:
    case 0x14:
        return read_row(c, EXPRESSION, 0, 0) && c->at == c->end;
    case 0x13:
        return read_row(c, 0x30, EXPRESSION, 0) && c->at == c->end;
    case 0x21:
        return read_row(c, 0x32, EXPRESSION, 0) && c->at == c->end;
    case 0x22:
        return read_row(c, EXPRESSION, 0x32, EXPRESSION) && c->at == c->end;
    case 0x23:
        return read_row(c, EXPRESSION, 0x12, 0) && (c->at == c->end || read_row(c, 0x12, 0, 0)) && c->at == c->end;
    case 0x24:
        return read_row(c, FUNCTION_NAME, 0x31, 0x12) && c->at == c->end;
    case 0x25:
        return read_row(c, EXPRESSION, 0, 0) && read_list(EXPRESSION, c);
    case 0x29:
        return read_list(EXPRESSION, c);
    case 0x2a:
        return read_row(c, EXPRESSION, EXPRESSION, 0) && c->at == c->end;
    case 0x2b: {
        size_t count = 0;
        for (; c->at < c->end; count++) {
            if (!read_field(EXPRESSION, c)) {
                return 0;
            }
        }
        return count % 2 == 0;
    }
    case 0x2c:
        return read_row(c, 0x31, 0x12, 0) && c->at == c->end;
    case 0x31:
        return read_list(0x30, c);
    default:
        return 1;
    }
}

void tree_places(const uint8_t *tree, size_t length, uint8_t *places) {
    memset(places, PLAIN, length);
    struct content whole = {0, length};
    if (length < 3 || length > TREE_LIMIT || two_bytes(tree + 1) + 3 != length) {
        return;
    }
    bytes = tree;
    marks = places;
    read_field(0x10, &whole);
}

/* The length of an instruction by its first byte; 0 where there is none. */
static size_t instruction_length(uint8_t first) {
    static const uint8_t lengths[] = {3, 1, 1, 1, 1, 1, 1, 1, 1, 1, 1, 1, 1, 3, 3, 1, 3, 3, 3, 3, 1, 2, 1, 1, 2, 2, 2, 4, 2, 1};
    return first < sizeof lengths ? lengths[first] : 0;
}

/* Marks the instructions True and False of code. */
static void code_places(const uint8_t *code, size_t length, uint8_t *places) {
    for (size_t at = 0; at < length && instruction_length(code[at]) > 0; at += instruction_length(code[at])) {
        if (code[at] == 0x06 || code[at] == 0x07) {
            places[at] = CODE;
        }
    }
}

/* Marks the constants of a pool. */
static void pool_places(const uint8_t *pool, size_t length, uint8_t *places) {
    for (size_t at = 0; at + 3 <= length;) {
        size_t content = two_bytes(pool + at + 1);
        if (at + 3 + content > length) {
            return;
        }
        switch (pool[at]) {
        case 0x60:
            memset(places + at + 3, INTEGER, content);
            break;
        case 0x61:
            memset(places + at + 3, STRING, content);
            break;
        case 0x62:
        case 0x63:
            if (content >= 3) {
                code_places(pool + at + 6, content - 3, places + at + 6);
            }
            break;
        default:
            return;
        }
        at += 3 + content;
    }
}

size_t image_places(const uint8_t *image, size_t length, uint8_t *places) {
    size_t at = 0;
    memset(places, PLAIN, length);
    while (at + 3 <= length && image[at] != 0) {
        size_t content = two_bytes(image + at + 1);
        if (at + 3 + content > length) {
            break;
        }
        if (image[at] == 0x50 || image[at] == 0x58) {
            code_places(image + at + 3, content, places + at + 3);
        } else if (image[at] == 0x51) {
            pool_places(image + at + 3, content, places + at + 3);
        }
        at += 3 + content;
    }
    return at;
}

/*
 * Why a tree is refused, in words: of an undefined name which of those that could be meant is the nearest.
 */
#include <stdio.h>
#include <string.h>

#include "profile.h"

enum { CALL = 0x25, FUNCTION = 0x24, NAME = 0x30, WORDS = 0x42, NAME_LIMIT = 32 };

/* A number of two bytes. */
static size_t two_bytes(const uint8_t *at) {
    return at[0] * (size_t)256 + at[1];
}

/* Takes a name of a tree or a session into the search; those with a 0 in them could not be meant, nor the one that is searched. */
static void consider_name(struct nearest *n, const uint8_t *name, size_t length) {
    static char best[NAME_LIMIT + 1];
    char candidate[NAME_LIMIT + 1];
    if (length == 0 || length > NAME_LIMIT || memchr(name, 0, length) != NULL) {
        return;
    }
    memcpy(candidate, name, length);
    candidate[length] = 0;
    if (strcmp(candidate, n->word) == 0) {
        return;
    }
    const char *before = n->best;
    consider(n, candidate);
    if (n->best != before) {
        strcpy(best, candidate);
        n->best = best;
    }
}

/* Takes the names of a tree that stand before an offset, but those in functions that end before it. */
static void consider_tree(struct nearest *n, const uint8_t *tree, size_t offset) {
    for (size_t at = 0; at < offset;) {
        size_t length = two_bytes(tree + at + 1);
        uint8_t tag = tree[at];
        if (tag == NAME) {
            consider_name(n, tree + at + 3, length);
        }
        int skipped = !has_fields(tag) || (tag == FUNCTION && at + 3 + length <= offset);
        at += 3 + (skipped ? length : 0);
    }
}

/* Takes the names of a list of a session, which begins at an offset, and answers where it ends. */
static size_t consider_list(struct nearest *n, const uint8_t *session, size_t at) {
    size_t end = at + 3 + two_bytes(session + at + 1);
    for (at += 3; at < end; at += 3 + two_bytes(session + at + 1)) {
        consider_name(n, session + at + 3, two_bytes(session + at + 1));
    }
    return end;
}

/* Takes the built-in words and the globals of a session that the library accepted. */
static void consider_session(struct nearest *n, const uint8_t *session) {
    static const char *const words[] = {"len", "puts", "first", "last", "rest", "push"};
    size_t at = 0;
    if (session[0] == WORDS) {
        at = consider_list(n, session, 0);
    } else {
        for (size_t k = 0; k < sizeof words / sizeof words[0]; k++) {
            consider_name(n, (const uint8_t *)words[k], strlen(words[k]));
        }
    }
    consider_list(n, session, at);
}

/* Says which name is undefined at an offset of a tree that the library read, and which is near. */
void explain_undefined(char *reason, size_t room, const uint8_t *session, const uint8_t *tree, size_t offset) {
    char word[NAME_LIMIT + 1] = "";
    memcpy(word, tree + offset + 3, two_bytes(tree + offset + 1));
    struct nearest n = nearest_to(word);
    consider_tree(&n, tree, offset);
    consider_session(&n, session);
    int end = snprintf(reason, room, "undefined name '%s'", shown(word));
    if (n.best != NULL && end >= 0 && (size_t)end < room) {
        snprintf(reason + end, room - (size_t)end, ", did you mean '%s'?", shown(n.best));
    }
}

/* Finds the reason of a text whose tree is refused, and the place. */
void find_tree_reason(struct message *m, uint64_t answer, const uint8_t *session, const uint8_t *tree, size_t tree_length) {
    struct walk w = begin_walk(tree, tree_length, m->text, m->length);
    m->place = place_in_text(&w, monkey_value(answer));
    if (monkey_number(answer) == MONKEY_TOO_MANY && tree[monkey_value(answer)] == CALL) {
        m->place = call_place(m->text, m->length, m->place);
    }
    if (monkey_number(answer) != MONKEY_UNDEFINED) {
        snprintf(m->reason, sizeof m->reason, "%s", word_of(monkey_number(answer)));
        return;
    }
    explain_undefined(m->reason, sizeof m->reason, session, tree, monkey_value(answer));
    struct token behind = next_token(m->text, m->length, w.mark.end);
    if (behind.kind == MONKEY_TOKEN_INTEGER && behind.at == w.mark.end) {
        size_t said = strlen(m->reason);
        snprintf(m->reason + said, sizeof m->reason - said, ": names have no digits, so one that follows is an integer of its own");
    }
}

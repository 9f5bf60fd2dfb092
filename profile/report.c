/*
 * What is said of refusals, but those of texts, and of failures: one line each, on standard error.
 */
#include <errno.h>
#include <stdio.h>
#include <string.h>

#include "profile.h"

/* Says how a command was called wrongly, and where its help is. */
static int say_usage(const char *command, const char *what, const char *word, const char *hint) {
    const char *space = command == NULL ? "" : " ";
    const char *name = command == NULL ? "" : command;
    fprintf(stderr, "profile%s%s: %s%s%s: see profile%s%s --help\n", space, name, what, word, hint, space, name);
    return FAILED;
}

/* Says that a command was not called as it should be. */
int usage_error(const char *command, const char *what, const char *word) {
    return say_usage(command, what, shown(word), "");
}

/* Says that a word is none of those that can stand there, and which of these is near to it, if one is. */
int unknown_error(const char *command, const char *what, const char *word, const char *nearest) {
    char hint[64] = "";
    if (nearest != NULL) {
        snprintf(hint, sizeof hint, ", did you mean %s?", nearest);
    }
    return say_usage(command, what, word[0] == 0 ? "''" : shown(word), hint);
}

/* Says what is no error, on a file where one is given; --quiet keeps it from being said. */
void note(const struct arguments *a, const char *what, const char *path) {
    if (!a->quiet) {
        fprintf(stderr, "profile: %s%s\n", what, path == NULL ? "" : shown_path(path));
    }
}

/* Notes how many of several files could not be done. */
void note_failed(const struct arguments *a, size_t failed) {
    char what[128];
    if (failed > 0 && a->count > 1) {
        snprintf(what, sizeof what, "%s: %zu of %zu files refused or not read", a->command, failed, a->count);
        note(a, what, NULL);
    }
}

/* Says that a file could not be read or written, and why. */
int file_error(const char *path) {
    int kept = errno;
    fprintf(stderr, "profile: %s: %s\n", shown_path(path), strerror(kept));
    return FAILED;
}

/* Says a refusal whose place is an offset of what is named, for a reason, of which there may be more to say. */
int refuse_for(const char *path, uint64_t answer, const char *why, const char *more, const char *of) {
    char reason[512];
    snprintf(reason, sizeof reason, "%s%s, at offset %u of the %s", why, more, (unsigned)monkey_value(answer), of);
    return say_error(path, monkey_value(answer), monkey_number(answer), reason);
}

/* Says a refusal whose place is an offset of what is named. */
int refuse_at_offset(const char *path, uint64_t answer, const char *of) {
    return refuse_for(path, answer, word_of(monkey_number(answer)), "", of);
}

/* Says a refusal that has no place. */
int refuse_plainly(const char *path, uint64_t answer) {
    return say_error(path, NO_OFFSET, monkey_number(answer), word_of(monkey_number(answer)));
}

/* Says that the stack of a chunk fails; before and behind it what else there is to say. */
static int refuse_chunk_and(const char *path, uint64_t answer, const char *first, const char *rest) {
    char reason[600], place[32] = "main";
    unsigned chunk = (unsigned)monkey_value(answer);
    if (chunk > 0) {
        snprintf(place, sizeof place, "function %u", chunk - 1);
    }
    snprintf(reason, sizeof reason, "%sthe stack fails in %s%s", first, place, rest);
    return say_error(path, NO_OFFSET, monkey_number(answer), reason);
}

/* Says that the stack of a chunk fails, and why. */
int refuse_chunk(const char *path, uint64_t answer, const char *why) {
    return refuse_chunk_and(path, answer, "", why);
}

/* Says that an image decodes and its stack fails, why, and what is said of the names in its code. */
int refuse_stack(const char *path, uint64_t answer, const char *why, const char *names) {
    char rest[512];
    snprintf(rest, sizeof rest, "%s; %s", why, names);
    return refuse_chunk_and(path, answer, "decodes; ", rest);
}

/* Says that an image decodes and its stack passes, but its code names what is not there. */
int refuse_names(const char *path, const char *names) {
    char reason[256];
    snprintf(reason, sizeof reason, "decodes; the stack passes; %s", names);
    return say_error(path, NO_OFFSET, 0, reason);
}

/*
 * The session of a command: fresh, with words of its own, or from a file.
 */
#define _XOPEN_SOURCE 700
#include <errno.h>
#include <fcntl.h>
#include <stdio.h>
#include <stdlib.h>
#include <string.h>
#include <sys/stat.h>
#include <unistd.h>

#include "profile.h"

/* Makes a session with the words of a list with commas between them; an empty list has none. A word that is too long stays too long. */
static int make_with_words(const char *list, uint8_t *session) {
    uint8_t *names = malloc(4 * strlen(list) + 4);
    size_t length = 0;
    if (names == NULL) {
        return file_error("--words");
    }
    for (const char *at = list; *list != 0 && at != NULL;) {
        const char *comma = strchr(at, ',');
        size_t word = comma == NULL ? strlen(at) : (size_t)(comma - at);
        size_t kept = word > 33 ? 33 : word;
        names[length] = 0x30;
        names[length + 1] = 0;
        names[length + 2] = (uint8_t)kept;
        memcpy(names + length + 3, at, kept);
        length += 3 + kept;
        at = comma == NULL ? NULL : comma + 1;
    }
    uint64_t answer = monkey_make_session_words(session, MONKEY_SESSION_SIZE, names, length);
    free(names);
    return monkey_number(answer) == 0 ? DONE : refuse_plainly("--words", answer);
}

/* Whether a session file is there: 1, or 0; -1, which it says, where that cannot be known or what is there is no regular file. */
int find_session(const char *path) {
    struct stat s;
    if (strcmp(path, "-") != 0 && stat(path, &s) != 0) {
        return errno == ENOENT ? 0 : (file_error(path), -1);
    }
    if (strcmp(path, "-") == 0 || !S_ISREG(s.st_mode)) {
        fprintf(stderr, "profile: %s: not a regular file, as a session is\n", shown_path(path));
        return -1;
    }
    return 1;
}

/* Reads a session file. One that has not the length of a session is none. */
int read_session(const char *path, uint8_t *session) {
    static uint8_t bytes[MONKEY_SESSION_SIZE + 1];
    size_t length = 0;
    if (find_session(path) < 0) {
        return FAILED;
    }
    int descriptor = open(path, O_RDONLY | O_NONBLOCK);
    if (descriptor < 0) {
        return file_error(path);
    }
    int status = read_descriptor(path, descriptor, bytes, sizeof bytes, &length);
    close(descriptor);
    if (status != DONE) {
        return status;
    }
    if (length != MONKEY_SESSION_SIZE) {
        return refuse_plainly(path, (uint64_t)MONKEY_NO_SESSION << 32);
    }
    memcpy(session, bytes, MONKEY_SESSION_SIZE);
    return DONE;
}

/* Makes the session of a command that has no file of one. */
static int make_session(const struct arguments *a, uint8_t *session) {
    if (a->words != NULL) {
        return make_with_words(a->words, session);
    }
    monkey_make_session(session, MONKEY_SESSION_SIZE);
    return DONE;
}

/* Makes or reads the session of a command; one whose file is to be replaced is locked before it is known whether it is there. */
int open_session(const struct arguments *a, uint8_t *session, int replaced) {
    if (a->session == NULL) {
        return make_session(a, session);
    }
    int there = find_session(a->session);
    if (there >= 0 && replaced) {
        int status = take_lock(a);
        if (status != DONE) {
            return status;
        }
        there = find_session(a->session);
    }
    if (there < 0) {
        return FAILED;
    }
    if (there && a->words != NULL) {
        return usage_error(a->command, "--words is for a new session, and there is ", a->session);
    }
    return there ? read_session(a->session, session) : make_session(a, session);
}

/* The name of a global in a session that the compiler accepted; null where it has none of this index. */
const uint8_t *global_name(const uint8_t *session, size_t index, size_t *length) {
    size_t at = session[0] == 0x42 ? 3 + (size_t)session[1] * 256 + session[2] : 0;
    size_t end = at + 3 + (size_t)session[at + 1] * 256 + session[at + 2];
    for (at += 3; at < end; index--) {
        *length = (size_t)session[at + 1] * 256 + session[at + 2];
        if (index == 0) {
            return session + at + 3;
        }
        at += 3 + *length;
    }
    return NULL;
}

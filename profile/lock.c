/*
 * The lock of a session: an empty file beside it, FILE.lock, which is there while a command has it. Whoever has it removes it, so one that was waited
 * for may be gone.
 */
#define _XOPEN_SOURCE 700
#include <errno.h>
#include <fcntl.h>
#include <stdio.h>
#include <stdlib.h>
#include <string.h>
#include <sys/stat.h>
#include <time.h>
#include <unistd.h>

#include "profile.h"

/* A command waits in silence this often, so long: a second in all. */
enum { TURNS = 50, TURN = 20000000 };

static char *volatile lock; /* its path while this command has it, else null */

/* Says that the lock cannot be had. */
static int lock_error(const struct arguments *a, const char *path, const char *why) {
    fprintf(stderr, "profile: %s: its lock ", shown_path(a->session));
    fprintf(stderr, "%s: %s\n", shown_path(path), why);
    return FAILED;
}

/* Says that another command has the session. */
static int busy_error(const struct arguments *a) {
    fprintf(stderr, "profile: %s: another command is writing this session; without --no-wait it is waited for\n", shown_path(a->session));
    return BUSY;
}

/* Opens the file of a lock, and makes it where it is not there, for all who may write the session; -1 with an error. */
static int open_lock(const char *path, const char *session) {
    for (;;) {
        int descriptor = open(path, O_RDWR | O_CREAT | O_EXCL, 0600);
        if (descriptor >= 0) {
            take_after(descriptor, session, 0600);
            return descriptor;
        }
        if (errno != EEXIST) {
            return -1;
        }
        descriptor = open(path, O_RDWR | O_NOFOLLOW | O_NONBLOCK);
        if (descriptor >= 0 || errno != ENOENT) {
            return descriptor;
        }
    }
}

/* Tries to lock an open file: 1, if it could, 0, if another command has it, else -1. */
static int try_lock(int descriptor) {
    struct flock whole = {.l_type = F_WRLCK, .l_whence = SEEK_SET};
    if (fcntl(descriptor, F_SETLK, &whole) == 0) {
        return 1;
    }
    return errno == EAGAIN || errno == EACCES || errno == EINTR ? 0 : -1;
}

/* Locks an open file, and waits for it where another command has it; whether it could. */
static int wait_for(const struct arguments *a, int descriptor) {
    static int said = 0;
    struct timespec turn = {0, TURN};
    for (int k = 0; k < TURNS && !said; k++) {
        int locked = try_lock(descriptor);
        if (locked != 0) {
            return locked > 0;
        }
        nanosleep(&turn, NULL);
    }
    if (!said) {
        note(a, "waiting for another command on ", a->session);
        said = 1;
    }
    for (;;) {
        struct flock whole = {.l_type = F_WRLCK, .l_whence = SEEK_SET};
        if (fcntl(descriptor, F_SETLKW, &whole) == 0) {
            return 1;
        }
        if (errno != EINTR) {
            return 0;
        }
    }
}

/* Takes the lock of a path for a session. What is there and is no empty file is not taken for a lock: it would be removed. */
static int take(const struct arguments *a, const char *path, const char *session) {
    for (;;) {
        struct stat held, there;
        int descriptor = open_lock(path, session);
        if (descriptor < 0 || fstat(descriptor, &held) != 0) {
            return lock_error(a, path, strerror(errno));
        }
        if (!S_ISREG(held.st_mode) || held.st_size != 0) {
            close(descriptor);
            return lock_error(a, path, "not an empty file");
        }
        if (a->no_wait && try_lock(descriptor) == 0) {
            close(descriptor);
            return busy_error(a);
        }
        if (!wait_for(a, descriptor)) {
            int status = lock_error(a, path, strerror(errno));
            close(descriptor);
            return status;
        }
        if (lstat(path, &there) == 0 && there.st_dev == held.st_dev && there.st_ino == held.st_ino) {
            return DONE; /* it stays open, and so locked, until the program ends */
        }
        close(descriptor);
    }
}

/* The path of the lock of a session, in memory of its own: links are followed, so that all paths to a session have one. */
char *lock_of(const char *session) {
    char *target = follow_links(session);
    char *path = target == NULL ? NULL : path_with(target, ".lock");
    free(target);
    return path;
}

/* Takes the lock of a command's session; it is had until it is released. */
int take_lock(const struct arguments *a) {
    char *path = lock_of(a->session);
    if (path == NULL) {
        return file_error(a->session);
    }
    catch_signals();
    int status = take(a, path, a->session);
    if (status != DONE) {
        free(path);
        return status;
    }
    lock = path;
    return DONE;
}

/* Removes the lock, if this command has one. */
void remove_lock(void) {
    if (lock != NULL) {
        unlink(lock);
    }
}

/* Removes the lock, and forgets it: of another command's there is no second removal. */
void release_lock(void) {
    hold_signals();
    remove_lock();
    free(lock);
    lock = NULL;
    release_signals();
}

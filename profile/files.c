/*
 * Files: read up to a limit, and written: as they come, or anew by writing.c.
 */
#define _XOPEN_SOURCE 700
#include <errno.h>
#include <fcntl.h>
#include <stdio.h>
#include <stdlib.h>
#include <string.h>
#include <sys/stat.h>
#include <unistd.h>

#include "profile.h"

/*
 * Opens what is of no use on 0, 1 and 2 where they are closed, so that no file gets their numbers: to read standard input, or to write the others, is
 * an error then.
 */
int hold_descriptors(void) {
    for (int k = 0; k < 3; k++) {
        if (fcntl(k, F_GETFD) < 0 && errno == EBADF && open("/dev/null", k == STDIN_FILENO ? O_WRONLY : O_RDONLY) != k) {
            return file_error("/dev/null");
        }
    }
    return DONE;
}

/* Reads a descriptor until its end or until the buffer is full; whether it could. */
static int read_all(int descriptor, uint8_t *buffer, size_t room, size_t *length) {
    *length = 0;
    while (*length < room) {
        ssize_t n = read(descriptor, buffer + *length, room - *length);
        if (n == 0) {
            return 1;
        }
        if (n < 0 && errno != EINTR) {
            return 0;
        }
        *length += n < 0 ? 0 : (size_t)n;
    }
    return 1;
}

/* Writes all bytes to a descriptor; whether it could. */
int write_all(int descriptor, const uint8_t *bytes, size_t length) {
    while (length > 0) {
        ssize_t n = write(descriptor, bytes, length);
        if (n < 0 && errno != EINTR) {
            return 0;
        }
        bytes += n < 0 ? 0 : n;
        length -= n < 0 ? 0 : (size_t)n;
    }
    return 1;
}

/* Reads an open file, which is shown by its path. */
int read_descriptor(const char *path, int descriptor, uint8_t *buffer, size_t room, size_t *length) {
    return read_all(descriptor, buffer, room, length) ? DONE : file_error(path);
}

/* Reads a file, or what is open already: standard input where the path is "-", and what /dev/stdin and the like name. */
int read_input(const char *path, uint8_t *buffer, size_t room, size_t *length) {
    int named = strcmp(path, "-") == 0 ? STDIN_FILENO : descriptor_of(path);
    int descriptor = named >= 0 ? named : open(path, O_RDONLY);
    if (descriptor < 0) {
        return file_error(path);
    }
    int status = read_descriptor(path, descriptor, buffer, room, length);
    if (named < 0) {
        close(descriptor);
    }
    return status;
}

/* The permissions that the process gives to new files, of those that are asked for. */
mode_t permitted(mode_t asked) {
    mode_t mask = umask(0);
    umask(mask);
    return asked & ~mask;
}

/*
 * Gives an open file the permissions, the owner and the group of the file of a path, or fresh permissions where none is. Where the system leaves the
 * owner to root alone the group is kept; whether that could be. Without it the group has no permissions.
 */
int take_after(int descriptor, const char *path, mode_t fresh) {
    struct stat s, now;
    if (stat(path, &s) != 0) {
        return fchmod(descriptor, fresh) == 0;
    }
    mode_t mode = s.st_mode & 0777;
    int kept = fstat(descriptor, &now) == 0 && ((now.st_uid == s.st_uid && now.st_gid == s.st_gid) || fchown(descriptor, s.st_uid, s.st_gid) == 0 ||
                                                now.st_gid == s.st_gid || fchown(descriptor, (uid_t)-1, s.st_gid) == 0);
    int error = errno;
    int changed = fchmod(descriptor, kept ? mode : mode & ~(mode_t)070) == 0;
    errno = kept ? errno : error;
    return changed && kept;
}

/* Writes bytes to an open descriptor, as they come. */
static int write_stream(const char *path, int descriptor, const uint8_t *bytes, size_t length) {
    return descriptor >= 0 && write_all(descriptor, bytes, length) ? DONE : file_error(path);
}

/* Whether an output is written as it comes: standard output, its path null or "-", what is open already, a device, a pipe. */
int is_stream(const char *path) {
    struct stat s;
    if (path == NULL || strcmp(path, "-") == 0) {
        return 1;
    }
    char *target = follow_links(path);
    int named = target != NULL && descriptor_of(target) >= 0;
    free(target);
    return named || (stat(path, &s) == 0 && !S_ISREG(s.st_mode));
}

/* Writes an output as it comes. */
int write_through(const char *path, const uint8_t *bytes, size_t length) {
    if (path == NULL || strcmp(path, "-") == 0) {
        return write_stream("standard output", STDOUT_FILENO, bytes, length);
    }
    char *target = follow_links(path);
    int named = target == NULL ? -1 : descriptor_of(target);
    free(target);
    if (named >= 0) {
        return write_stream(path, named, bytes, length);
    }
    int descriptor = open(path, O_WRONLY);
    int status = write_stream(path, descriptor, bytes, length);
    return descriptor >= 0 && close(descriptor) != 0 && status == DONE ? file_error(path) : status;
}

/* Writes an output: as it comes, or to a new file that is renamed. */
int write_output(const char *path, const uint8_t *bytes, size_t length) {
    if (is_stream(path)) {
        return write_through(path, bytes, length);
    }
    int status = begin_files(1, 0);
    if (status == DONE) {
        status = prepare_file(path, bytes, length, 0);
    }
    if (status == DONE) {
        status = commit_files();
    }
    drop_files();
    return status;
}

/* Refuses an output that is no text, and would go to a terminal. */
int refuse_terminal(const char *path) {
    if ((path == NULL || strcmp(path, "-") == 0) && isatty(STDOUT_FILENO)) {
        fprintf(stderr, "profile: standard output is a terminal: name a file with -o\n");
        return FAILED;
    }
    return DONE;
}

/* Writes an output that is no text. */
int write_binary(const char *path, const uint8_t *bytes, size_t length) {
    return refuse_terminal(path) == DONE ? write_output(path, bytes, length) : FAILED;
}

/* Ends what was printed; whether it could all be written. */
int finish_stdout(void) {
    return fflush(stdout) == 0 && !ferror(stdout) ? DONE : file_error("standard output");
}

/*
 * The files that a command writes: each beside its target first, then all are renamed, in their order; where one cannot be, those before it are taken
 * back.
 */
#define _XOPEN_SOURCE 700
#include <errno.h>
#include <fcntl.h>
#include <stdio.h>
#include <stdlib.h>
#include <string.h>
#include <sys/stat.h>
#include <unistd.h>

#include "profile.h"

/* A file that is written beside its target, or a new directory. */
struct pending {
    char *shown;     /* the target as it was typed */
    char *target;    /* its links followed; null for a file of a new directory, which goes with it */
    char *temporary; /* where it is until it is renamed */
    char *old;       /* a second name of what the target was before, while that may have to be taken back, or null */
    int directory;
    int replaces; /* the target was there */
    int renamed;
};

static struct pending *files;
static volatile size_t count; /* those whose temporary file is there */
static size_t room;
static int lasting; /* all goes to the disk */

/* Makes room for files to be written; lasting ones are on the disk before they are renamed. */
int begin_files(size_t most, int to_disk) {
    files = calloc(most, sizeof *files);
    count = 0;
    room = most;
    lasting = to_disk;
    catch_signals();
    return files == NULL ? file_error("memory") : DONE;
}

/* The next of the files, not counted yet; null where there is no memory. */
static struct pending *next_file(const char *shown, char *target) {
    struct pending *p = count < room ? &files[count] : NULL;
    if (p != NULL) {
        *p = (struct pending){NULL, NULL, NULL, NULL, 0, 0, 0};
        p->shown = path_with(shown, "");
        p->target = target;
    }
    return p == NULL || p->shown == NULL ? NULL : p;
}

/* Says that a file could not be written, and frees what is known of it. */
static int give_up(const char *shown, struct pending *p, char *target) {
    int status = file_error(shown);
    free(target);
    if (p != NULL) {
        free(p->shown);
        free(p->temporary);
    }
    return status;
}

/* Makes a directory beside a target, of a name of its own. */
int prepare_directory(const char *path) {
    struct stat s;
    char *target = directory_target(path);
    struct pending *p = target == NULL ? NULL : next_file(path, target);
    if (p == NULL || (p->temporary = path_with(target, ".XXXXXX")) == NULL) {
        return give_up(path, p, target);
    }
    p->directory = 1;
    hold_signals();
    int made = mkdtemp(p->temporary) != NULL;
    count += made ? 1 : 0;
    release_signals();
    if (!made) {
        return give_up(path, p, target);
    }
    return stat(p->temporary, &s) == 0 && chmod(p->temporary, (s.st_mode & 07000) | permitted(0777)) == 0 ? DONE : file_error(path);
}

/* Writes the bytes of a file that was opened, and closes it. */
static int fill(int descriptor, const struct pending *p, const uint8_t *bytes, size_t length) {
    int written = write_all(descriptor, bytes, length) && (!lasting || fsync(descriptor) == 0);
    int kept = errno;
    if (close(descriptor) == 0 && written) {
        return DONE;
    }
    errno = written ? errno : kept;
    return file_error(p->shown);
}

/* Whether a target may be written: a regular file that the user may write, or nothing. Else an error says why. */
static int is_writable(const char *target) {
    struct stat s;
    if (stat(target, &s) != 0) {
        return errno == ENOENT;
    }
    errno = S_ISDIR(s.st_mode) ? EISDIR : EINVAL;
    return S_ISREG(s.st_mode) && access(target, W_OK) == 0;
}

/* Writes a file beside its target. A session is its owner's alone where it is new, and keeps its group where it is not. */
int prepare_file(const char *path, const uint8_t *bytes, size_t length, int is_session) {
    char *target = follow_links(path);
    struct pending *p = target == NULL || !is_writable(target) ? NULL : next_file(path, target);
    if (p == NULL || (p->temporary = path_with(target, ".XXXXXX")) == NULL) {
        return give_up(path, p, target);
    }
    hold_signals();
    int descriptor = mkstemp(p->temporary);
    count += descriptor < 0 ? 0 : 1;
    release_signals();
    if (descriptor < 0) {
        return give_up(path, p, target);
    }
    if (!take_after(descriptor, target, is_session ? 0600 : permitted(0666)) && is_session) {
        fprintf(stderr, "profile: %s: its group cannot be kept: %s\n", shown_path(path), strerror(errno));
        close(descriptor);
        return FAILED;
    }
    return fill(descriptor, p, bytes, length);
}

/* Writes a file of a directory: into the new one, if there is one, else beside its target. */
int prepare_within(const char *directory, const char *name, const uint8_t *bytes, size_t length) {
    char *path = path_within(directory, name);
    if (path == NULL || count == 0 || !files[0].directory) {
        int status = path == NULL ? file_error(directory) : prepare_file(path, bytes, length, 0);
        free(path);
        return status;
    }
    struct pending *p = next_file(path, NULL);
    if (p == NULL || (p->temporary = path_within(files[0].temporary, name)) == NULL) {
        int status = give_up(path, p, NULL);
        free(path);
        return status;
    }
    free(path);
    hold_signals();
    int descriptor = open(p->temporary, O_WRONLY | O_CREAT | O_EXCL, 0666);
    count += descriptor < 0 ? 0 : 1;
    release_signals();
    return descriptor < 0 ? give_up(p->shown, p, NULL) : fill(descriptor, p, bytes, length);
}

/* Takes to the disk what a directory has. Where a file system has no such call there is nothing to do. */
static void sync_directory(const char *path) {
    int descriptor = open(path, O_RDONLY);
    if (descriptor >= 0) {
        fsync(descriptor);
        close(descriptor);
    }
}

/* Gives a target a second name, by which it can be taken back; where a file system has no such names it cannot. */
static void keep_old(struct pending *p) {
    p->old = path_with(p->temporary, "~");
    if (p->old != NULL && link(p->target, p->old) != 0) {
        free(p->old);
        p->old = NULL;
    }
}

/* Renames a file to its target; nothing has to be taken back after the last. */
static int commit_file(struct pending *p, int last) {
    struct stat s;
    p->replaces = lstat(p->target, &s) == 0;
    if (p->replaces && !last) {
        keep_old(p);
    }
    if (lasting && p->directory) {
        sync_directory(p->temporary);
    }
    if (rename(p->temporary, p->target) != 0) {
        return file_error(p->shown);
    }
    p->renamed = 1;
    char *directory = lasting ? directory_of(p->target) : NULL;
    if (directory != NULL) {
        sync_directory(directory);
    }
    free(directory);
    return DONE;
}

/* Takes back what was renamed, the last first. */
static void take_back(void) {
    for (size_t k = count; k-- > 0;) {
        struct pending *p = &files[k];
        if (!p->renamed) {
            continue;
        }
        if (p->old != NULL && rename(p->old, p->target) != 0) {
            fprintf(stderr, "profile: %s: what was there has now the name %s~\n", shown_path(p->shown), p->temporary);
            free(p->old);
            p->old = NULL;
        } else if (p->directory) {
            p->renamed = rename(p->target, p->temporary) != 0;
        } else if (!p->replaces) {
            unlink(p->target);
        }
    }
}

/* Renames all files to their targets, or none. */
int commit_files(void) {
    int status = DONE;
    hold_signals();
    for (size_t k = 0; k < count && status == DONE; k++) {
        if (files[k].target != NULL) {
            status = commit_file(&files[k], k + 1 == count);
        }
    }
    if (status != DONE) {
        take_back();
    }
    for (size_t k = 0; k < count; k++) {
        if (files[k].old != NULL) {
            unlink(files[k].old);
        }
    }
    release_signals();
    return status;
}

/* Whether a file is at its target: renamed, or in a new directory that was. */
static int is_done(const struct pending *p) {
    return p->target == NULL ? files[0].renamed : p->renamed;
}

/* Removes what was not renamed, the files of a directory before it. */
void remove_temporaries(void) {
    for (size_t k = count; k-- > 0;) {
        if (!is_done(&files[k]) && unlink(files[k].temporary) != 0) {
            rmdir(files[k].temporary);
        }
    }
}

/* Removes what was not renamed, and forgets all. */
void drop_files(void) {
    hold_signals();
    remove_temporaries();
    size_t left = count;
    count = 0;
    release_signals();
    for (size_t k = 0; k < left; k++) {
        free(files[k].shown);
        free(files[k].target);
        free(files[k].temporary);
        free(files[k].old);
    }
    free(files);
    files = NULL;
}

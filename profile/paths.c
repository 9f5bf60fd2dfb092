/*
 * Paths: what they lead to, and whether two lead to one file.
 */
#define _XOPEN_SOURCE 700
#include <errno.h>
#include <limits.h>
#include <stdio.h>
#include <stdlib.h>
#include <string.h>
#include <sys/stat.h>
#include <unistd.h>

#include "profile.h"

/* The links that a path may have, one leading to the next. */
enum { LINKS = 40 };

/* Whether a path names a directory. */
int is_directory(const char *path) {
    struct stat s;
    size_t length = strlen(path);
    return (length > 0 && path[length - 1] == '/') || (stat(path, &s) == 0 && S_ISDIR(s.st_mode));
}

/* Whether there is something of this path. */
int is_there(const char *path) {
    struct stat s;
    return stat(path, &s) == 0;
}

/* The directory of a path, in memory of its own. */
char *directory_of(const char *path) {
    const char *slash = strrchr(path, '/');
    size_t length = slash == NULL || slash == path ? 1 : (size_t)(slash - path);
    char *directory = malloc(length + 1);
    if (directory != NULL) {
        memcpy(directory, slash == NULL ? "." : path, length);
        directory[length] = 0;
    }
    return directory;
}

/* A path with something behind it, in memory of its own. */
char *path_with(const char *path, const char *end) {
    char *joined = malloc(strlen(path) + strlen(end) + 1);
    if (joined != NULL) {
        sprintf(joined, "%s%s", path, end);
    }
    return joined;
}

/* The path of a name in a directory, in memory of its own. */
char *path_within(const char *directory, const char *name) {
    size_t length = strlen(directory);
    char *path = malloc(length + strlen(name) + 2);
    if (path != NULL) {
        sprintf(path, "%s%s%s", directory, length > 0 && directory[length - 1] == '/' ? "" : "/", name);
    }
    return path;
}

/* The open descriptor that a path names, as /dev/stdin does; -1 if it names none. */
int descriptor_of(const char *path) {
    static const char *const standard[] = {"/dev/stdin", "/dev/stdout", "/dev/stderr"};
    static const char *const folders[] = {"/dev/fd/", "/proc/self/fd/"};
    for (int k = 0; k < 3; k++) {
        if (strcmp(path, standard[k]) == 0) {
            return k;
        }
    }
    for (size_t k = 0; k < sizeof folders / sizeof folders[0]; k++) {
        size_t length = strlen(folders[k]);
        char *end;
        if (strncmp(path, folders[k], length) == 0 && path[length] >= '0' && path[length] <= '9') {
            long number = strtol(path + length, &end, 10);
            return *end == 0 && number <= INT_MAX ? (int)number : -1;
        }
    }
    return -1;
}

/* Whether a path is read from standard input. */
int is_standard_input(const char *path) {
    return strcmp(path, "-") == 0 || descriptor_of(path) == STDIN_FILENO;
}

/* What a link leads to, in memory of its own; null, with no error, where a path is no link. */
static char *link_target(const char *path) {
    char target[PATH_MAX];
    ssize_t length = readlink(path, target, sizeof target - 1);
    if (length < 0) {
        errno = errno == EINVAL || errno == ENOENT ? 0 : errno;
        return NULL;
    }
    target[length] = 0;
    if (target[0] == '/') {
        return path_with("", target);
    }
    char *directory = directory_of(path);
    char *joined = directory == NULL ? NULL : path_within(directory, target);
    free(directory);
    return joined;
}

/*
 * A path in memory of its own, its last links followed, also where nothing is at their end; not past the name of a descriptor. Null, with an error, if
 * it leads nowhere.
 */
char *follow_links(const char *path) {
    char *at = path_with(path, "");
    for (int links = 0; at != NULL && descriptor_of(at) < 0; links++) {
        char *next = link_target(at);
        if (next == NULL && errno == 0) {
            return at;
        }
        free(at);
        at = next;
        if (links == LINKS) {
            free(at);
            at = NULL;
            errno = ELOOP;
        }
    }
    return at;
}

/* Where a directory of a path is to be, in memory of its own: its links followed, and no slash at its end. */
char *directory_target(const char *path) {
    char *plain = path_with(path, "");
    for (size_t end = plain == NULL ? 0 : strlen(plain); end > 1 && plain[end - 1] == '/'; end--) {
        plain[end - 1] = 0;
    }
    char *target = plain == NULL ? NULL : follow_links(plain);
    free(plain);
    return target;
}

/* What a path leads to: a regular file that is there, or one that is not, by its directory and its name. Of all else nothing is known. */
struct place {
    int known;
    dev_t device;
    ino_t inode;
    char *name; /* of one that is not there */
};

/* The place of what a path leads to; where it is null or "-", of an open descriptor. */
static struct place find_place(const char *path, int standard) {
    struct stat s;
    struct place place = {0, 0, 0, NULL};
    int open_already = path == NULL || strcmp(path, "-") == 0;
    char *target = open_already ? NULL : directory_target(path);
    int named = open_already ? standard : target == NULL ? -1 : descriptor_of(target);
    int there = (named >= 0 ? fstat(named, &s) : stat(path, &s)) == 0;
    int absent = !there && target != NULL && named < 0 && errno == ENOENT;
    char *directory = absent ? directory_of(target) : NULL;
    if ((there && S_ISREG(s.st_mode)) || (directory != NULL && stat(directory, &s) == 0)) {
        place.known = 1;
        place.device = s.st_dev;
        place.inode = s.st_ino;
        place.name = directory == NULL ? NULL : path_with(strrchr(target, '/') == NULL ? target : strrchr(target, '/') + 1, "");
    }
    free(directory);
    free(target);
    return place;
}

/* Whether two places are one. */
static int is_same(const struct place *l, const struct place *r) {
    int one = l->known && r->known && l->device == r->device && l->inode == r->inode;
    return one && (l->name == NULL) == (r->name == NULL) && (l->name == NULL || strcmp(l->name, r->name) == 0);
}

/* The index, below a count, of the first place that is one with a place; the count, if there is none. */
static size_t first_same(const struct place *places, size_t count, const struct place *place) {
    size_t k = 0;
    while (k < count && !is_same(&places[k], place)) {
        k++;
    }
    return k;
}

/* Frees places. */
static void free_places(struct place *places, size_t count) {
    for (size_t k = 0; places != NULL && k < count; k++) {
        free(places[k].name);
    }
    free(places);
}

/* Refuses to write over an input, standard input too, or two files to one place. A null path is standard output. */
int check_places(const char *command, char *const *written, size_t writes, char *const *inputs, size_t reads) {
    struct place *to = calloc(writes, sizeof *to);
    struct place *from = calloc(reads + 1, sizeof *from);
    int status = to == NULL || from == NULL ? file_error("memory") : DONE;
    for (size_t k = 0; k <= reads && status == DONE; k++) {
        from[k] = find_place(k < reads ? inputs[k] : "-", STDIN_FILENO);
    }
    for (size_t k = 0; k < writes && status == DONE; k++) {
        to[k] = find_place(written[k], STDOUT_FILENO);
        size_t input = first_same(from, reads + 1, &to[k]);
        if (input <= reads) {
            int standard = input == reads || strcmp(inputs[input], "-") == 0;
            status = usage_error(command, "an input would be written over: ", standard ? "standard input" : inputs[input]);
        } else if (first_same(to, k, &to[k]) < k) {
            status = usage_error(command, "two files would be written to ", written[k] == NULL ? "standard output" : written[k]);
        }
    }
    free_places(to, writes);
    free_places(from, reads + 1);
    return status;
}

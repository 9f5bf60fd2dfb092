/*
 * Scripts that were read and compiled: what compile and alike share.
 */
#ifndef SCRIPT_H
#define SCRIPT_H

#include "profile.h"

/* A script: the bytes of its file, a text or a tree; its image; the name of that in a directory. */
struct script {
    const char *path;
    uint8_t *bytes;
    size_t length;
    uint8_t *image;
    size_t image_length;
    char *name;
    int failed; /* refused or not read */
};

/* A script and the shape of its tree, null where it has none, and its group. */
struct shaped {
    const struct script *script;
    uint8_t *shape;
    size_t length;
    int group;
};

/* compile.c */
int compile_scripts(const struct arguments *a, struct script *scripts);
void free_scripts(struct script *scripts, size_t count);

/* alike.c */
int judge_alike(const struct arguments *a, const struct script *scripts);

/* departure.c */
size_t field_that_differs(const struct shaped *here, const struct shaped *there);
void find_departure(struct message *m, const struct shaped *here, struct message *other, const struct shaped *there);

#endif

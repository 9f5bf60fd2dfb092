/*
 * alike: scripts in groups of one shape. The shape of a tree is the library's (monkey_write_shape), and two scripts are in one group where
 * their shapes are equal.
 */
#include <stdio.h>
#include <stdlib.h>
#include <string.h>

#include "script.h"

enum { NO_GROUP = -1 };

/* Scripts of one shape: the first of them, and how many there are. */
struct group {
    size_t first, count;
};

/* What is known of the scripts of a command: each with its shape and its group, and the groups, the largest first. */
struct comparison {
    const struct arguments *arguments;
    struct shaped *scripts;
    struct group *groups;
    size_t count, unread; /* groups; scripts that have no shape */
    size_t frame_size;    /* 0, if no frames are asked for */
};

/* Finds the shape of a script, and keeps it; a script that is none has no shape. */
static int find_shape(const struct arguments *a, struct shaped *s) {
    static uint8_t tree[TREE_ROOM], shape[MONKEY_TREE_LIMIT];
    const struct script *script = s->script;
    uint64_t answer = (uint64_t)script->length;
    if (script->bytes == NULL) {
        return DONE;
    }
    if (!a->tree) {
        answer = monkey_read_text(script->bytes, script->length, tree, sizeof tree);
    }
    if (monkey_number(answer) == 0) {
        answer = monkey_write_shape(a->tree ? script->bytes : tree, monkey_value(answer), shape, sizeof shape);
    }
    if (monkey_number(answer) != 0) {
        return DONE;
    }
    s->length = monkey_value(answer);
    s->shape = malloc(s->length + 1);
    if (s->shape == NULL) {
        return file_error(script->path);
    }
    memcpy(s->shape, shape, s->length);
    return DONE;
}

/* Whether two scripts have equal shapes. */
static int have_one_shape(const struct shaped *one, const struct shaped *other) {
    return one->length == other->length && memcmp(one->shape, other->shape, one->length) == 0;
}

/* Puts a script into the group of its shape, a new one where there is none yet. */
static void put_in_group(struct comparison *c, size_t index) {
    struct shaped *s = &c->scripts[index];
    if (s->shape == NULL) {
        c->unread++;
        return;
    }
    for (size_t k = 0; k < c->count && s->group == NO_GROUP; k++) {
        if (have_one_shape(s, &c->scripts[c->groups[k].first])) {
            s->group = (int)k;
            c->groups[k].count++;
        }
    }
    if (s->group == NO_GROUP) {
        s->group = (int)c->count;
        c->groups[c->count++] = (struct group){index, 1};
    }
}

/* Orders groups: larger ones first, of equal ones the one of the earlier script. */
static int by_size(const void *left, const void *right) {
    const struct group *l = left, *r = right;
    if (l->count != r->count) {
        return l->count < r->count ? 1 : -1;
    }
    return (l->first > r->first) - (l->first < r->first);
}

/* Has the groups in their order. */
static void order_groups(struct comparison *c, size_t scripts) {
    qsort(c->groups, c->count, sizeof c->groups[0], by_size);
    for (size_t k = 0; k < scripts; k++) {
        for (size_t g = 0; g < c->count && c->scripts[k].group != NO_GROUP; g++) {
            if (have_one_shape(&c->scripts[k], &c->scripts[c->groups[g].first])) {
                c->scripts[k].group = (int)g;
            }
        }
    }
}

/* Frees what is known. */
static void free_comparison(struct comparison *c, size_t scripts) {
    for (size_t k = 0; c->scripts != NULL && k < scripts; k++) {
        free(c->scripts[k].shape);
    }
    free(c->scripts);
    free(c->groups);
}

/* Puts scripts that were read and compiled into groups. */
static int find_groups(struct comparison *c, const struct script *scripts, size_t count) {
    c->scripts = calloc(count, sizeof *c->scripts);
    c->groups = calloc(count, sizeof *c->groups);
    if (c->scripts == NULL || c->groups == NULL) {
        return file_error("memory");
    }
    for (size_t k = 0; k < count; k++) {
        c->scripts[k] = (struct shaped){&scripts[k], NULL, 0, NO_GROUP};
        if (find_shape(c->arguments, &c->scripts[k]) != DONE) {
            return FAILED;
        }
        put_in_group(c, k);
    }
    order_groups(c, count);
    return DONE;
}

/* A message about a script, with nothing said yet. */
static struct message message_of(const struct shaped *s) {
    struct message m = {s->script->path, s->script->bytes, s->script->length, 0, "", NULL, 0};
    return m;
}

/* Says where the first script of a group departs from the first of the largest, and why. */
static void say_departure(const struct comparison *c, const struct group *group) {
    const struct shaped *one = &c->scripts[group->first], *other = &c->scripts[c->groups[0].first];
    struct message here = message_of(one), there = message_of(other);
    char head[64];
    if (c->arguments->tree) {
        fprintf(stderr, "%s: departs from %s at offset %zu of the tree\n", shown_path(one->script->path), shown_path(other->script->path),
                field_that_differs(one, other));
        return;
    }
    find_departure(&here, one, &there, other);
    say_place(&here, "departs", here.reason);
    snprintf(head, sizeof head, "the first of %zu", c->groups[0].count);
    say_place(&there, "note", c->groups[0].count > 1 ? head : "the other");
}

/* Says where each smaller group departs from the largest. */
static void say_departures(const struct comparison *c) {
    for (size_t k = 1; k < c->count; k++) {
        say_departure(c, &c->groups[k]);
    }
}

/* Writes where the first script of a group departs from the first of the largest, and why. */
static void put_departure(const struct comparison *c, const struct group *group) {
    const struct shaped *one = &c->scripts[group->first], *other = &c->scripts[c->groups[0].first];
    struct message here = message_of(one), there = message_of(other);
    begin_part("departs");
    put_word("from", other->script->path);
    if (c->arguments->tree) {
        put_number("offset", (long long)field_that_differs(one, other));
    } else {
        find_departure(&here, one, &there, other);
        put_place(&here, here.place, here.reason);
        begin_part("note");
        put_place(&there, there.place, NULL);
        end_item();
    }
    end_item();
}

/* Prints a script as an object: its group, its lengths, and of the first of a smaller group where it departs. */
static void put_script(const struct comparison *c, size_t index) {
    const struct shaped *s = &c->scripts[index];
    begin_object(stdout, s->script->path);
    put_number("group", s->group);
    if (s->script->image == NULL) {
        put_literal("bytes", "null");
    } else {
        put_number("bytes", (long long)s->script->image_length);
    }
    if (s->script->image != NULL && c->frame_size > 0) {
        uint64_t answer = monkey_count_frames(s->script->image, s->script->image_length, c->frame_size);
        put_number("whole", monkey_whole(answer));
        put_number("rest", monkey_rest(answer));
    }
    if (s->group > 0 && c->groups[s->group].first == index) {
        put_departure(c, &c->groups[s->group]);
    }
    end_object();
}

/* Prints each script that has a shape as an object. */
static int put_scripts(const struct comparison *c) {
    for (size_t k = 0; k < c->arguments->count; k++) {
        if (c->scripts[k].group != NO_GROUP) {
            put_script(c, k);
        }
    }
    return finish_stdout();
}

/* Prints the length of a group's images, and their frames where they are asked for. */
static void print_lengths(const struct comparison *c, const struct group *group) {
    const struct script *script = c->scripts[group->first].script;
    if (script->image == NULL) {
        printf("refused, no image");
        return;
    }
    printf("image %zu bytes", script->image_length);
    if (c->frame_size > 0) {
        uint64_t answer = monkey_count_frames(script->image, script->image_length, c->frame_size);
        printf(", frames %u of %zu bytes and %u left", (unsigned)monkey_whole(answer), c->frame_size, (unsigned)monkey_rest(answer));
    }
}

/* Prints each group: how many scripts it has, its lengths and, where there are several groups, its scripts. */
static void print_groups(const struct comparison *c) {
    for (size_t k = 0; k < c->count; k++) {
        const struct group *group = &c->groups[k];
        const char *many = c->count == 1 ? "scripts, alike" : "scripts, alike among themselves";
        printf("%zu %s: ", group->count, group->count == 1 ? "script" : many);
        print_lengths(c, group);
        putchar('\n');
        for (size_t j = 0; c->count > 1 && j < c->arguments->count; j++) {
            if (c->scripts[j].group == (int)k) {
                printf("    %s\n", shown_path(c->scripts[j].script->path));
            }
        }
    }
}

/* The status of a comparison: scripts of several groups are refused, and those without a shape. */
static int status_of(const struct comparison *c) {
    return c->count > 1 || c->unread > 0 ? REFUSED : DONE;
}

/* Judges scripts that were compiled: those of several groups are refused, and said where they depart. */
int judge_alike(const struct arguments *a, const struct script *scripts) {
    struct comparison c = {.arguments = a};
    int status = find_groups(&c, scripts, a->count);
    if (status == DONE && status_of(&c) != DONE && is_json()) {
        status = put_scripts(&c);
    } else if (status == DONE) {
        say_departures(&c);
    }
    if (status == DONE) {
        status = status_of(&c);
    }
    if (status == REFUSED) {
        note(a, "the scripts are not alike: nothing is written", NULL);
    }
    free_comparison(&c, a->count);
    return status;
}

/* Puts the scripts into groups, and says what they are. */
static int compare(const struct arguments *a, const struct script *scripts, size_t frame_size) {
    struct comparison c = {.arguments = a, .frame_size = frame_size};
    int status = find_groups(&c, scripts, a->count);
    if (status == DONE && is_json()) {
        status = put_scripts(&c);
    } else if (status == DONE) {
        print_groups(&c);
        status = finish_stdout();
        if (status == DONE) {
            say_departures(&c);
        }
    }
    if (status == DONE) {
        status = status_of(&c);
    }
    free_comparison(&c, a->count);
    return status;
}

/* profile alike */
int run_alike(const struct arguments *a) {
    unsigned long long frame_size = 0;
    if (a->frames != NULL && (!read_number(a->frames, 1024, &frame_size) || frame_size < 16)) {
        return usage_error(a->command, "a frame has 16 to 1024 bytes, not ", a->frames);
    }
    struct script *scripts = calloc(a->count, sizeof *scripts);
    if (scripts == NULL) {
        return file_error("memory");
    }
    int status = compile_scripts(a, scripts);
    if (status != FAILED) {
        int compared = compare(a, scripts, (size_t)frame_size);
        status = compared > status ? compared : status;
    }
    free_scripts(scripts, a->count);
    return status;
}

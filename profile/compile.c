/*
 * compile and names: scripts as text or trees, each compiled in a session of its own, or all in one.
 */
#include <stdio.h>
#include <stdlib.h>
#include <string.h>

#include "script.h"

enum { TREE_TAG = 0x10 };

static uint8_t input[TEXT_ROOM > TREE_ROOM ? TEXT_ROOM : TREE_ROOM];
static uint8_t tree[TREE_ROOM]; /* of the script that is compiled */
static size_t tree_length;
static uint8_t session[MONKEY_SESSION_SIZE];
static uint8_t first_session[MONKEY_SESSION_SIZE];
static uint8_t output[MONKEY_IMAGE_LIMIT];
static uint8_t code[MONKEY_CODE_SIZE];
static uint32_t table[MONKEY_TABLE_SIZE];
static struct monkey_name names[MONKEY_NAMES_LIMIT];

/* A copy of bytes; null where there is no memory. */
static uint8_t *copy_of(const uint8_t *bytes, size_t length) {
    uint8_t *copy = malloc(length + 1);
    if (copy != NULL) {
        memcpy(copy, bytes, length);
    }
    return copy;
}

/* Reads the file of a script. */
static int read_script(const struct arguments *a, const char *path, struct script *script) {
    size_t length;
    int status = read_input(path, input, a->tree ? TREE_ROOM : TEXT_ROOM, &length);
    if (status != DONE) {
        return status;
    }
    script->path = path;
    script->length = length;
    script->bytes = copy_of(input, length);
    return script->bytes == NULL ? file_error(path) : DONE;
}

/* A message about a script in text form, with nothing said yet. */
static struct message message_of(const struct script *script) {
    struct message m = {script->path, script->bytes, script->length, 0, "", NULL, 0};
    return m;
}

/* Makes the tree of a script that was read: its own bytes, or those that its text stands for. */
static int make_tree(const struct arguments *a, const struct script *script) {
    if (a->tree) {
        memcpy(tree, script->bytes, script->length);
        tree_length = script->length;
        return DONE;
    }
    uint64_t answer = monkey_read_text(script->bytes, script->length, tree, sizeof tree);
    if (monkey_number(answer) != 0) {
        struct message m = message_of(script);
        find_reason(&m, answer);
        return say_message(&m, monkey_number(answer));
    }
    tree_length = monkey_value(answer);
    return DONE;
}

/* Says why the script was refused. */
static int refuse_script(const struct arguments *a, const struct script *script, uint64_t answer) {
    char reason[256];
    if (monkey_number(answer) == MONKEY_NO_SESSION) {
        return refuse_plainly(a->session == NULL ? "session" : a->session, answer);
    }
    if (!a->tree) {
        struct message m = message_of(script);
        find_tree_reason(&m, answer, session, tree, tree_length);
        return say_message(&m, monkey_number(answer));
    }
    if (monkey_number(answer) == MONKEY_BAD_TREE) {
        return refuse_for(script->path, answer, word_of(MONKEY_BAD_TREE), mistaken(script->bytes, script->length, TREE_TAG), "tree");
    }
    if (monkey_number(answer) != MONKEY_UNDEFINED) {
        return refuse_at_offset(script->path, answer, "tree");
    }
    explain_undefined(reason, sizeof reason, session, tree, monkey_value(answer));
    return refuse_for(script->path, answer, reason, "", "tree");
}

/* Whether the scripts of a command share one session. */
static int is_together(const struct arguments *a) {
    return a->together || a->session != NULL;
}

/* Compiles a script, in a session as the first one was or in the one that those before it left, and keeps its image. */
static int compile_script(const struct arguments *a, struct script *script) {
    int status = make_tree(a, script);
    if (status != DONE) {
        return status;
    }
    if (!is_together(a)) {
        memcpy(session, first_session, sizeof session);
    }
    uint64_t answer = monkey_compile(session, sizeof session, tree, tree_length, output, sizeof output,
                                     code, sizeof code, table, MONKEY_TABLE_SIZE);
    if (monkey_number(answer) != 0) {
        return refuse_script(a, script, answer);
    }
    script->image_length = monkey_value(answer);
    script->image = copy_of(output, script->image_length);
    return script->image == NULL ? file_error(script->path) : DONE;
}

/* The file name of a script's image: its own, with `.image` for what is behind the last point. */
static char *image_name(const char *path) {
    const char *slash = strrchr(path, '/');
    const char *base = strcmp(path, "-") == 0 ? "stdin" : slash == NULL ? path : slash + 1;
    const char *point = strrchr(base, '.');
    size_t length = point == NULL || point == base ? strlen(base) : (size_t)(point - base);
    char *name = malloc(length + sizeof ".image");
    if (name != NULL) {
        memcpy(name, base, length);
        strcpy(name + length, ".image");
    }
    return name;
}

/* Names the images of a directory; no two may have the same name. */
static int name_images(const struct arguments *a, struct script *scripts) {
    for (size_t k = 0; k < a->count; k++) {
        scripts[k].name = image_name(a->operands[k]);
        if (scripts[k].name == NULL) {
            return file_error(a->operands[k]);
        }
        for (size_t j = 0; j < k; j++) {
            if (strcmp(scripts[j].name, scripts[k].name) == 0) {
                return usage_error(a->command, "two scripts would be written to ", scripts[k].name);
            }
        }
    }
    return DONE;
}

/* Whether the images go into a directory: of several scripts they must, and one that is not there is made. */
static int choose_output(const struct arguments *a, struct script *scripts) {
    if (a->output != NULL && is_directory(a->output)) {
        return name_images(a, scripts);
    }
    if (a->count == 1) {
        return DONE;
    }
    if (a->output == NULL || strcmp(a->output, "-") == 0) {
        return usage_error(a->command, "several scripts need a directory: name one with -o", "");
    }
    if (is_there(a->output)) {
        return usage_error(a->command, "several scripts need a directory, and this is none: ", a->output);
    }
    return name_images(a, scripts);
}

/* Frees paths. */
static void free_paths(char **paths, size_t count) {
    for (size_t k = 0; paths != NULL && k < count; k++) {
        free(paths[k]);
    }
    free(paths);
}

/* Refuses to write over a script, or two things to one file: the images, their directory, the session, its lock. */
static int check_written(const struct arguments *a, const struct script *scripts) {
    size_t count = 0;
    char **written = calloc(a->count + 3, sizeof *written);
    if (written == NULL) {
        return file_error("memory");
    }
    if (a->output != NULL) {
        written[count++] = path_with(a->output, "");
    } else {
        count++; /* null: standard output */
    }
    for (size_t k = 0; k < a->count && scripts[k].name != NULL; k++) {
        written[count++] = path_within(a->output, scripts[k].name);
    }
    if (a->session != NULL) {
        written[count++] = path_with(a->session, "");
        written[count++] = lock_of(a->session);
    }
    int status = check_places(a->command, written, count, a->operands, a->count);
    free_paths(written, count);
    return status;
}

/* Has the images written beside their targets, or in a new directory. */
static int prepare_images(const struct arguments *a, const struct script *scripts) {
    if (scripts[0].name == NULL) {
        return is_stream(a->output) ? refuse_terminal(a->output) : prepare_file(a->output, scripts[0].image, scripts[0].image_length, 0);
    }
    int status = is_there(a->output) ? DONE : prepare_directory(a->output);
    for (size_t k = 0; k < a->count && status == DONE; k++) {
        status = prepare_within(a->output, scripts[k].name, scripts[k].image, scripts[k].image_length);
    }
    return status;
}

/* Writes the images and the session: all beside their targets, then an image to a stream, then all are renamed, the session last. */
static int write_results(const struct arguments *a, const struct script *scripts) {
    int status = begin_files(a->count + 2, a->session != NULL);
    if (status == DONE) {
        status = prepare_images(a, scripts);
    }
    if (status == DONE && a->session != NULL) {
        status = prepare_file(a->session, session, sizeof session, 1);
    }
    if (status == DONE && scripts[0].name == NULL && is_stream(a->output)) {
        status = write_through(a->output, scripts[0].image, scripts[0].image_length);
    }
    if (status == DONE) {
        status = commit_files();
    }
    drop_files();
    return status;
}

/* Says, of several scripts in one session, that their images depend on each other. */
static void warn_together(const struct arguments *a) {
    if (is_together(a) && a->count > 1) {
        note(a, "several scripts in one session: length and contents of each image depend on the scripts before it", NULL);
    }
}

/* The worse of two statuses. */
static int worse(int one, int other) {
    return one > other ? one : other;
}

/*
 * Compiles each script that was read, and answers the worst status. In one session, of those behind a refused one only trees are made: what it
 * would have defined is not known to them.
 */
static int compile_each(const struct arguments *a, struct script *scripts, int status) {
    for (size_t k = 0; k < a->count; k++) {
        if (scripts[k].bytes == NULL) {
            continue;
        }
        int one = is_together(a) && status != DONE ? make_tree(a, &scripts[k]) : compile_script(a, &scripts[k]);
        scripts[k].failed = one != DONE;
        status = worse(status, one);
    }
    return status;
}

/* How many of the scripts were refused or not read. */
static size_t count_failed(const struct arguments *a, const struct script *scripts) {
    size_t failed = 0;
    for (size_t k = 0; k < a->count; k++) {
        failed += (size_t)scripts[k].failed;
    }
    return failed;
}

/* Reads all scripts, then has the session and compiles them; the worst status. */
int compile_scripts(const struct arguments *a, struct script *scripts) {
    int status = DONE;
    for (size_t k = 0; k < a->count; k++) {
        int one = read_script(a, a->operands[k], &scripts[k]);
        scripts[k].failed = one != DONE;
        status = worse(status, one);
    }
    if (count_failed(a, scripts) == a->count) {
        return status;
    }
    int opened = open_session(a, session, 1);
    if (opened != DONE) {
        return worse(status, opened);
    }
    memcpy(first_session, session, sizeof session);
    status = compile_each(a, scripts, status);
    note_failed(a, count_failed(a, scripts));
    return status;
}

/* Compiles all scripts, and only then writes, if none was refused and they are alike where that is asked. */
static int compile_all(const struct arguments *a, struct script *scripts) {
    if (a->alike && is_together(a)) {
        return usage_error(a->command, "--alike is for scripts that are compiled each in a session of its own", "");
    }
    int status = a->session != NULL && find_session(a->session) < 0 ? FAILED : choose_output(a, scripts);
    if (status == DONE) {
        status = check_written(a, scripts);
    }
    if (status == DONE) {
        status = compile_scripts(a, scripts);
    }
    if (status == DONE && a->alike) {
        status = judge_alike(a, scripts);
    }
    return status == DONE ? write_results(a, scripts) : status;
}

/* Frees scripts, and what is known of them. */
void free_scripts(struct script *scripts, size_t count) {
    for (size_t k = 0; k < count; k++) {
        free(scripts[k].bytes);
        free(scripts[k].image);
        free(scripts[k].name);
    }
    free(scripts);
}

/* profile compile */
int run_compile(const struct arguments *a) {
    struct script *scripts = calloc(a->count, sizeof *scripts);
    if (scripts == NULL) {
        return file_error("memory");
    }
    int status = compile_all(a, scripts);
    release_lock();
    free_scripts(scripts, a->count);
    if (status == DONE) {
        warn_together(a);
    }
    return status;
}

/* Prints how each name of a script that was read was resolved. */
static int print_names(const struct arguments *a, const struct script *script) {
    int status = make_tree(a, script);
    if (status != DONE) {
        return status;
    }
    uint64_t answer = monkey_compile_names(session, sizeof session, tree, tree_length, output, sizeof output,
                                           code, sizeof code, table, MONKEY_TABLE_SIZE, &names[0].offset, 4 * MONKEY_NAMES_LIMIT);
    if (monkey_number(answer) != 0) {
        return refuse_script(a, script, answer);
    }
    struct walk w = begin_walk(tree, tree_length, script->bytes, script->length);
    print_records(a, script->path, &w, names, monkey_names_count(answer));
    return finish_stdout();
}

/* profile names */
int run_names(const struct arguments *a) {
    struct script script = {0};
    int status = open_session(a, session, 0);
    if (status == DONE) {
        status = read_script(a, a->operands[0], &script);
    }
    if (status == DONE) {
        status = print_names(a, &script);
    }
    free(script.bytes);
    return status;
}

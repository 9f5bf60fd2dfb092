/*
 * profile: the profile compiler as a command, over the functions of include/monkey.h. What the parts of the program share.
 */
#ifndef PROFILE_H
#define PROFILE_H

#include <stddef.h>
#include <stdint.h>
#include <stdio.h>
#include <sys/types.h>

#include "monkey.h"

/* Exit statuses. */
enum { DONE = 0, REFUSED = 1, FAILED = 2, BUSY = 3 };

/*
 * The bytes that are read of a file: one past the longest tree or image, and far past the longest text (8,192). What is behind them cannot change the answer: such a
 * file is refused, whatever it goes on with, and its place is before them.
 */
enum { TREE_ROOM = MONKEY_TREE_LIMIT + 1, IMAGE_ROOM = MONKEY_IMAGE_LIMIT + 1, TEXT_ROOM = 65536, TEXT_LIMIT = 8192 };

/* The options and operands of a subcommand. */
struct arguments {
    const char *command;
    const char *output;   /* --output, or null */
    const char *session;  /* --session, or null */
    const char *words;    /* --words, or null */
    const char *frames;   /* --frames, or null */
    const char *script;   /* --script, or null */
    int tree;             /* --tree */
    int together;         /* --together */
    int alike;            /* --alike */
    int quiet;            /* --quiet: errors alone on standard error */
    int json;             /* --json */
    int no_wait;          /* --no-wait */
    char **operands;
    size_t count;
};

/* files.c: those that answer no more than whether they could leave the error to be said */
int hold_descriptors(void);
int read_descriptor(const char *path, int descriptor, uint8_t *buffer, size_t room, size_t *length);
int read_input(const char *path, uint8_t *buffer, size_t room, size_t *length);
int write_all(int descriptor, const uint8_t *bytes, size_t length);
mode_t permitted(mode_t asked);
int take_after(int descriptor, const char *path, mode_t fresh);
int is_stream(const char *path);
int write_through(const char *path, const uint8_t *bytes, size_t length);
int write_output(const char *path, const uint8_t *bytes, size_t length);
int write_binary(const char *path, const uint8_t *bytes, size_t length);
int refuse_terminal(const char *path);
int finish_stdout(void);

/* writing.c: files are begun, prepared, committed, and dropped in any case; each says what failed, and answers DONE or FAILED */
int begin_files(size_t most, int to_disk);
int prepare_directory(const char *path);
int prepare_file(const char *path, const uint8_t *bytes, size_t length, int is_session);
int prepare_within(const char *directory, const char *name, const uint8_t *bytes, size_t length);
int commit_files(void);
void drop_files(void);
void remove_temporaries(void);

/* signals.c */
void catch_signals(void);
void hold_signals(void);
void release_signals(void);

/* paths.c: a path in memory of its own is null where there is no memory */
int is_directory(const char *path);
int is_there(const char *path);
char *directory_of(const char *path);
char *path_with(const char *path, const char *end);
char *path_within(const char *directory, const char *name);
char *follow_links(const char *path);
char *directory_target(const char *path);
int descriptor_of(const char *path);
int is_standard_input(const char *path);
int check_places(const char *command, char *const *written, size_t writes, char *const *inputs, size_t reads);

/* report.c */
int usage_error(const char *command, const char *what, const char *word);
int unknown_error(const char *command, const char *what, const char *word, const char *nearest);
void note(const struct arguments *a, const char *what, const char *path);
void note_failed(const struct arguments *a, size_t failed);
int file_error(const char *path);
int refuse_for(const char *path, uint64_t answer, const char *why, const char *more, const char *of);
int refuse_at_offset(const char *path, uint64_t answer, const char *of);
int refuse_plainly(const char *path, uint64_t answer);
int refuse_chunk(const char *path, uint64_t answer, const char *why);
int refuse_stack(const char *path, uint64_t answer, const char *why, const char *names);
int refuse_names(const char *path, const char *names);

/* An error at a place of a text; a note on another place, or null. */
struct message {
    const char *path;
    const uint8_t *text;
    size_t length, place;
    char reason[400];
    const char *note;
    size_t noted;
};

/* The offset of an error that has none. */
enum { NO_OFFSET = -1 };

/* source.c */
int say_error(const char *path, long long offset, unsigned number, const char *reason);
int say_message(const struct message *m, unsigned number);
void say_place(const struct message *m, const char *head, const char *reason);
void position_of(const uint8_t *text, size_t length, size_t place, unsigned *line, unsigned *column);

/* json.c */
void want_json(int json);
int is_json(void);
void begin_object(FILE *stream, const char *path);
void end_object(void);
void begin_list(const char *key);
void end_list(void);
void begin_item(void);
void end_item(void);
void begin_part(const char *key);
void put_place(const struct message *m, size_t place, const char *reason);
void put_text(const char *key, const uint8_t *bytes, size_t length);
void put_word(const char *key, const char *word);
void put_number(const char *key, long long number);
void put_literal(const char *key, const char *literal);
int print_refusal(const char *path, long long offset, unsigned number, const char *reason);
int print_message(const struct message *m, unsigned number);

/* numbers.c */
const char *word_of(unsigned number);

/* reasons.c: why a text is refused by its number and place, and where, in words */
void find_reason(struct message *m, uint64_t answer);
size_t find_ends(const uint8_t *text, size_t length, size_t *ends);

/* callee.c */
size_t call_place(const uint8_t *text, size_t length, size_t mark);

/* kinds.c */
const char *mistaken(const uint8_t *bytes, size_t length, uint8_t tag);

/* undefined.c */
void find_tree_reason(struct message *m, uint64_t answer, const uint8_t *session, const uint8_t *tree, size_t tree_length);
void explain_undefined(char *reason, size_t room, const uint8_t *session, const uint8_t *tree, size_t offset);

/* shown.c */
size_t character(const uint8_t *at, size_t left);
const char *shown(const char *text);
const char *shown_path(const char *path);

/* A word, and the nearest to it of those that were considered, or null. */
struct nearest {
    const char *word;
    size_t length;
    const char *best;
    size_t distance;
};

/* nearest.c */
struct nearest nearest_to(const char *word);
void consider(struct nearest *n, const char *candidate);

/* A token of a text: where it begins and ends, and its kind. */
struct token {
    size_t at, end;
    uint32_t kind;
};

/* A walk over a tree and the tokens of its text: the field that is next, whether it is a function's own name, and the text's next mark. */
struct walk {
    const uint8_t *tree, *text;
    size_t tree_length, text_length;
    size_t at;
    int own_name;
    struct token mark;
};

/* places.c */
int has_fields(uint8_t tag);
int is_mark(uint8_t tag);
int is_digit(uint8_t b);
struct token next_token(const uint8_t *text, size_t length, size_t at);
struct walk begin_walk(const uint8_t *tree, size_t tree_length, const uint8_t *text, size_t text_length);
size_t place_in_text(struct walk *w, size_t offset);

/* names.c */
void print_records(const struct arguments *a, const char *path, struct walk *w, struct monkey_name *names, size_t count);

/* images.c: the image that was read last */
int read_number(const char *word, unsigned long long limit, unsigned long long *number);
int read_image(const char *path, const uint8_t **bytes, size_t *length);
int refuse_image(const char *path, uint64_t answer);

/* check.c */
int report_check(const char *path, const uint8_t *image, size_t length, uint64_t stack);
void explain_chunk(char *text, size_t room, const uint8_t *image, size_t length, size_t number);
void describe_constant(char *text, size_t room, const uint8_t *image, size_t length, unsigned index);

/* trial.c */
void explain_trial(char *reason, size_t room, uint64_t answer, const uint8_t *image, size_t length, const uint8_t *session);

/* lines.c */
int read_lines(const struct arguments *a, const uint8_t *image, size_t image_length, const uint8_t *session);
void find_line(struct message *m, size_t offset, const uint8_t *session);

/* session.c */
int find_session(const char *path);
int read_session(const char *path, uint8_t *session);
int open_session(const struct arguments *a, uint8_t *session, int replaced);
const uint8_t *global_name(const uint8_t *session, size_t index, size_t *length);

/* lock.c */
char *lock_of(const char *session);
int take_lock(const struct arguments *a);
void remove_lock(void);
void release_lock(void);

/* help.c */
int print_help(const char *command);
int print_version(void);

/* The subcommands: each answers an exit status. */
int run_compile(const struct arguments *a);
int run_alike(const struct arguments *a);
int run_names(const struct arguments *a);
int run_list(const struct arguments *a);
int run_check(const struct arguments *a);
int run_depth(const struct arguments *a);
int run_run(const struct arguments *a);
int run_frames(const struct arguments *a);
int run_chin(const struct arguments *a);
int run_unchin(const struct arguments *a);
int run_load(const struct arguments *a);
int run_explain(const struct arguments *a);

#endif

/*
 * profile: the command line. Options may stand anywhere behind the subcommand; behind -- there are operands alone.
 */
#include <stdio.h>
#include <string.h>

#include "profile.h"

/* What a subcommand takes. */
struct command {
    const char *name;
    int (*run)(const struct arguments *);
    size_t least, most;  /* operands */
    const char *options; /* letters of its options; q and h are of all */
};

static int run_help(const struct arguments *a);

static const struct command commands[] = {
    {"compile", run_compile, 1, (size_t)-1, "oswtgjna"},
    {"alike", run_alike, 1, (size_t)-1, "wtfj"},
    {"names", run_names, 1, 1, "swtj"},
    {"list", run_list, 1, (size_t)-1, "oj"},
    {"check", run_check, 1, (size_t)-1, "j"},
    {"depth", run_depth, 1, (size_t)-1, "j"},
    {"run", run_run, 1, 1, "swcj"},
    {"frames", run_frames, 2, 2, "oj"},
    {"chin", run_chin, 1, 1, "oj"},
    {"unchin", run_unchin, 1, 1, "oj"},
    {"load", run_load, 1, 1, "oj"},
    {"explain", run_explain, 0, 1, ""},
    {"help", run_help, 0, 1, ""},
};

/* An option: its letter, one of its names, and whether it has a value. */
struct option {
    char letter;
    const char *name;
    int valued;
};

static const struct option options[] = {
    {'o', "-o", 1},
    {'o', "--output", 1},
    {'s', "--session", 1},
    {'w', "--words", 1},
    {'t', "--tree", 0},
    {'g', "--together", 0},
    {'a', "--alike", 0},
    {'f', "--frames", 1},
    {'j', "--json", 0},
    {'n', "--no-wait", 0},
    {'c', "--script", 1},
    {'q', "-q", 0},
    {'q', "--quiet", 0},
    {'h', "--help", 0},
};

enum { COMMANDS = sizeof commands / sizeof commands[0], OPTIONS = sizeof options / sizeof options[0] };

/* The subcommand of a name, or null. */
static const struct command *find_command(const char *name) {
    for (size_t k = 0; k < COMMANDS; k++) {
        if (strcmp(commands[k].name, name) == 0) {
            return &commands[k];
        }
    }
    return NULL;
}

/* Says that there is no subcommand of a name, or no option in its place. */
static int no_command(const char *name) {
    struct nearest n = nearest_to(name);
    for (size_t k = 0; k < COMMANDS; k++) {
        consider(&n, commands[k].name);
    }
    consider(&n, "--help");
    consider(&n, "--version");
    return unknown_error(NULL, name[0] == '-' ? "no option " : "no subcommand ", name, n.best);
}

/* Whether a subcommand takes an option. */
static int takes(const struct command *c, const struct option *o) {
    return strchr("qh", o->letter) != NULL || strchr(c->options, o->letter) != NULL;
}

/* The option of a word, if the subcommand takes it, or null; a value in the same word, -oFILE or --session=FILE, is found. */
static const struct option *find_option(const struct command *c, const char *word, const char **value) {
    for (size_t k = 0; k < OPTIONS; k++) {
        const struct option *o = &options[k];
        size_t end = strlen(o->name);
        if (strncmp(word, o->name, end) != 0 || !takes(c, o)) {
            continue;
        }
        if (word[end] == 0) {
            return o;
        }
        if (o->valued && (end == 2 || word[end] == '=')) {
            *value = word + end + (end != 2);
            return o;
        }
    }
    return NULL;
}

/* Says that a subcommand takes no option of a name. */
static int no_option(const struct command *c, const char *word) {
    struct nearest n = nearest_to(word);
    for (size_t k = 0; k < OPTIONS; k++) {
        if (takes(c, &options[k])) {
            consider(&n, options[k].name);
        }
    }
    return unknown_error(c->name, "no option ", word, n.best);
}

/* Sets an option without a value. */
static void set_flag(struct arguments *a, char letter) {
    switch (letter) {
    case 't':
        a->tree = 1;
        break;
    case 'g':
        a->together = 1;
        break;
    case 'j':
        a->json = 1;
        break;
    case 'n':
        a->no_wait = 1;
        break;
    case 'a':
        a->alike = 1;
        break;
    default:
        a->quiet = 1;
    }
}

/* Where the value of an option goes. */
static const char **value_place(struct arguments *a, char letter) {
    switch (letter) {
    case 'o':
        return &a->output;
    case 's':
        return &a->session;
    case 'c':
        return &a->script;
    case 'f':
        return &a->frames;
    default:
        return &a->words;
    }
}

/* Takes the option at an index, and moves the index to its last word. */
static int take_option(const struct command *c, struct arguments *a, char **words, int count, int *k) {
    const char *word = words[*k];
    const char *value = NULL;
    const struct option *o = find_option(c, word, &value);
    if (o == NULL) {
        return no_option(c, word);
    }
    if (!o->valued) {
        set_flag(a, o->letter);
        return DONE;
    }
    const char **place = value_place(a, o->letter);
    if (*place != NULL) {
        return usage_error(c->name, "given twice: ", word);
    }
    if (value == NULL && *k + 1 == count) {
        return usage_error(c->name, "no value behind ", word);
    }
    *place = value != NULL ? value : words[++*k];
    return **place == 0 && o->letter != 'w' && o->letter != 'f' ? usage_error(c->name, "an empty file name behind ", word) : DONE;
}

/* Judges how many operands there are, and what each is. */
static int check_operands(const struct command *c, const struct arguments *a) {
    int standard = a->script != NULL && is_standard_input(a->script);
    if (a->count < c->least || a->count > c->most) {
        return usage_error(c->name, a->count < c->least ? "too few operands" : "too many operands", "");
    }
    for (size_t k = 0; k < a->count; k++) {
        if (a->operands[k][0] == 0) {
            return usage_error(c->name, "an empty operand", "");
        }
        standard += is_standard_input(a->operands[k]);
    }
    return standard > 1 ? usage_error(c->name, "standard input can be read once", "") : DONE;
}

/* Sorts words into options and operands; the operands are moved to the front. */
static int take_words(const struct command *c, struct arguments *a, char **words, int count) {
    int only_operands = 0;
    for (int k = 0; k < count; k++) {
        if (!only_operands && strcmp(words[k], "--") == 0) {
            only_operands = 1;
        } else if (only_operands || words[k][0] != '-' || words[k][1] == 0) {
            words[a->count++] = words[k];
        } else if (take_option(c, a, words, count, &k) != DONE) {
            return FAILED;
        }
    }
    return check_operands(c, a);
}

/* Whether help is asked for among the words before --. */
static int asks_help(char **words, int count) {
    for (int k = 0; k < count && strcmp(words[k], "--") != 0; k++) {
        if (strcmp(words[k], "--help") == 0 || strcmp(words[k], "-h") == 0) {
            return 1;
        }
    }
    return 0;
}

/* profile help */
static int run_help(const struct arguments *a) {
    if (a->count == 0) {
        return print_help(NULL);
    }
    return find_command(a->operands[0]) == NULL ? no_command(a->operands[0]) : print_help(a->operands[0]);
}

/* Runs the subcommand that is named first. */
int main(int count, char **words) {
    if (hold_descriptors() != DONE) {
        return FAILED;
    }
    if (count < 2) {
        return usage_error(NULL, "no subcommand", "");
    }
    if (strcmp(words[1], "--version") == 0 || strcmp(words[1], "-V") == 0) {
        return count > 2 ? usage_error(NULL, "too many operands", "") : print_version();
    }
    const struct command *c = find_command(asks_help(words + 1, 1) ? "help" : words[1]);
    if (c == NULL) {
        return no_command(words[1]);
    }
    if (asks_help(words + 2, count - 2)) {
        return print_help(c->name);
    }
    struct arguments a = {.command = c->name, .operands = words + 2};
    int status = take_words(c, &a, words + 2, count - 2);
    want_json(a.json);
    return status == DONE ? c->run(&a) : status;
}

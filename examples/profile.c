/*
 * Compiles profiles in one session, checks and lists their images in one call, measures one's stack, sends it in frames and in the chin form, and shows refusals: two profiles, damaged
 * ones and the tree of a seed of its own, a session with a chin unit's words, then scripts as text; or the trees in the files that it is given. examples/run compares what it prints.
 */
#include <stdio.h>
#include <string.h>

#include "monkey.h"

/* let top = 40; */
static const uint8_t top[] = {
    0x10, 0, 20,                                 /* Program */
      0x13, 0, 17,                               /*   Let */
        0x30, 0, 3, 't', 'o', 'p',               /*     name */
        0x26, 0, 8, 0, 0, 0, 0, 0, 0, 0, 40,     /*     Integer */
};

/* let limit = fn(speed) { if (speed > top) { top } else { speed } }; limit(55); */
static const uint8_t limit[] = {
    0x10, 0, 114,                                /* Program */
      0x13, 0, 86,                               /*   Let */
        0x30, 0, 5, 'l', 'i', 'm', 'i', 't',     /*     name */
        0x24, 0, 75,                             /*     Function */
          0x30, 0, 5, 'l', 'i', 'm', 'i', 't',   /*       name */
          0x31, 0, 8,                            /*       parameters */
            0x30, 0, 5, 's', 'p', 'e', 'e', 'd', /*         name */
          0x12, 0, 53,                           /*       Block */
            0x11, 0, 50,                         /*         ExprStmt */
              0x23, 0, 47,                       /*           If */
                0x22, 0, 18,                     /*             Infix */
                  0x20, 0, 5, 's', 'p', 'e', 'e', 'd',
                  0x32, 0, 1, 9,                 /*               operator > */
                  0x20, 0, 3, 't', 'o', 'p',
                0x12, 0, 9,                      /*             Block */
                  0x11, 0, 6, 0x20, 0, 3, 't', 'o', 'p',
                0x12, 0, 11,                     /*             Block */
                  0x11, 0, 8, 0x20, 0, 5, 's', 'p', 'e', 'e', 'd',
      0x11, 0, 22,                               /*   ExprStmt */
        0x25, 0, 19,                             /*     Call */
          0x20, 0, 5, 'l', 'i', 'm', 'i', 't',   /*       Identifier */
          0x26, 0, 8, 0, 0, 0, 0, 0, 0, 0, 55,   /*       Integer */
};

/* x, which nothing defines */
static const uint8_t unknown[] = {
    0x10, 0, 7,              /* Program */
      0x11, 0, 4,            /*   ExprStmt */
        0x20, 0, 1, 'x',     /*     Identifier */
};

/* if (true) { }: the branch yields no value */
static const uint8_t empty_branch[] = {
    0x10, 0, 13,             /* Program */
      0x11, 0, 10,           /*   ExprStmt */
        0x23, 0, 7,          /*     If */
          0x27, 0, 1, 1,     /*       Boolean */
          0x12, 0, 0,        /*       Block */
};

/* the words of a chin unit, and one of them again */
static const uint8_t words[] = {
    0x30, 0, 3, 's', 'i', 'p',
    0x30, 0, 4, 'p', 'u', 'f', 'f',
    0x30, 0, 3, 's', 'i', 'p',
};

/* puff */
static const uint8_t puff[] = {
    0x10, 0, 10,                         /* Program */
      0x11, 0, 7,                        /*   ExprStmt */
        0x20, 0, 4, 'p', 'u', 'f', 'f',  /*     Identifier */
};

/* let puff = 1; puff; */
static const uint8_t own_puff[] = {
    0x10, 0, 31,                             /* Program */
      0x13, 0, 18,                           /*   Let */
        0x30, 0, 4, 'p', 'u', 'f', 'f',      /*     name */
        0x26, 0, 8, 0, 0, 0, 0, 0, 0, 0, 1,  /*     Integer */
      0x11, 0, 7,                            /*   ExprStmt */
        0x20, 0, 4, 'p', 'u', 'f', 'f',      /*     Identifier */
};

static uint8_t session[MONKEY_SESSION_SIZE];
static uint8_t output[MONKEY_IMAGE_LIMIT];
static uint8_t code[MONKEY_CODE_SIZE];
static uint32_t table[MONKEY_TABLE_SIZE];
static uint8_t text[65536];

/* Prints an answer: a length, or a refusal with its place. */
static void print_answer(const char *what, uint64_t answer) {
    if (monkey_number(answer) == 0) {
        printf("%s: %u\n", what, (unsigned)monkey_value(answer));
    } else {
        printf("%s: refused %u at %u\n", what, (unsigned)monkey_number(answer), (unsigned)monkey_value(answer));
    }
}

/* Checks and lists an image. */
static void list(const uint8_t *image, size_t length) {
    uint64_t answer = monkey_list_image(image, length, text, sizeof text);
    print_answer("listing", answer);
    if (monkey_number(answer) == 0) {
        fwrite(text, 1, monkey_value(answer), stdout);
    }
}

static uint64_t compile(const uint8_t *tree, size_t length) {
    return monkey_compile(session, sizeof session, tree, length, output, sizeof output, code, sizeof code, table, MONKEY_TABLE_SIZE);
}

/* Compiles a tree, and checks and lists its image. */
static void show(const char *what, const uint8_t *tree, size_t length) {
    uint64_t answer = compile(tree, length);
    print_answer(what, answer);
    if (monkey_number(answer) == 0) {
        list(output, monkey_value(answer));
    }
}

/* Checks an image alone: an empty output, into which no listing fits. */
static void check(const uint8_t *image, size_t length) {
    print_answer("check", monkey_list_image(image, length, text, 0));
    printf("sound: %s\n", monkey_image_is_sound(image, length) ? "yes" : "no");
}

/* Stands in for the radio. */
static void transmit(const uint8_t *frame, size_t length) {
    printf("frame of %u: %02x .. %02x\n", (unsigned)length, frame[0], frame[length - 1]);
}

/* Sends an image in frames of one size. One count is enough: the frames follow from it, and the image is checked once. */
static void send(const uint8_t *image, size_t length, size_t size) {
    uint64_t answer = monkey_count_frames(image, length, size);
    if (monkey_number(answer) != 0) {
        print_answer("frames", answer);
        return;
    }
    size_t whole = monkey_whole(answer), rest = monkey_rest(answer);
    printf("frames: %u, rest %u\n", (unsigned)whole, (unsigned)rest);
    for (size_t k = 0; k < whole; k++) {
        transmit(image + k * size, size);
    }
    if (rest != 0) {
        transmit(image + whole * size, rest);
    }
}

/* One frame, as the receiver asks for it again. */
static void send_again(const uint8_t *image, size_t length, size_t size, size_t number) {
    uint64_t answer = monkey_frame(image, length, size, number);
    if (monkey_number(answer) == 0) {
        printf("again, at %u: ", (unsigned)monkey_frame_offset(answer));
        transmit(image + monkey_frame_offset(answer), monkey_frame_length(answer));
    } else {
        print_answer("again", monkey_frame_refusal(image, length, size, number));
    }
}

/* An image in the chin form, and back. */
static void turn(const uint8_t *image, size_t length) {
    static uint8_t form[MONKEY_IMAGE_LIMIT], back[MONKEY_IMAGE_LIMIT];

    uint64_t answer = monkey_to_chin(image, length, form, sizeof form);
    print_answer("chin form", answer);
    if (monkey_number(answer) == 0) {
        print_answer("and back", monkey_from_chin(form, monkey_value(answer), back, sizeof back));
        printf("as it was: %s\n", memcmp(image, back, length) == 0 ? "yes" : "no");
        print_answer("output too short", monkey_to_chin(image, length, form, length - 1));
    }
}

/* How deep the stack of each chunk gets: heights are proposed, and checked. A wrong one is refused. */
static void measure(const uint8_t *image, size_t length) {
    static uint32_t heights[MONKEY_HEIGHTS_LIMIT], depths[MONKEY_CHUNKS_LIMIT];

    uint64_t proposed = monkey_propose_heights(image, length, heights, MONKEY_HEIGHTS_LIMIT);
    print_answer("heights proposed", proposed);
    if (monkey_number(proposed) != 0) {
        return;
    }
    size_t count = monkey_value(proposed);
    uint64_t answer = monkey_check_heights(image, length, heights, count, depths, MONKEY_CHUNKS_LIMIT);
    print_answer("chunks that pass", answer);
    for (size_t k = 0; monkey_number(answer) == 0 && k < monkey_value(answer); k++) {
        printf("depth %u\n", (unsigned)depths[k]);
    }
    print_answer("one height too few", monkey_check_heights(image, length, heights, count - 1, depths, MONKEY_CHUNKS_LIMIT));
    print_answer("output too short", monkey_check_heights(image, length, heights, count, depths, 1));
    heights[0] += 1;
    print_answer("a wrong height", monkey_check_heights(image, length, heights, count, depths, MONKEY_CHUNKS_LIMIT));
}

/* The tree of a seed, and an output that is one byte too short for it. */
static void show_seed(uint32_t seed) {
    static uint8_t tree[MONKEY_LOAD_LIMIT];
    uint64_t answer = monkey_load_tree(seed, tree, sizeof tree);
    print_answer("tree of a seed", answer);
    print_answer("output too short", monkey_load_tree(seed, tree, monkey_value(answer) - 1));
    show("its image", tree, monkey_value(answer));
}

/* A session with words of its own: a word, the name that hides it, and what is refused. */
static void show_words(void) {
    print_answer("repeated word", monkey_make_session_words(session, sizeof session, words, sizeof words));
    print_answer("session with words", monkey_make_session_words(session, sizeof session, words, sizeof words - 6));
    show("puff", puff, sizeof puff);
    show("unknown", unknown, sizeof unknown);
    show("own puff", own_puff, sizeof own_puff);
}

/* Reads a script and compiles its tree; a refusal has a line and a column, both counted from 1. */
static void show_script(const char *script) {
    static uint8_t tree[MONKEY_TREE_LIMIT];
    uint64_t answer = monkey_read_text((const uint8_t *)script, strlen(script), tree, sizeof tree);
    print_answer("script", answer);
    if (monkey_number(answer) == 0) {
        show("its image", tree, monkey_value(answer));
    } else {
        unsigned line = 1, column = 1;
        for (size_t i = 0; i < monkey_value(answer); i++) {
            column = script[i] == '\n' ? 1 : column + 1;
            line += script[i] == '\n';
        }
        printf("line %u, column %u\n", line, column);
    }
}

/* Scripts as text: one that is compiled, and two that are refused. */
static void show_scripts(void) {
    print_answer("session", monkey_make_session(session, sizeof session));
    show_script("let deadband = 12;\nlet drive = fn(stick) { if (stick > deadband) { stick - deadband } else { 0 } };\ndrive(40)\n");
    show_script("let deadband = 12;\nlet drive = fn(stick) { stick - };\n");
    show_script("let deadband =\n  9223372036854775808;\n");
}

/* The profiles of this file, and what is refused. */
static void show_own(void) {
    static uint8_t before[MONKEY_SESSION_SIZE];

    printf("session begins with %02x\n", session[0]);
    show("top", top, sizeof top);
    printf("session begins with %02x\n", session[0]);
    show("limit", limit, sizeof limit);
    send(output, 68, 32); /* limit's image has 68 bytes */
    send(output, 68, 15);
    send_again(output, 68, 32, 2);
    send_again(output, 68, 32, 3);
    turn(output, 68);
    measure(output, 68);

    memcpy(before, session, sizeof session);
    show("unknown", unknown, sizeof unknown);
    show("empty branch", empty_branch, sizeof empty_branch);
    show("cut", limit, sizeof limit - 1);
    printf("session as it was: %s\n", memcmp(before, session, sizeof session) == 0 ? "yes" : "no");

    print_answer("listing too long", monkey_list_image(output, 68, text, 10));
    check(output, 68);
    output[7] = 0xff; /* where limit's image has its second instruction */
    check(output, 68);
    list(output, 68);

    show_seed(619);
    show_words();
    show_scripts();
}

/* The tree in a file. One byte more than the longest tree is enough to have a longer one refused. */
static int show_file(const char *name) {
    static uint8_t tree[MONKEY_TREE_LIMIT + 1];
    FILE *file = fopen(name, "rb");
    if (file == NULL) {
        perror(name);
        return 1;
    }
    size_t length = fread(tree, 1, sizeof tree, file);
    fclose(file);
    show(name, tree, length);
    return 0;
}

int main(int argc, char **argv) {
    int failed = 0;
    print_answer("session too short", monkey_make_session(session, 100));
    print_answer("session", monkey_make_session(session, sizeof session));
    if (argc < 2) {
        show_own();
    }
    for (int i = 1; i < argc; i++) {
        failed |= show_file(argv[i]);
    }
    return failed;
}

/*
 * Whether a branch or an address of the exported calls depends on a literal: the literals' bytes of trees are marked undefined,
 * and memcheck reports each branch and each address that depends on such a byte. Which reports are expected, and why: docs/TICKET112.md.
 * tests/literals/run builds it and runs it under valgrind:
 *     literals values|booleans SEEDS FILE..    integers and strings are marked, or Booleans, in the trees of the seeds 0 to SEEDS - 1,
 *                                              of scripts (.monkey), and in the trees and images of recorded cases (.txt)
 * Each tree is compiled in a fresh session, and in one with those before it; each image goes through frames, chin form, check and heights.
 */
#include <stdio.h>
#include <stdlib.h>
#include <string.h>
#include <valgrind/memcheck.h>

#include "monkey.h"
#include "places.h"

enum { MOST = 70000, FILLED = 0xee }; /* FILLED: what stands in an output before a call */
#define PROGRAM "literals"
#include "replay.h"

/* The calls. */
enum call { COMPILE, NAMES, COUNT, FRAME, REFUSAL, CHIN, UNCHIN, CHECK, PROPOSE, HEIGHTS, SHAPE, CALLS };

static const char *const call_names[CALLS] = {"compile", "names", "count_frames", "frame", "frame_refusal", "to_chin",
                                              "from_chin", "check", "propose_heights", "check_heights", "write_shape"};

/* By call: how often it was made, and its reports. */
static size_t made[CALLS], reports[CALLS];

static char topic[200];          /* what is run */
static size_t literals[CODE + 1]; /* bytes that were marked, by kind */
static int booleans;             /* whether Booleans are marked, not integers and strings */
static int wrong;
static unsigned long before;

static uint8_t clean[MOST], marked[MOST], places[MOST], bits[4 * MOST];           /* a tree or an image, without marks and with them */
static uint8_t session[MOST], earlier[MOST];                        /* the session, and as it was before a call */
static uint8_t output[MOST], image[MOST], turned[MOST], code[MONKEY_CODE_SIZE];
static uint32_t table[MONKEY_TABLE_SIZE], heights[MONKEY_HEIGHTS_LIMIT], greatest[MONKEY_CHUNKS_LIMIT];
static struct monkey_name names[MONKEY_NAMES_LIMIT];

/* What is lent to a call. */
static size_t session_size, code_size, table_size, output_size;

/* Says what went wrong. */
static void complain(const char *what, unsigned long found, unsigned long expected) {
    if (wrong++ < 20) {
        fprintf(stderr, "literals: %s: %s: %lu, not %lu\n", topic, what, found, expected);
    }
}

/* Whether bytes of a kind are marked in this run. */
static int is_marked(uint8_t kind) {
    return kind != PLAIN && (kind == BOOLEAN || kind == CODE) == booleans;
}

/* Marks the literals' bytes, of which `marks` tells. */
static void mark(uint8_t *at, const uint8_t *marks, size_t length) {
    for (size_t k = 0, end; k < length; k = end) {
        for (end = k + 1; end < length && marks[end] == marks[k]; end++) {
        }
        if (is_marked(marks[k])) {
            literals[marks[k]] += end - k;
            VALGRIND_MAKE_MEM_UNDEFINED(at + k, end - k);
        }
    }
}

/* Copies bytes without their marks. */
static void copy_clean(uint8_t *to, const uint8_t *from, size_t length) {
    memcpy(to, from, length);
    VALGRIND_MAKE_MEM_DEFINED(to, length);
}

/* Which bits of some bytes are marked; they stand in `bits`. */
static void find_bits(const void *at, size_t length) {
    if (VALGRIND_GET_VBITS(at, bits, length) != 1) {
        fail("memcheck does not tell what is marked");
    }
}

/* Whether all bytes have one value; they are looked at in eights, for there are many. */
static int are_all(const uint8_t *at, size_t length, uint8_t value) {
    uint64_t eight, wanted;
    memset(&wanted, value, sizeof wanted);
    for (; length >= sizeof eight; at += sizeof eight, length -= sizeof eight) {
        memcpy(&eight, at, sizeof eight);
        if (eight != wanted) {
            return 0;
        }
    }
    while (length > 0 && at[length - 1] == value) {
        length--;
    }
    return length == 0;
}

/* Whether nothing is marked of some bytes. */
static int is_defined(const void *at, size_t length) {
    find_bits(at, length);
    return are_all(bits, length, 0);
}

/* Whether nothing is marked of some bytes, and each has one value. */
static int is_plain(const void *at, size_t length, uint8_t value) {
    return is_defined(at, length) && are_all(at, length, value);
}

/* Begins a call. */
static void begin_call(void) {
    before = VALGRIND_COUNT_ERRORS;
}

/*
 * Ends a call: where integers and strings are marked it has no report, but a listing's length is that of its numbers; and its answer
 * depends on no literal.
 */
static uint64_t end_call(enum call call, uint64_t answer) {
    size_t found = VALGRIND_COUNT_ERRORS - before;
    made[call]++;
    reports[call] += found;
    if (found != 0 && !booleans && call != CHECK) {
        complain(call_names[call], found, 0);
    }
    find_bits(&answer, sizeof answer);
    VALGRIND_MAKE_MEM_DEFINED(&answer, sizeof answer);
    for (size_t k = 0; k < sizeof answer; k++) {
        if (bits[k] != 0) {
            complain("bits of the answer depend on literals", bits[k], 0);
        }
    }
    return answer;
}

/* Whether what is marked are literals' bytes alone; `whole`: all of integers and strings is, too. */
static void check_marks(const char *what, const uint8_t *at, size_t length, int whole) {
    static uint8_t plain[MOST], found[MOST];
    copy_clean(plain, at, length);
    size_t used = image_places(plain, length, found);
    if (!is_defined(at + used, length - used)) {
        complain(what, used, 0);
    }
    find_bits(at, used);
    for (size_t k = 0; k < used; k++) {
        if (found[k] == PLAIN && bits[k] != 0) {
            complain(what, k, 0);
        }
        if (whole && !booleans && (found[k] == INTEGER || found[k] == STRING) && bits[k] != 0xff) {
            complain("a literal's byte is not marked in the image, at", k, 0);
        }
    }
}

/* The image calls on the image in `image`, marked as it is. */
static void run_image(size_t length) {
    uint8_t none;
    size_t sizes[] = {15, 16, 1024};
    for (size_t k = 0; k < sizeof sizes / sizeof sizes[0]; k++) {
        begin_call();
        uint64_t frames = end_call(COUNT, monkey_count_frames(image, length, sizes[k]));
        size_t last = monkey_number(frames) == 0 ? monkey_whole(frames) : 0;
        for (size_t number = last; number <= last + 1; number++) {
            begin_call();
            end_call(FRAME, monkey_frame(image, length, sizes[k], number));
            begin_call();
            end_call(REFUSAL, monkey_frame_refusal(image, length, sizes[k], number));
        }
    }
    memset(turned, FILLED, sizeof turned);
    begin_call();
    uint64_t chin = end_call(CHIN, monkey_to_chin(image, length, turned, length));
    if (monkey_number(chin) == 0) {
        check_marks("a byte of the chin form depends on a literal, at", turned, length, 0);
        memset(output, FILLED, sizeof output);
        begin_call();
        end_call(UNCHIN, monkey_from_chin(turned, length, output, length));
        check_marks("a byte of the image depends on a literal, at", output, length, 0);
    } else if (!is_plain(turned, length, FILLED)) {
        complain("a refused call wrote to the output", 0, 0);
    }
    begin_call();
    end_call(CHECK, monkey_list_image(image, length, &none, 0));
    begin_call();
    uint64_t proposed = end_call(PROPOSE, monkey_propose_heights(image, length, heights, MONKEY_HEIGHTS_LIMIT));
    size_t count = monkey_number(proposed) == 0 ? monkey_value(proposed) : 0;
    if (!is_defined(heights, count * sizeof heights[0])) {
        complain("heights depend on literals", 0, 0);
    }
    begin_call();
    uint64_t checked = end_call(HEIGHTS, monkey_check_heights(image, length, heights, count, greatest, MONKEY_CHUNKS_LIMIT));
    if (monkey_number(checked) == 0 && !is_defined(greatest, monkey_value(checked) * sizeof greatest[0])) {
        complain("greatest heights depend on literals", 0, 0);
    }
}

/* What a compile call left: work areas zero, output and session marked in literals' bytes alone. */
static void check_compiled(uint64_t answer, int fresh) {
    size_t length = monkey_number(answer) == 0 ? monkey_value(answer) : 0;
    if (monkey_number(answer) != MONKEY_SHORT_BUFFER && (!is_plain(code, sizeof code, 0) || !is_plain(table, sizeof table, 0))) {
        complain("a work area keeps something", 1, 0);
    }
    check_marks("a byte of the image depends on a literal, at", output, length, fresh);
    if (!is_plain(output + length, output_size - length, FILLED)) {
        complain("the output behind the image is not as it was", 1, 0);
    }
    check_marks("a byte of the session depends on a literal, at", session, session_size, 0);
}

/* Compiles the tree in `clean`, marked, in the session, by both calls. */
static void run_tree(size_t length, int fresh) {
    tree_places(clean, length, places);
    memcpy(marked, clean, length);
    mark(marked, places, length);
    memcpy(earlier, session, sizeof session);
    memset(output, FILLED, sizeof output);
    begin_call();
    uint64_t shaped = end_call(SHAPE, monkey_write_shape(marked, length, output, output_size));
    if (monkey_number(shaped) == 0 && !is_defined(output, length)) {
        complain("the shape depends on literals", 1, 0);
    }
    memset(output, FILLED, sizeof output);
    begin_call();
    uint64_t named = monkey_compile_names(session, session_size, marked, length, output, output_size, code, code_size, table, table_size,
                                          &names[0].offset, 4 * MONKEY_NAMES_LIMIT);
    named = end_call(NAMES, named);
    if (monkey_number(named) == 0 && !is_defined(names, monkey_names_count(named) * sizeof names[0])) {
        complain("records depend on literals", 1, 0);
    }
    check_compiled(named >> 32 == 0 ? monkey_names_length(named) : named, fresh);
    memcpy(session, earlier, sizeof session);
    memset(output, FILLED, sizeof output);
    begin_call();
    uint64_t answer = monkey_compile(session, session_size, marked, length, output, output_size, code, code_size, table, table_size);
    answer = end_call(COMPILE, answer);
    check_compiled(answer, fresh);
    if (monkey_number(answer) == 0) {
        memcpy(image, output, monkey_value(answer));
        run_image(monkey_value(answer));
    }
}

/* Lends what is enough, in a fresh session. */
static void lend_enough(void) {
    session_size = MONKEY_SESSION_SIZE;
    code_size = MONKEY_CODE_SIZE;
    table_size = MONKEY_TABLE_SIZE;
    output_size = MONKEY_IMAGE_LIMIT;
    VALGRIND_MAKE_MEM_DEFINED(session, sizeof session);
    monkey_make_session(session, session_size);
}

/* Runs a tree in a fresh session, and in the one that `shared` keeps, which is begun anew where asked. */
static void run_both(const uint8_t *tree, size_t length, int anew) {
    static uint8_t shared[MOST];
    memcpy(clean, tree, length);
    lend_enough();
    if (anew) {
        memcpy(shared, session, sizeof session);
    }
    run_tree(length, 1);
    memcpy(clean, tree, length);
    memcpy(session, shared, sizeof session);
    run_tree(length, 0);
    memcpy(shared, session, sizeof session);
}

/* The trees of seeds, eight to a session. */
static void run_seeds(uint32_t seeds) {
    static uint8_t tree[MONKEY_LOAD_LIMIT];
    for (uint32_t seed = 0; seed < seeds; seed++) {
        snprintf(topic, sizeof topic, "seed %u", (unsigned)seed);
        run_both(tree, monkey_value(monkey_load_tree(seed, tree, sizeof tree)), seed % 8 == 0);
    }
}

/* A script, in a session with those before it. */
static void run_script(const char *path) {
    static uint8_t text[MOST], tree[MOST];
    static int later;
    FILE *file = fopen(path, "rb");
    size_t length = file == NULL ? 0 : fread(text, 1, sizeof text, file);
    uint64_t answer = monkey_read_text(text, length, tree, sizeof tree);
    snprintf(topic, sizeof topic, "%s", path);
    snprintf(line, sizeof line, "%s", path);
    if (file == NULL || fclose(file) != 0 || monkey_number(answer) != 0) {
        fail("no script");
    }
    run_both(tree, monkey_value(answer), !later);
    later = 1;
}

/* A line of a case: what is lent, how a session begins, a tree in it, or an image. */
static void run_line(char *word, char *rest) {
    if (strcmp(word, "case") == 0) {
        snprintf(topic, sizeof topic, "%.150s", rest);
        lend_enough();
    } else if (strcmp(word, "lend") == 0) {
        output_size = strtoul(rest, NULL, 10);
        output_size = output_size > MOST ? MOST : output_size;
    } else if (strcmp(word, "sizes") == 0) {
        session_size = strtoul(rest, &rest, 10);
        code_size = strtoul(rest, &rest, 10);
        table_size = strtoul(rest, NULL, 10);
    } else if (strcmp(word, "start") == 0 || strcmp(word, "twinstart") == 0) {
        memset(session, 0, sizeof session);
        size_t length = read_bytes(rest, session);
        image_places(session, length, places);
        mark(session, places, length);
    } else if (strcmp(word, "words") == 0 || strcmp(word, "twinwords") == 0) {
        monkey_make_session_words(session, session_size, clean, read_bytes(rest, clean));
    } else if (strcmp(word, "tree") == 0 || strcmp(word, "twin") == 0 || strcmp(word, "runtree") == 0 || strcmp(word, "shapeof") == 0) {
        run_tree(read_bytes(rest, clean), 0);
    } else {
        static const char *const on_images[] = {"image", "list", "frames", "chin", "unchin", "stack", "flow", "run", "chunks", "literals"};
        for (size_t k = 0; k < sizeof on_images / sizeof on_images[0]; k++) {
            if (strcmp(word, on_images[k]) == 0) {
                const char *last = strrchr(rest, ' ');
                size_t length = read_bytes(last == NULL ? rest : last + 1, clean);
                memcpy(image, clean, length);
                image_places(image, length, places);
                mark(image, places, length);
                run_image(length);
            }
        }
    }
}

/* A file of recorded cases. */
static void run_cases(const char *path) {
    FILE *file = fopen(path, "r");
    if (file == NULL) {
        fail(path);
    }
    while (fgets(line, sizeof line, file) != NULL) {
        char *rest = strchr(line, ' ');
        if (line[0] != '#' && line[0] != '\n' && rest != NULL) {
            *rest++ = '\0';
            rest[strcspn(rest, "\n")] = '\0';
            run_line(line, rest);
        }
    }
    fclose(file);
}

int main(int count, char **words) {
    booleans = count > 1 && strcmp(words[1], "booleans") == 0;
    if (count < 4 || (!booleans && strcmp(words[1], "values") != 0) || !RUNNING_ON_VALGRIND) {
        fprintf(stderr, "valgrind literals values|booleans SEEDS FILE..\n");
        return 2;
    }
    run_seeds((uint32_t)strtoul(words[2], NULL, 10));
    for (int k = 3; k < count; k++) {
        size_t length = strlen(words[k]);
        if (length > 4 && strcmp(words[k] + length - 4, ".txt") == 0) {
            run_cases(words[k]);
        } else {
            run_script(words[k]);
        }
    }
    for (size_t k = 0; k < CALLS; k++) {
        printf("%-16s %7zu calls %7zu reports\n", call_names[k], made[k], reports[k]);
    }
    printf("literals' bytes that were marked: %zu of integers, %zu Booleans, %zu of strings, %zu True and False\n",
           literals[INTEGER], literals[BOOLEAN], literals[STRING], literals[CODE]);
    printf("disagreements: %d\n", wrong);
    return wrong != 0;
}

/*
 * The subcommands on images, and the tree of a seed.
 */
#define _XOPEN_SOURCE 700
#include <dirent.h>
#include <errno.h>
#include <stdio.h>
#include <stdlib.h>
#include <string.h>

#include "profile.h"

enum { IMAGE_TAG = 0x50, CHIN_TAG = 0x58 };

/* Main, among the pool indices of functions. */
enum { MAIN = MONKEY_CHUNKS_LIMIT };

static uint8_t image[IMAGE_ROOM];
static size_t image_length;
static uint8_t listing[MONKEY_LISTING_LIMIT];
static uint8_t turned[MONKEY_IMAGE_LIMIT];
static uint32_t heights[MONKEY_HEIGHTS_LIMIT];
static uint32_t greatest[MONKEY_CHUNKS_LIMIT];

/* Reads the image that a command is given. */
static int take_image(const char *path) {
    return read_input(path, image, sizeof image, &image_length);
}

/* Reads an image, and answers where it is too. */
int read_image(const char *path, const uint8_t **bytes, size_t *length) {
    int status = take_image(path);
    *bytes = image;
    *length = image_length;
    return status;
}

/* Refuses an output that is the image; else reads that. */
static int read_other(const struct arguments *a) {
    char *written[] = {(char *)a->output};
    int status = check_places(a->command, written, 1, a->operands, a->count);
    return status == DONE ? take_image(a->operands[0]) : status;
}

/* Says why the image that was read was refused: a chunk and why, an offset, or that it is something else. */
int refuse_image(const char *path, uint64_t answer) {
    char why[160];
    switch (monkey_number(answer)) {
    case MONKEY_BAD_HEIGHTS:
        explain_chunk(why, sizeof why, image, image_length, monkey_value(answer));
        return refuse_chunk(path, answer, why);
    case MONKEY_BAD_IMAGE:
        return refuse_for(path, answer, word_of(MONKEY_BAD_IMAGE), mistaken(image, image_length, IMAGE_TAG), "image");
    default:
        return refuse_at_offset(path, answer, "image");
    }
}

/* Reads a decimal number up to a limit; whether the word is one. */
int read_number(const char *word, unsigned long long limit, unsigned long long *number) {
    char *end;
    errno = 0;
    *number = strtoull(word, &end, 10);
    return word[0] >= '0' && word[0] <= '9' && *end == 0 && errno == 0 && *number <= limit;
}

/* Does one thing with each image, and answers the worst status; of several it notes how many could not be done. */
static int each_image(const struct arguments *a, int (*one)(const struct arguments *, const char *)) {
    size_t failed = 0;
    int worst = DONE;
    for (size_t k = 0; k < a->count && !ferror(stdout); k++) {
        int status = one(a, a->operands[k]);
        failed += status != DONE;
        worst = status > worst ? status : worst;
    }
    if (!ferror(stdout)) {
        note_failed(a, failed);
    }
    return worst;
}

/* Where listings go: standard output, or memory until all are there. */
static FILE *listings;

/* Lists an image, of several behind a line with its name. */
static int list_image(const struct arguments *a, const char *path) {
    static const char *between = "";
    int status = take_image(path);
    if (status != DONE) {
        return status;
    }
    uint64_t answer = monkey_list_image(image, image_length, listing, sizeof listing);
    if (monkey_number(answer) != 0) {
        return refuse_image(path, answer);
    }
    if (is_json()) {
        begin_object(listings, path);
        put_text("listing", listing, monkey_value(answer));
        end_object();
    } else {
        if (a->count > 1) {
            fprintf(listings, "%s%s:\n", between, shown_path(path));
            between = "\n";
        }
        fwrite(listing, 1, monkey_value(answer), listings);
    }
    return listings == stdout ? finish_stdout() : DONE;
}

/* profile list */
int run_list(const struct arguments *a) {
    char *text = NULL;
    size_t length = 0;
    char *written[] = {(char *)a->output};
    int status = check_places(a->command, written, 1, a->operands, a->count);
    if (status != DONE) {
        return status;
    }
    listings = a->output == NULL ? stdout : open_memstream(&text, &length);
    if (listings == NULL) {
        return file_error("memory");
    }
    status = each_image(a, list_image);
    if (listings == stdout) {
        return status;
    }
    int failed = ferror(listings);
    if (fclose(listings) != 0 || failed) {
        status = file_error("memory");
    }
    if (status == DONE) {
        status = write_output(a->output, (const uint8_t *)text, length);
    }
    free(text);
    return status;
}

/* Proposes heights for the image and has them checked: the answer that refuses, or the number of chunks. */
static uint64_t measure(void) {
    uint64_t answer = monkey_propose_heights(image, image_length, heights, MONKEY_HEIGHTS_LIMIT);
    if (monkey_number(answer) != 0) {
        return answer;
    }
    return monkey_check_heights(image, image_length, heights, monkey_value(answer), greatest, MONKEY_CHUNKS_LIMIT);
}

/* Says of an image whether it decodes, its stack passes, and what its code names is there. */
static int check_image(const struct arguments *a, const char *path) {
    (void)a;
    uint8_t none;
    int status = take_image(path);
    if (status != DONE) {
        return status;
    }
    uint64_t answer = monkey_list_image(image, image_length, &none, 0);
    if (monkey_number(answer) != MONKEY_OUTPUT_SHORT) { /* one that decodes has a listing, and no room for it */
        return refuse_for(path, answer, "does not decode", mistaken(image, image_length, IMAGE_TAG), "image");
    }
    return report_check(path, image, image_length, measure());
}

/* profile check */
int run_check(const struct arguments *a) {
    return each_image(a, check_image);
}

/* The pool index of the next function at or behind a constant of a sound image; its offset and index are moved past it. */
static unsigned next_function(size_t *at, unsigned *index) {
    for (;;) {
        uint8_t tag = image[*at];
        *at += 3 + (size_t)image[*at + 1] * 256 + image[*at + 2];
        (*index)++;
        if (tag == 0x62) {
            return *index - 1;
        }
    }
}

/* Prints the depth of a function by its pool index, or of main, where it is MAIN; of several images the image first. */
static void print_depth(const struct arguments *a, const char *path, unsigned function, unsigned depth) {
    if (a->count > 1) {
        printf("%s: ", shown_path(path));
    }
    if (function == MAIN) {
        printf("main %u\n", depth);
    } else {
        printf("function %u %u\n", function, depth);
    }
}

/* Prints the depth of a function as an object. */
static void put_depth(const struct arguments *a, const char *path, unsigned function, unsigned depth) {
    (void)a;
    (void)path;
    begin_item();
    put_number("index", function);
    put_number("depth", depth);
    end_item();
}

/* Does one thing with each function of a sound image: its pool index and its depth. */
static void each_function(const struct arguments *a, const char *path, uint32_t chunks,
                          void (*one)(const struct arguments *, const char *, unsigned, unsigned)) {
    size_t at = 3 + (size_t)image[1] * 256 + image[2] + 3;
    unsigned index = 0;
    for (uint32_t k = 1; k < chunks; k++) {
        one(a, path, next_function(&at, &index), (unsigned)greatest[k]);
    }
}

/* Prints the depths of an image. */
static int measure_image(const struct arguments *a, const char *path) {
    int status = take_image(path);
    if (status != DONE) {
        return status;
    }
    uint64_t answer = measure();
    if (monkey_number(answer) != 0) {
        return refuse_image(path, answer);
    }
    if (is_json()) {
        begin_object(stdout, path);
        put_number("main", greatest[0]);
        begin_list("functions");
        each_function(a, path, monkey_value(answer), put_depth);
        end_list();
        end_object();
    } else {
        print_depth(a, path, MAIN, (unsigned)greatest[0]);
        each_function(a, path, monkey_value(answer), print_depth);
    }
    return finish_stdout();
}

/* profile depth */
int run_depth(const struct arguments *a) {
    return each_image(a, measure_image);
}

/* Refuses a directory that has frames: those of two images would be mixed. */
static int refuse_frames(const struct arguments *a) {
    int found = 0;
    struct dirent *e;
    DIR *entries = opendir(a->output);
    if (entries == NULL) {
        return file_error(a->output);
    }
    while (!found && (e = readdir(entries)) != NULL) {
        found = strncmp(e->d_name, "frame-", 6) == 0;
    }
    closedir(entries);
    return found ? usage_error(a->command, "there are frames already in ", a->output) : DONE;
}

/* Judges where frames are to be written: into a new directory, or one that has none. */
static int check_frames(const struct arguments *a) {
    if (a->output == NULL) {
        return DONE;
    }
    if (strcmp(a->output, "-") == 0) {
        return usage_error(a->command, "frames need a directory: name one with -o", "");
    }
    if (is_there(a->output) && !is_directory(a->output)) {
        return usage_error(a->command, "frames need a directory, and this is none: ", a->output);
    }
    return is_there(a->output) ? refuse_frames(a) : DONE;
}

/* Writes each of the frames that were counted to a file of its own, frame-0000, frame-0001, .., all or none. */
static int write_frames(const char *directory, size_t size, size_t count) {
    char name[32];
    int status = begin_files(count + 1, 0);
    if (status == DONE && !is_there(directory)) {
        status = prepare_directory(directory);
    }
    for (size_t k = 0; k < count && status == DONE; k++) {
        uint64_t frame = monkey_frame(image, image_length, size, k);
        snprintf(name, sizeof name, "frame-%04u", (unsigned)k);
        status = prepare_within(directory, name, image + monkey_frame_offset(frame), monkey_frame_length(frame));
    }
    if (status == DONE) {
        status = commit_files();
    }
    drop_files();
    return status;
}

/* profile frames */
int run_frames(const struct arguments *a) {
    unsigned long long size;
    if (!read_number(a->operands[0], SIZE_MAX, &size)) {
        return usage_error(a->command, "no size in bytes: ", a->operands[0]);
    }
    int status = check_frames(a);
    if (status == DONE) {
        status = take_image(a->operands[1]);
    }
    if (status != DONE) {
        return status;
    }
    uint64_t answer = monkey_count_frames(image, image_length, (size_t)size);
    if (monkey_number(answer) == MONKEY_FRAME_SIZE) {
        return refuse_plainly(a->operands[is_json() ? 1 : 0], answer); /* an object is about a file, a message about the size */
    }
    if (monkey_number(answer) != 0) {
        return refuse_image(a->operands[1], answer);
    }
    size_t count = monkey_whole(answer) + (monkey_rest(answer) != 0);
    status = a->output == NULL ? DONE : write_frames(a->output, (size_t)size, count);
    if (status != DONE) {
        return status;
    }
    if (is_json()) {
        begin_object(stdout, a->operands[1]);
        put_number("size", (long long)size);
        put_number("whole", monkey_whole(answer));
        put_number("rest", monkey_rest(answer));
        end_object();
        return finish_stdout();
    }
    printf("%u whole frames of %u bytes, rest %u\n", (unsigned)monkey_whole(answer), (unsigned)size, (unsigned)monkey_rest(answer));
    return finish_stdout();
}

/* Translates what begins with a tag by one of the two functions. */
static int translate(const struct arguments *a, uint8_t tag, uint64_t (*turn)(const uint8_t *, size_t, uint8_t *, size_t)) {
    int status = read_other(a);
    if (status != DONE) {
        return status;
    }
    uint64_t answer = turn(image, image_length, turned, sizeof turned);
    if (monkey_number(answer) == MONKEY_BAD_IMAGE) {
        return refuse_for(a->operands[0], answer, word_of(MONKEY_BAD_IMAGE), mistaken(image, image_length, tag), "image");
    }
    return monkey_number(answer) == 0 ? write_binary(a->output, turned, monkey_value(answer)) : refuse_image(a->operands[0], answer);
}

/* profile chin */
int run_chin(const struct arguments *a) {
    return translate(a, IMAGE_TAG, monkey_to_chin);
}

/* profile unchin */
int run_unchin(const struct arguments *a) {
    return translate(a, CHIN_TAG, monkey_from_chin);
}

/* profile load */
int run_load(const struct arguments *a) {
    static uint8_t tree[MONKEY_LOAD_LIMIT];
    unsigned long long seed;
    if (!read_number(a->operands[0], 4294967295u, &seed)) {
        return usage_error(a->command, "no seed from 0 to 4294967295: ", a->operands[0]);
    }
    uint64_t answer = monkey_load_tree((uint32_t)seed, tree, sizeof tree);
    return monkey_number(answer) == 0 ? write_binary(a->output, tree, monkey_value(answer)) : refuse_plainly(a->operands[0], answer);
}

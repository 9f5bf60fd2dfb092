/*
 * The profile compiler for C: link target/staticlib/libcapi.a (tools/staticlib; x86-64). The bytes of trees, sessions and images: docs/FORMAT.md.
 *
 * Buffers
 *   Each is a pointer and a length. A length counts elements: bytes, for the table area, lists of heights and tokens 32-bit numbers, and for the work area of
 *   a trial run 64-bit numbers.
 *   No pointer is null, also where the length is 0; a table area, a list of heights or the numbers of a token are aligned as a uint32_t, a work area as a uint64_t.
 *   No two buffers of one call overlap, and nothing else reads or writes them while it runs.
 *   The functions keep nothing of their own between calls and use no heap, so that threads may call them on buffers of their own.
 *   A call takes up to 100,000 bytes of stack (measured on trees of 64 levels); those on heights up to 270,000 (measured: 266,900, most of it one
 *   number for each offset of the longest image), the trial run, which goes over main twice, up to 540,000 (measured: 529,156).
 *   monkey_read_text takes up to 60,000, whatever the text nests (measured: 59,088 on 20,699 texts; tests/worst_texts.c has the worst). The thread's own
 *   are among those measured, 4,464 bytes.
 *
 * Answers
 *   Each function answers one 64-bit number. Where the high half is 0, the low half is a length, of what was written, in elements, or two numbers, where its comment
 *   says so. Otherwise the call was refused: the high half is the number of the refusal, 1 to 29, the low half its place, an offset or a chunk.
 *   monkey_number and monkey_value take the halves. Every call ends with an answer, whatever bytes the buffers hold.
 */
#ifndef MONKEY_H
#define MONKEY_H

#include <stddef.h>
#include <stdint.h>

/* The version of this header, of the library and of the command `profile`. */
#define MONKEY_VERSION "1.0"

#ifdef __cplusplus
extern "C" {
#endif

/* Sizes to lend. A longer buffer is taken too: what is past the size stays as it was. */
enum {
    MONKEY_SESSION_SIZE = 65536, /* bytes of a session */
    MONKEY_CODE_SIZE = 32768,    /* bytes of the code area */
    MONKEY_TABLE_SIZE = 16384,   /* 32-bit numbers of the table area */
    MONKEY_TREE_LIMIT = 32768,   /* bytes of the longest tree */
    MONKEY_IMAGE_LIMIT = 61446,  /* bytes of the longest image: 6, and 32,768 of main code, and 28,672 of pool */
    MONKEY_LISTING_LIMIT = 6144100, /* no listing has more bytes; most have far fewer */
    MONKEY_LOAD_LIMIT = 2048,    /* bytes of the longest tree of a seed */
    MONKEY_WORDS_LIMIT = 24,     /* words of a session */
    MONKEY_HEIGHTS_LIMIT = 61440, /* no image has more instructions: 32,768 bytes of main code and 28,672 of pool */
    MONKEY_CHUNKS_LIMIT = 4097,  /* no image has more chunks: main and 4,096 functions */
    MONKEY_WORK_SIZE = 4096,     /* 64-bit numbers of the work area of a trial run */
    MONKEY_GLOBALS_LIMIT = 9216, /* no trial run writes more bytes: nine for each of 1,024 globals */
    MONKEY_NAMES_LIMIT = 8189,   /* no tree has more Identifiers */
    MONKEY_TOKEN_SIZE = 3        /* 32-bit numbers of a token */
};

/* The numbers of refusals. The place is an offset in the tree, 0 where none is named here. */
enum monkey_refusal {
    MONKEY_SHORT_BUFFER = 1,     /* a work area or the session is below its size */
    MONKEY_NO_SESSION = 2,       /* the session's layout is broken: a session that only these functions wrote never is */
    MONKEY_BAD_TREE = 3,         /* the tree's layout is broken; place: the wrong field, or the parent of a missing child */
    MONKEY_TOO_DEEP = 4,         /* a field at level 65, Program being level 1; place: the field */
    MONKEY_UNDEFINED = 5,        /* a name without symbol; place: the Identifier */
    MONKEY_OPERATOR = 6,         /* an operator that is none there; place: the Infix or Prefix */
    MONKEY_MACRO = 7,            /* place: the MacroLit */
    MONKEY_TOO_MANY = 8,         /* over 255 parameters or arguments; place: the Function or Call */
    MONKEY_LOCALS = 9,           /* the 257th definition in a function; place: the Let */
    MONKEY_CAPTURES = 10,        /* the 256th free symbol of a function; place: the Identifier */
    MONKEY_GLOBALS = 11,         /* the session's 1,025th definition; place: the Let */
    MONKEY_POOL = 12,            /* a constant would pass 4,096 constants or 28,672 bytes; place: its expression */
    MONKEY_CODE = 13,            /* open code would pass 32,768 bytes; place: the expression or statement; never met, as is proved (no_tree_is_13) */
    MONKEY_NESTING = 14,         /* the 17th open function; place: the Function */
    MONKEY_OUTPUT_SHORT = 15,    /* the result is longer than the output */
    MONKEY_BAD_INSTRUCTION = 16, /* an unknown byte or missing operands; none of these functions answers it */
    MONKEY_BAD_IMAGE = 17,       /* place: the offset in the image of its first wrong field or instruction */
    MONKEY_FEW_RECORDS = 18,     /* the tree has more Identifiers than records were lent */
    MONKEY_BAD_WORDS = 19,       /* words that are no list of name fields, have a name of a wrong length, a repeated one or a 25th */
    MONKEY_BAD_SCRIPT = 20,      /* the text is no script; place: the first token that cannot stand there, or where it ends too early */
    MONKEY_LARGE_INTEGER = 21,   /* an integer above 9,223,372,036,854,775,807; place: its offset in the text */
    MONKEY_NO_VALUE = 22,        /* a branch that yields no value: it is empty or ends in a let; place: the If */
    MONKEY_FRAME_SIZE = 23,      /* a frame's size is below 16 or above 1,024 */
    MONKEY_NO_FRAME = 24,        /* the image has no frame of this number */
    MONKEY_BAD_HEIGHTS = 25,     /* image and heights do not pass; place: the first chunk that fails, 0 for main, else the function's pool index plus 1 */
    MONKEY_BAD_JUMP = 26,        /* a jump has no operand in the other form; place: its offset in the image that was given */
    MONKEY_NOT_RUNNABLE = 27,    /* an instruction of main that a trial run does not take; place: its offset in the image */
    MONKEY_OPERAND = 28,         /* a trial run met a wrong operand kind, an overflow or a zero divisor; place: the instruction's offset in the image */
    MONKEY_UNSET = 29            /* a trial run met a global not yet set; place: the GetGlobal's offset in the image */
};

/* The number of a refusal, 0 where there is none. */
static inline uint32_t monkey_number(uint64_t answer) { return (uint32_t)(answer >> 32); }

/* The length, or the place of a refusal. */
static inline uint32_t monkey_value(uint64_t answer) { return (uint32_t)answer; }

/*
 * Makes a fresh session of document 01's two fields in the first 65,536 bytes and answers 65,536. Its built-in words are len, puts, first, last, rest, push.
 * Refused: 1, and nothing is written.
 */
uint64_t monkey_make_session(uint8_t *session, size_t session_length);

/*
 * Makes a session with words of its own, in index order, in the first 65,536 bytes and answers 65,536. `names` holds a field 30 for each word, one behind the other
 * and nothing else: 30, the length in two bytes with the high one first, the name. 0 to MONKEY_WORDS_LIMIT words of 1 to 32 bytes each, any bytes, none repeated; no
 * bytes at all are a list without words. Only these words are built in: len is undefined in a session whose list has no len.
 *   Refused, and nothing is written: 1; then 19 at 0, where `names` is anything else.
 */
uint64_t monkey_make_session_words(uint8_t *session, size_t session_length, const uint8_t *names, size_t names_length);

/*
 * Compiles a tree in a session.
 *   Accepted: the answer is the image's length, and the image stands at the front of the output, whose other bytes stay as they were.
 *     The tree's definitions and constants are added to the session, so that the next tree is compiled with them.
 *     A session is written back with three fields, its words first: one of two fields, which monkey_make_session makes, grows by 45 bytes in its 65,536.
 *     A definition of a word's name hides the word, in this tree from there on and in the next ones.
 *     In a session that monkey_make_session or monkey_make_session_words made and monkey_compile alone has written, what code names is there and its jumps land: docs/FORMAT.md, Image.
 *   Refused, 1 to 15 or 22: session and output are as they were. An output of any length is taken; MONKEY_IMAGE_LIMIT bytes are enough for
 *     every image.
 *   Work areas may hold anything before. They are zero afterwards, over their sizes, after every call but one that is refused 1, which
 *     writes nothing at all.
 */
uint64_t monkey_compile(uint8_t *session, size_t session_length,
                        const uint8_t *tree, size_t tree_length,
                        uint8_t *output, size_t output_length,
                        uint8_t *code, size_t code_length,
                        uint32_t *table, size_t table_length);

/*
 * How a name was resolved. Four 32-bit numbers in a row and nothing between them, so that an array of n such structs is 4 n numbers: monkey_compile_names
 * takes it as a pointer to the first.
 */
struct monkey_name {
    uint32_t offset;  /* of the Identifier's tag in the tree */
    uint32_t kind;    /* enum monkey_kind: what is loaded there */
    uint32_t index;   /* its index: of the definition, the local, the word, the capture; 0 for a function's own name */
    uint32_t crossed; /* functions left behind on the way out until a table held the name; one that has captured it already holds it */
};

enum monkey_kind {
    MONKEY_GLOBAL = 0,   /* a definition of the session or of the main program */
    MONKEY_LOCAL = 1,    /* a definition or parameter of the function in which the name stands */
    MONKEY_BUILTIN = 2,  /* a word of the session */
    MONKEY_FREE = 3,     /* a local, or the name, of a function further out, captured: the index is the capture's */
    MONKEY_FUNCTION = 4  /* the name of the function in which it stands */
};

/*
 * Compiles a tree as monkey_compile does, with the same rules for its buffers, and writes how each Identifier was resolved, in walk order: that of the tree,
 * but the right side of < comes before its left. `names_length` counts numbers, four to a record: sizeof names / sizeof(uint32_t) for an array, passed as
 *     (uint32_t *)names    or    &names[0].offset.
 * There is room for a fourth as many records, rounded down; MONKEY_NAMES_LIMIT are enough for every tree.
 *   Accepted: monkey_names_count is the number of records written, which is that of the tree's Identifiers, and monkey_names_length the image's length. Numbers
 *     behind the records stay as they were; session, output and work areas are as monkey_compile leaves them.
 *   Refused, 1 to 15, 18 or 22: as there, and no number is written. 18 at 0, where the tree has more Identifiers than there is room for, comes after all that is
 *     refused while the tree is walked, and before 15.
 */
uint64_t monkey_compile_names(uint8_t *session, size_t session_length,
                              const uint8_t *tree, size_t tree_length,
                              uint8_t *output, size_t output_length,
                              uint8_t *code, size_t code_length,
                              uint32_t *table, size_t table_length,
                              uint32_t *names, size_t names_length);

static inline uint32_t monkey_names_count(uint64_t answer) { return monkey_value(answer) >> 16; }

static inline uint32_t monkey_names_length(uint64_t answer) { return monkey_value(answer) & 0xffff; }

/*
 * Checks an image and lists it as text: the answer is the listing's length, and the text stands at the front of the output, each line ended by 0A
 * and no 0 behind the last. The other bytes of the output stay as they were.
 *   Refused, and the output is as it was: 17 and the place, where the image is wrong, whose length is its own (bytes that follow it are
 *     refused); then 15, where the listing is longer than the output.
 *   The check alone: an empty output. No listing fits there, so that a sound image answers 15, and any other its 17. No image answers 0 there.
 */
uint64_t monkey_list_image(const uint8_t *image, size_t image_length, uint8_t *output, size_t output_length);

/*
 * Whether an image is sound: 1 or 0. (monkey_check_image, which answered 0 for a sound image, is gone: what still calls it does not link.)
 */
static inline int monkey_image_is_sound(const uint8_t *image, size_t image_length) {
    uint8_t none;
    return monkey_number(monkey_list_image(image, image_length, &none, 0)) == MONKEY_OUTPUT_SHORT;
}

/*
 * Frames: an image in parts of one size, 16 to 1,024 bytes. Frame k begins at offset k * size. The whole frames have the size; bytes that are left behind
 * them are the last, shorter frame. The three functions judge image, size and number in this order: 17 and its place, 23, 24 (the first has no number).
 *
 * Each call checks the whole image. To send all of it, count once: where the answer is no refusal, frame k has
 *     k < whole ? size : rest    bytes at    image + k * size,    for k from 0 to whole - 1, and k = whole where the rest is not 0
 * (examples/profile.c). Asking monkey_frame for each of the 3,841 frames of the longest image takes half a second, where one check takes 0.12 ms.
 */

/* Counts: whole frames and rest, with monkey_whole and monkey_rest. */
uint64_t monkey_count_frames(const uint8_t *image, size_t image_length, size_t size);

static inline uint32_t monkey_whole(uint64_t answer) { return monkey_value(answer) >> 16; }

static inline uint32_t monkey_rest(uint64_t answer) { return monkey_value(answer) & 0xffff; }

/* Finds the frame of a number from 0: its offset in the image and its length, 1 to 1,024, with monkey_frame_offset and monkey_frame_length. */
uint64_t monkey_frame(const uint8_t *image, size_t image_length, size_t size, size_t number);

static inline uint32_t monkey_frame_offset(uint64_t answer) { return monkey_value(answer) >> 16; }

static inline uint32_t monkey_frame_length(uint64_t answer) { return monkey_value(answer) & 0xffff; }

/* Why monkey_frame refuses the same arguments; 0 where it does not. */
uint64_t monkey_frame_refusal(const uint8_t *image, size_t image_length, size_t size, size_t number);

/*
 * Translates an image into the chin unit's form (docs/FORMAT.md): the answer is the length, which is the image's own, and the form stands at the front of the
 * output, whose other bytes stay as they were. Image and output do not overlap.
 *   Refused, and the output is as it was: 17 and the place; then 26, the first jump to before its own end; then 15, where the output is shorter than the image.
 */
uint64_t monkey_to_chin(const uint8_t *image, size_t image_length, uint8_t *output, size_t output_length);

/*
 * Translates the chin form back into an image, likewise. 17 is judged as for images, with the chin form's tags; 26 is the first distance whose target passes
 * 65,535. What monkey_to_chin wrote is never refused 17 or 26, and gives the image that it came from.
 */
uint64_t monkey_from_chin(const uint8_t *image, size_t image_length, uint8_t *output, size_t output_length);

/*
 * Writes the tree of a seed, by the list of choices in docs/LOAD.md: the answer is its length, at most MONKEY_LOAD_LIMIT, and the tree stands at the
 * front of the output, whose other bytes stay as they were. The same seed has the same tree always; every tree passes the tree check.
 *   Refused, and the output is as it was: 15, where the tree is longer than the output.
 */
uint64_t monkey_load_tree(uint32_t seed, uint8_t *output, size_t output_length);

/*
 * Stack depth before upload. A height is how many values are on the stack before an instruction, 0 at the start of a chunk. A list of heights has a number for each
 * instruction of an image: main's first, then each function's in pool order. docs/FORMAT.md says when image and heights pass.
 */

/*
 * Checks the heights that are offered for an image, by whomever: the answer is how many chunks the image has, at most MONKEY_CHUNKS_LIMIT, and the greatest height of
 * each where it is reached (0 if nothing is) stands at the front of the output: main's, then each function's in pool order, other constants having none. What is behind
 * them stays as it was.
 *   Heights at instructions that are not reached, and behind the last, are not read and may be anything; a longer list is taken too.
 *   Refused, and the output is as it was: 17 and the place; then 25 and the first chunk that fails, or that the list does not wholly cover; then 15, where the output
 *     has fewer numbers than the image has chunks.
 */
uint64_t monkey_check_heights(const uint8_t *image, size_t image_length,
                              const uint32_t *heights, size_t heights_length,
                              uint32_t *output, size_t output_length);

/*
 * Proposes heights for an image by following its code: the answer is how many instructions the image has, at most MONKEY_HEIGHTS_LIMIT, and a height for each stands at
 * the front of the list, 0 where it is not reached. What is behind them stays as it was. How many there are and what stays is proved, of the heights themselves nothing:
 * monkey_check_heights judges them. It takes them for every image of a session that monkey_make_session made and monkey_compile alone has written, in all that were tried.
 *   Refused, and the list is as it was: 17 and the place; then 15, where the list has fewer numbers than the image has instructions.
 */
uint64_t monkey_propose_heights(const uint8_t *image, size_t image_length, uint32_t *heights, size_t heights_length);

/*
 * Trial run. Runs the main code of an image, all globals unset at first, with the heights that are offered for it (monkey_propose_heights). Main may use the instructions
 * 00 to 11 and 16 alone; docs/FORMAT.md says what they do. The answer's low half is the number of globals written times 65,536 plus the number of instructions executed
 * (monkey_run_globals and monkey_run_steps take them), and the output starts with nine bytes for each global up to the highest index that main names: a kind, 0 unset,
 * 1 integer, 2 boolean, 3 null, then the value in eight bytes, high byte first: an integer in two's complement, 0 or 1 for a boolean, else 0. What is behind them stays.
 *   The work area has MONKEY_WORK_SIZE numbers, and they are 0 after every answer but 1; numbers behind them stay.
 *   Refused, and the output is as it was: 1, where the work area is shorter (nothing is touched then); 17 and the place; 25 and the chunk; 27 and the offset of the first
 *     instruction of main that a run does not take: another instruction, a Constant that names no integer, a global index above 1,023 or, where it is reached, a height
 *     above 1,024 before it; 15, where the output has fewer than nine bytes for each global; then, as the run meets it, 28 or 29 and the instruction's offset.
 */
uint64_t monkey_run(const uint8_t *image, size_t image_length, const uint32_t *heights, size_t heights_length, uint64_t *work, size_t work_length, uint8_t *output, size_t output_length);

/* The globals that a trial run wrote, and the instructions that it executed. */
static inline uint32_t monkey_run_globals(uint64_t answer) { return (uint32_t)answer >> 16; }
static inline uint32_t monkey_run_steps(uint64_t answer) { return (uint32_t)answer & 65535; }

/*
 * Reads a script in text form, by the grammar of docs/GRAMMAR.md: the answer is the length of its tree, at most 32,768, and the tree stands at the front of the
 * output, whose other bytes stay as they were. The tree passes the tree check. Tokens end at or before offset 8,192. Text and output do not overlap.
 *   Refused, and the output is as it was: 20 or 21 and the place in the text, the earlier of the two; then 4 at 0, where the tree has a field at level 65; then
 *   15 at 0, where it is longer than the output or than 32,768.
 */
uint64_t monkey_read_text(const uint8_t *text, size_t text_length, uint8_t *output, size_t output_length);

/*
 * Writes the shape of a tree: its bytes, with 0 for the content of each integer, boolean and string. The answer is its length, which is the tree's own, and the shape
 * stands at the front of the output, whose other bytes stay as they were. Two trees that are not refused here are alike exactly when their shapes are equal: then
 * compile calls on them at the same point of equal sessions, with buffers equally long, give images of one length, or the same refusal. Tree and output do not overlap.
 *   Refused, and the output is as it was: 3 or 4 and the place in the tree; then 15 at 0, where the output is shorter than the tree.
 */
uint64_t monkey_write_shape(const uint8_t *tree, size_t tree_length, uint8_t *output, size_t output_length);

/* The kinds of tokens. */
enum monkey_token {
    MONKEY_TOKEN_LET = 0,            /* the seven words: let return true false if fn else */
    MONKEY_TOKEN_RETURN = 1,
    MONKEY_TOKEN_NAME = 2,           /* every other word */
    MONKEY_TOKEN_INTEGER = 3,        /* its digits */
    MONKEY_TOKEN_STRING = 4,         /* with both quotes */
    MONKEY_TOKEN_TRUE = 5,
    MONKEY_TOKEN_FALSE = 6,
    MONKEY_TOKEN_IF = 7,
    MONKEY_TOKEN_FN = 8,
    MONKEY_TOKEN_BANG = 9,           /* ! */
    MONKEY_TOKEN_OPEN_BRACE = 10,    /* { */
    MONKEY_TOKEN_OPEN_PAREN = 11,    /* ( */
    MONKEY_TOKEN_OPEN_BRACKET = 12,  /* [ */
    MONKEY_TOKEN_MINUS = 13,         /* - */
    MONKEY_TOKEN_PLUS = 14,          /* + */
    MONKEY_TOKEN_STAR = 15,          /* * */
    MONKEY_TOKEN_SLASH = 16,         /* / */
    MONKEY_TOKEN_LESS = 17,          /* < */
    MONKEY_TOKEN_GREATER = 18,       /* > */
    MONKEY_TOKEN_EQUAL = 19,         /* == */
    MONKEY_TOKEN_UNEQUAL = 20,       /* != */
    MONKEY_TOKEN_ELSE = 21,
    MONKEY_TOKEN_ASSIGN = 22,        /* = */
    MONKEY_TOKEN_CLOSE_PAREN = 23,   /* ) */
    MONKEY_TOKEN_CLOSE_BRACKET = 24, /* ] */
    MONKEY_TOKEN_CLOSE_BRACE = 25,   /* } */
    MONKEY_TOKEN_COMMA = 26,         /* , */
    MONKEY_TOKEN_COLON = 27,         /* : */
    MONKEY_TOKEN_SEMICOLON = 28,     /* ; */
    MONKEY_TOKEN_ENDED = 29          /* no token: the text has ended */
};

/*
 * Finds the token of a script in text form that is next from an offset on, blanks passed, as monkey_read_text sees it: docs/GRAMMAR.md, Tokens. The answer is 3, and
 * three numbers stand at the front of `token`, whose other numbers stay as they were: the offset of the token's first byte, its length in bytes, its kind. Where the text
 * has ended: its length, 0, MONKEY_TOKEN_ENDED. The token behind it is had from the sum of the first two on. Whether a script may have a token there, monkey_read_text
 * alone judges; from an offset inside a token its rest is read as if it stood alone.
 *   Refused, and the numbers are as they were: 20 and the place of what is no token there: a byte that begins none, a string without its second quote, a word of
 *     more than 32 bytes, a token that would end behind offset 8,192, or offset 8,192 itself, where the text goes on and no token begins before it; 20 at the text's
 *     length or 8,192, the smaller, where `at` is above it; 21 and the place of an integer above the limit; then 15 at 0, where `token` has fewer than
 *     MONKEY_TOKEN_SIZE numbers.
 */
uint64_t monkey_next_token(const uint8_t *text, size_t text_length, size_t at, uint32_t *token, size_t token_length);

#ifdef __cplusplus
}
#endif

#endif

/*
 * The numbers of refusals (docs/FORMAT.md, Refusals): a word for each, what it means, and what to do. `profile explain` prints them.
 */
#include <stdio.h>
#include <stdlib.h>
#include <string.h>

#include "profile.h"

static const struct {
    const char *word, *meaning, *remedy;
} numbers[] = {
    {"", "", ""},
    {"short buffer", "A program lent the library a code area, a table area or a session that is too short.",
     "In a C program use the sizes of monkey.h. The command always does."},
    {"no session", "The file is no session: it has not 65536 bytes, or these are no words, globals and constants.",
     "Name a file that profile compile --session wrote, or one that is not there yet. A damaged session cannot be mended: "
     "take a copy, or compile the scripts again in a new one."},
    {"bad tree", "The bytes are no tree of a script.",
     "Leave --tree away if the file is a text. Else write the tree as docs/FORMAT.md has it."},
    {"too deep", "Parts of the script stand in one another more than 64 levels deep. Each block, call, list and operator is a "
     "level; 1 + 1 + 1 has three, for each + holds what is left of it.",
     "Give a part a name by let, and use the name."},
    {"undefined name", "A name is used that is neither a definition before it, nor a parameter, nor a built-in word, nor a "
     "global of the session.",
     "Look for a typing mistake; define the name before it is used, or compile in the session that has it (--session, "
     "--together). profile names says what each name is."},
    {"operator that is none here", "A tree has = or ! between two expressions, or before one what is neither - nor !.",
     "Write the tree with the operators of docs/FORMAT.md."},
    {"macro", "A tree has a macro, which is read and not compiled.", "Write a function."},
    {"too many parameters or arguments", "A function has more than 255 parameters, or a call more than 255 arguments.",
     "Hand over an array."},
    {"too many locals", "A function has more than 256 definitions, its parameters counted.",
     "Divide the function into several."},
    {"too many captures", "A function uses more than 255 variables of the functions around it.",
     "Divide the function, or hand these over as arguments."},
    {"too many globals", "The session has more than 1024 definitions.",
     "Begin a new session, or put values that belong together into one array."},
    {"too many constants", "The session has more than 4096 constants, or more than 28672 bytes of them: each literal and each function "
     "of all of its scripts is one.",
     "Begin a new session, or use a name where a literal is repeated."},
    {"too much code", "The code of the functions that are open at one place is longer than 32768 bytes.",
     "Divide the script, or its functions."},
    {"functions nested too deep", "Functions stand in one another more than 16 deep.",
     "Define the inner ones with let beside the outer ones."},
    {"too long", "What would be written is longer than its place: the tree of a script longer than 32768 bytes, or in a C "
     "program a buffer that is too short.",
     "Divide the script. Long lists take most of it: each integer takes 11 bytes."},
    {"bad instruction", "Code has a byte that is no instruction, or ends within one. The command answers 17 instead.", "Compile the script again."},
    {"bad image", "The file is no image, or was damaged: at the offset begins what no image has.",
     "Compile the script again. chin and check take images; unchin takes what chin wrote."},
    {"few records", "A C program lent room for too few names.", "Lend MONKEY_NAMES_LIMIT records."},
    {"bad words", "The words of --words are none: each has 1 to 32 bytes, none is there twice, and there are at most 24.",
     "Write them with commas between: --words sip,puff."},
    {"no script", "The text is no script: what stands at the place cannot follow what is before it, or the script ends there "
     "where more was wanted. A script has at most 8192 bytes; names have letters and _ alone, at most 32; outside strings "
     "there is only ASCII; there are no comments.",
     "Look at the place, and just before it. The language is in docs/GRAMMAR.md."},
    {"integer too large", "An integer is above 9223372036854775807. A minus sign is no part of an integer, so that "
     "-9223372036854775808 has no text form.",
     "Write a smaller one; for the lowest, -9223372036854775807 - 1."},
    {"branch without a value", "A branch of an if is empty or ends in a let. What an if is worth is what its branch ends in.",
     "End the branch in an expression or a return."},
    {"frame size is not 16 to 1024", "A frame has at least 16 and at most 1024 bytes.", "Give a size in these bounds."},
    {"no such frame", "A C program asked for a frame that the image has not.", "Ask for frames below the number that counting "
     "gives."},
    {"stack fails", "Some way through the code takes more from the stack than is there, leaves something, or does not come to "
     "an end: the image would not run. No script compiles to such an image.",
     "Do not upload it: compile the script again. profile check says where it fails."},
    {"bad jump", "A jump goes back; or, in the chin unit's form, further than an image can say.",
     "Compile the script again: no script compiles to such a jump."},
    {"not runnable", "The main code has what profile run does not take: it takes only arithmetic, comparisons, branches and "
     "globals, no functions, calls, strings, arrays or hashes.",
     "The image may be good all the same: profile check says so. Try a script of what can be run."},
    {"wrong operand, overflow or zero divisor", "The run met an operator with a value of a kind that it does not take, a "
     "result that is no 64-bit integer, or a division by 0.",
     "profile list shows the code at the offset. Mend the expression."},
    {"global not yet set", "The run met a global without a value: it is defined further down, or in another script. profile run begins "
     "with all globals unset, also with --session.",
     "Put the definition before its use, into the script that is tried."},
};

enum { NUMBERS = sizeof numbers / sizeof numbers[0], WIDTH = 80 };

/* The word of a number. */
const char *word_of(unsigned number) {
    return number < NUMBERS ? numbers[number].word : "unknown number";
}

/* Prints a text in lines of at most so many characters, each after a word. */
static void print_lines(const char *text) {
    size_t column = 0;
    while (*text != 0) {
        size_t word = strcspn(text, " ");
        if (column > 0 && column + 1 + word > WIDTH) {
            putchar('\n');
            column = 0;
        }
        printf("%s%.*s", column > 0 ? " " : "", (int)word, text);
        column += word + (column > 0);
        text += word + (text[word] == ' ');
    }
    putchar('\n');
}

/* Prints each number with its word. */
static void print_numbers(void) {
    for (unsigned k = 1; k < NUMBERS; k++) {
        printf("%2u  %s\n", k, numbers[k].word);
    }
}

/* profile explain */
int run_explain(const struct arguments *a) {
    if (a->count == 0) {
        print_numbers();
        return finish_stdout();
    }
    const char *word = a->operands[0];
    unsigned long number = strlen(word) > 3 || strspn(word, "0123456789") != strlen(word) ? 0 : strtoul(word, NULL, 10);
    if (number == 0 || number >= NUMBERS) {
        return usage_error(a->command, "no number of a refusal: ", word);
    }
    printf("error[%lu]: %s\n\n", number, numbers[number].word);
    print_lines(numbers[number].meaning);
    puts("\nWhat to do:");
    print_lines(numbers[number].remedy);
    return finish_stdout();
}

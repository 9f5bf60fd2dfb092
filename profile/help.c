/*
 * What --help and --version print.
 */
#include <stdio.h>
#include <string.h>

#include "profile.h"

static const char whole[] =
    "profile: compiles profiles of wheelchair controls\n"
    "\n"
    "  profile compile SCRIPT.. [-o IMAGE]   compile scripts to images\n"
    "  profile alike SCRIPT..                whether scripts differ in values alone\n"
    "  profile names SCRIPT                  how each name of a script was resolved\n"
    "  profile list IMAGE..                  list images as text\n"
    "  profile check IMAGE..                 whether images are sound\n"
    "  profile depth IMAGE..                 how deep the stack gets in each function\n"
    "  profile run IMAGE                     run the main code, print the globals\n"
    "  profile frames SIZE IMAGE [-o DIR]    count or write the frames for the radio\n"
    "  profile chin IMAGE [-o OUT]           translate into the chin unit's form\n"
    "  profile unchin OUT [-o IMAGE]         translate back\n"
    "  profile load SEED [-o TREE]           write the test tree of a seed\n"
    "  profile explain NUMBER                what the number of an error means\n"
    "  profile help SUBCOMMAND               say more of one of them\n"
    "\n"
    "  -o, --output FILE  where the result goes; without it to standard output\n"
    "  --json             results and refusals as objects in JSON, one a line\n"
    "  -q, --quiet        no notes on standard error, errors alone\n"
    "  -h, --help         this, or behind a subcommand its own help\n"
    "  -V, --version      the version, in place of a subcommand\n"
    "\n"
    "A file - is standard input or output. Options stand behind the subcommand; behind\n"
    "-- there are operands alone.\n"
    "Exit status: 0 done; 1 refused, with place, number and reason on standard error;\n"
    "2 wrong use, or a file that cannot be read or written; 3 with --no-wait, where\n"
    "another command has the session.\n";

static const char common[] =
    "  -q, --quiet         no notes on standard error, errors alone\n"
    "  -h, --help          this\n";

static const struct {
    const char *command, *text;
} texts[] = {
    {"compile",
     "profile compile SCRIPT.. [--tree] [--alike] [--together] [--session FILE]\n"
     "                [--words WORD,WORD..] [--no-wait] [--json] [-o IMAGE]\n"
     "\n"
     "Compiles scripts in text form, each in a fresh session.\n"
     "Of each script the first error is shown. If one is refused nothing is written: no\n"
     "image, and the session file is as it was. All is written beside its file and renamed\n"
     "when it is on the disk, the session last. Nothing is written over a script.\n"
     "\n"
     "  -o, --output IMAGE  where the image goes. Where IMAGE is a directory, or ends in\n"
     "                      /, and always of several scripts, each script's image goes\n"
     "                      into it: speed.monkey becomes speed.image. A directory that is\n"
     "                      not there is made\n"
     "  --tree              the scripts are trees in bytes, not texts\n"
     "  --alike             write nothing where the scripts are not alike, and say where\n"
     "                      they depart: see profile help alike\n"
     "  --together          all scripts in one session: each knows the definitions of\n"
     "                      those before it, and length and contents of its image depend\n"
     "                      on them\n"
     "  --session FILE      go on with the session of this file, all scripts in it, and\n"
     "                      write it anew; a file that is not there is made. A command\n"
     "                      that writes the same file is waited for\n"
     "  --no-wait           do not wait for it: status 3\n"
     "  --words WORD,..     a fresh session has these built-in words alone ('': none)\n"
     "  --json              a refusal as an object in JSON on standard output\n"},
    {"alike",
     "profile alike SCRIPT.. [--frames SIZE] [--tree] [--words WORD,..] [--json]\n"
     "\n"
     "Puts scripts that differ in values alone, so in integers, in true and false, and in\n"
     "the bytes of strings of one length, into one group, and says of each group how long\n"
     "its images are, each compiled in a fresh session. Where there are several groups,\n"
     "the length of an image may name its group: of each smaller one it shows where its\n"
     "first script departs from the first of the largest, and why; the status is then 1.\n"
     "\n"
     "  --frames SIZE       the frames of SIZE bytes, 16 to 1024, of each image too\n"
     "  --tree              the scripts are trees in bytes, not texts\n"
     "  --words WORD,..     sessions with these built-in words alone ('': none)\n"
     "  --json              groups and refusals as an object in JSON each\n"},
    {"names",
     "profile names SCRIPT [--tree] [--session FILE] [--words WORD,WORD..] [--json]\n"
     "\n"
     "Says of each name that a script uses, in its order, what it is: a global, a local,\n"
     "a built-in word, a variable captured from a function further out, or the function\n"
     "in which it stands; with its index, and how many functions further out it was found.\n"
     "The session file is read and not written.\n"
     "\n"
     "  --tree              the script is a tree in bytes, not a text\n"
     "  --session FILE      the session of this file, so its globals and built-in words\n"
     "  --words WORD,..     a fresh session with these built-in words alone\n"
     "  --json              one object in JSON for each file, refused or not\n"},
    {"list",
     "profile list IMAGE.. [--json] [-o FILE]\n"
     "\n"
     "Checks images and lists code and constants as text; of several each listing is\n"
     "headed by its file.\n"
     "\n"
     "  -o, --output FILE   where the listings go, if none is refused\n"
     "  --json              one object in JSON for each file, refused or not\n"},
    {"check",
     "profile check IMAGE.. [--json]\n"
     "\n"
     "Says of each image in one line, with status 1 if one part of one image fails,\n"
     "whether it\n"
     "- decodes: all of its bytes are what an image has;\n"
     "- the stack passes: no instruction takes more than is there, by whatever way it is\n"
     "  reached, and main ends with nothing left; else the first instruction at fault;\n"
     "- what the code names is there: constants, functions, where jumps go, locals,\n"
     "  captures; of globals and built-in words, which an image does not hold, not more\n"
     "  than 1024 and 24.\n"
     "\n"
     "  --json              one object in JSON for each file, refused or not\n"},
    {"depth",
     "profile depth IMAGE.. [--json]\n"
     "\n"
     "Prints how many values the stack holds at most: in main, and in each function by\n"
     "its pool index; of several images each line begins with the file. Refuses an image\n"
     "whose stack would not be right, and says where it is not.\n"
     "\n"
     "  --json              one object in JSON for each file, refused or not\n"},
    {"run",
     "profile run IMAGE [--script FILE] [--session FILE] [--words WORD,WORD..] [--json]\n"
     "\n"
     "Runs the main code, all globals unset at first, and prints each global: index, kind,\n"
     "value. Only arithmetic, comparisons, branches and globals can be run; of anything\n"
     "else the instruction is named, and what of the pool it takes.\n"
     "\n"
     "  --script FILE       the text that was compiled: its statement is shown where the\n"
     "                      run is refused or stops\n"
     "  --session FILE      the session in which the image was compiled: their names too\n"
     "  --words WORD,..     without it, the built-in words with which it was\n"
     "  --json              one object in JSON for each file, refused or not\n"},
    {"frames",
     "profile frames SIZE IMAGE [--json] [-o DIR]\n"
     "\n"
     "Counts the frames of SIZE bytes, 16 to 1024, and the bytes that are left.\n"
     "\n"
     "  -o, --output DIR    write each into this directory: frame-0000, frame-0001, ..\n"
     "                      It is made where it is not there, and may have no frames yet\n"
     "  --json              one object in JSON for each file, refused or not\n"},
    {"chin",
     "profile chin IMAGE [--json] [-o OUT]\n"
     "\n"
     "Translates an image into the chin unit's form.\n"
     "\n"
     "  -o, --output OUT    where this goes\n"
     "  --json              a refusal as an object in JSON on standard output\n"},
    {"unchin",
     "profile unchin OUT [--json] [-o IMAGE]\n"
     "\n"
     "Translates the chin unit's form back into an image.\n"
     "\n"
     "  -o, --output IMAGE  where the image goes\n"
     "  --json              a refusal as an object in JSON on standard output\n"},
    {"load",
     "profile load SEED [--json] [-o TREE]\n"
     "\n"
     "Writes the test tree of a seed, 0 to 4294967295: always the same for the same seed.\n"
     "\n"
     "  -o, --output TREE   where the tree goes\n"
     "  --json              a refusal as an object in JSON on standard output\n"},
    {"explain",
     "profile explain [NUMBER]\n"
     "\n"
     "Says what the number of an error means, as 20 of error[20], and what to do; without\n"
     "a number lists all.\n"},
    {"help", "profile help [SUBCOMMAND]\n\nSays what the subcommands are, or more of one of them.\n"},
};

/* Prints the help of a subcommand, and what all take; or of the whole, where it is null or has no help of its own. */
int print_help(const char *command) {
    for (size_t k = 0; command != NULL && k < sizeof texts / sizeof texts[0]; k++) {
        if (strcmp(texts[k].command, command) == 0) {
            printf("%s%s%s", texts[k].text, strstr(texts[k].text, "\n  -") == NULL ? "\n" : "", common);
            return finish_stdout();
        }
    }
    fputs(whole, stdout);
    return finish_stdout();
}

/* Prints the version. */
int print_version(void) {
    puts("profile " MONKEY_VERSION);
    return finish_stdout();
}

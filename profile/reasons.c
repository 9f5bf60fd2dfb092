/*
 * Why a text is no script, in words. The library has said that it is none, and where: only the tokens at that place and just before it are
 * looked at, and which brackets are open there; bytes, only where no token is. A reason is a guess about what was meant; that there is an
 * error, and its place, is none.
 */
#include <stdio.h>
#include <string.h>

#include "profile.h"

enum { NAME_LIMIT = 32, TOKEN_SHOWN = 40 };

/* Operators that the language lacks, the longest first, and what to write. */
static const struct {
    const char *text, *instead;
} lacked[] = {
    {"===", "it is =="}, {"!==", "it is !="}, {"<=", "a <= b is !(a > b)"}, {">=", "a >= b is !(a < b)"},
    {"&&", "a && b is if (a) { b } else { false }"}, {"||", "a || b is if (a) { true } else { b }"}, {"**", "write a product"},
    {"++", "a definition does not change"}, {"+=", "a definition does not change"}, {"-=", "a definition does not change"},
    {"*=", "a definition does not change"}, {"/=", "a definition does not change"}, {"%=", "a definition does not change"},
    {"=>", "a function is fn(a) { .. }"}, {"->", "a function is fn(a) { .. }"}, {"<>", "it is !="}, {":=", "a definition is let a = .."},
    {"<<", "write a product"}, {">>", "write a quotient"}, {"%", "the rest is a - a / b * b"}, {".", "an element is a[i]"},
    {"&", "a && b is if (a) { b } else { false }"}, {"|", "a || b is if (a) { true } else { b }"},
    {"?", "a ? b : c is if (a) { b } else { c }"}, {"^", NULL}, {"~", NULL}, {"@", NULL}, {"$", NULL}, {"\\", NULL},
};

/* The byte at an offset of the text; 0 behind it. */
static uint8_t byte_at(const struct message *m, size_t at) {
    return at < m->length ? m->text[at] : 0;
}

/* Whether a text stands at an offset. */
static int stands(const struct message *m, size_t at, const char *text) {
    size_t length = strlen(text);
    return at <= m->length && length <= m->length - at && memcmp(m->text + at, text, length) == 0;
}

/* The token before the place, but for blanks, and the one at it, each empty if there is none. */
static struct token before, here;

/* Finds them: behind each token before the place begins another, or the place. */
static void look_around(const struct message *m) {
    before = (struct token){0, 0, MONKEY_TOKEN_ENDED};
    here = next_token(m->text, m->length, 0);
    while (here.kind != MONKEY_TOKEN_ENDED && here.at < m->place) {
        before = here;
        here = next_token(m->text, m->length, before.end);
    }
}

/* Writes the token at the place, of a long one the beginning. */
static const char *token_text(const struct message *m) {
    char kept[TOKEN_SHOWN + 3];
    size_t whole = here.end - here.at, length = whole < TOKEN_SHOWN ? whole : TOKEN_SHOWN;
    memcpy(kept, m->text + here.at, length);
    strcpy(kept + length, length < whole ? ".." : "");
    return shown(kept);
}

/* Whether a token is a word: one of the language, or a name. */
static int is_word(uint32_t kind) {
    return kind <= MONKEY_TOKEN_FN ? kind != MONKEY_TOKEN_INTEGER && kind != MONKEY_TOKEN_STRING : kind == MONKEY_TOKEN_ELSE;
}

/* Whether a token opens a bracket. */
static int opens(uint32_t kind) {
    return kind >= MONKEY_TOKEN_OPEN_BRACE && kind <= MONKEY_TOKEN_OPEN_BRACKET;
}

/* Whether a token closes a bracket. */
static int closes(uint32_t kind) {
    return kind >= MONKEY_TOKEN_CLOSE_PAREN && kind <= MONKEY_TOKEN_CLOSE_BRACE;
}

/* Finds the innermost bracket that is open at the place: whether one is. */
static int find_bracket(struct message *m) {
    static size_t open[TEXT_LIMIT + 1];
    size_t count = 0;
    struct token t = next_token(m->text, m->length, 0);
    for (; t.kind != MONKEY_TOKEN_ENDED && t.at < m->place; t = next_token(m->text, m->length, t.end)) {
        if (opens(t.kind)) {
            open[count++] = t.at;
        } else if (closes(t.kind) && count > 0) {
            count--;
        }
    }
    m->note = count > 0 ? "this is not closed" : NULL;
    m->noted = count > 0 ? open[count - 1] : 0;
    return count > 0;
}

/* Writes the reason, and is true. */
#define SAY(m, ...) (snprintf((m)->reason, sizeof (m)->reason, __VA_ARGS__), 1)

/* Finds the last string before the place that goes over the end of a line: it may be the one that was not closed. */
static void note_string(struct message *m) {
    struct token t = next_token(m->text, m->length, 0);
    for (; t.kind != MONKEY_TOKEN_ENDED && t.at < m->place; t = next_token(m->text, m->length, t.end)) {
        if (t.kind == MONKEY_TOKEN_STRING && memchr(m->text + t.at, '\n', t.end - t.at) != NULL) {
            m->note = "this string goes on in another line";
            m->noted = t.at;
        }
    }
}

/* Whether a byte is a letter or `_`. */
static int is_letter(uint8_t b) {
    return (b >= 'a' && b <= 'z') || (b >= 'A' && b <= 'Z') || b == '_';
}

/* How many letters stand at the place. */
static size_t letters(const struct message *m) {
    size_t count = 0;
    while (is_letter(byte_at(m, m->place + count))) {
        count++;
    }
    return count;
}

/* Whether no token is at the place because of the length of the text: what stands there ends too far behind. A string there is closed. */
static int is_past_limit(const struct message *m) {
    uint32_t found[MONKEY_TOKEN_SIZE];
    if (m->length <= TEXT_LIMIT || (here.kind != MONKEY_TOKEN_ENDED && here.end <= TEXT_LIMIT)) {
        return 0;
    }
    if (m->place >= TEXT_LIMIT || m->text[m->place] == '"' || m->place + letters(m) > TEXT_LIMIT) {
        return 1;
    }
    uint64_t alone = monkey_next_token(m->text + m->place, m->length - m->place, 0, found, MONKEY_TOKEN_SIZE);
    return monkey_number(alone) != MONKEY_BAD_SCRIPT;
}

/* A string without its end, or a text that is too long. */
static int is_long(struct message *m) {
    if (byte_at(m, m->place) == '"' && memchr(m->text + m->place + 1, '"', m->length - m->place - 1) == NULL) {
        note_string(m);
        return SAY(m, "a string without its closing quote");
    }
    const char *least = m->length >= TEXT_ROOM ? "at least " : "";
    return is_past_limit(m) && SAY(m, "a script has at most %d bytes, and this has %s%zu", TEXT_LIMIT, least, m->length);
}

/* The text ends. The place is then moved to the end of what was last. */
static int is_early(struct message *m) {
    if (m->place < m->length) {
        return 0;
    }
    m->place = before.end;
    if (!find_bracket(m)) {
        return SAY(m, "the script ends where more was wanted");
    }
    unsigned line, column;
    position_of(m->text, m->length, m->noted, &line, &column);
    return SAY(m, "the script ends, and the %c of line %u, column %u is not closed", m->text[m->noted], line, column);
}

/* A byte that is no ASCII, or a control character. */
static int is_foreign(struct message *m) {
    uint8_t b = byte_at(m, m->place);
    char kept[5] = "";
    if (stands(m, m->place, "\xef\xbb\xbf")) {
        return SAY(m, "a byte order mark: save the script without it, as ASCII or plain UTF-8");
    }
    if (m->place == 0 && (stands(m, 0, "\xff\xfe") || stands(m, 0, "\xfe\xff"))) {
        return SAY(m, "a text in UTF-16: save the script as ASCII or plain UTF-8");
    }
    if (b < 0x20 || b == 0x7f) {
        return SAY(m, "a control character, byte %02x: outside strings only ASCII that prints, and blanks", b);
    }
    if (b < 0x80) {
        return 0;
    }
    size_t length = character(m->text + m->place, m->length - m->place);
    if (length == 0) {
        return SAY(m, "byte %02x: outside strings there is only ASCII", b);
    }
    memcpy(kept, m->text + m->place, length);
    return SAY(m, "'%s': outside strings there is only ASCII", kept);
}

/* A comment. */
static int is_comment(struct message *m) {
    size_t at = m->place;
    int behind_slash = before.kind == MONKEY_TOKEN_SLASH && before.end == at;
    int slashes = stands(m, at, "//") || stands(m, at, "/*") || (behind_slash && (stands(m, at, "/") || stands(m, at, "*")));
    return slashes || stands(m, at, "#") ? SAY(m, "comments are not part of the language") : 0;
}

/* A name that is too long, or has a digit. */
static int is_no_name(struct message *m) {
    if (letters(m) > NAME_LIMIT) {
        return SAY(m, "names have at most %d letters, and this has %zu", NAME_LIMIT, letters(m));
    }
    if (here.kind == MONKEY_TOKEN_INTEGER && is_word(before.kind) && before.end == m->place) {
        return SAY(m, "a digit behind a name: names have letters and _ alone");
    }
    return 0;
}

/* A fraction, a quote of another kind, an operator that the language lacks. */
static int is_lacked(struct message *m) {
    uint8_t b = byte_at(m, m->place);
    if (b == '.' && is_digit(byte_at(m, m->place + 1)) && !(is_word(before.kind) && before.end == m->place)) {
        return SAY(m, "numbers are integers: there are no fractions");
    }
    if (b == '\'' || b == '`') {
        return SAY(m, "strings stand in double quotes");
    }
    for (size_t k = 0; k < sizeof lacked / sizeof lacked[0]; k++) {
        const char *text = lacked[k].text, *instead = lacked[k].instead;
        for (size_t back = 0; back < strlen(text) && back <= m->place; back++) {
            if (stands(m, m->place - back, text)) {
                return SAY(m, "the language has no operator %s%s%s", text, instead == NULL ? "" : ": ", instead == NULL ? "" : instead);
            }
        }
    }
    return 0;
}

/* What cannot stand behind what is before it: a word of the language, a comma, the beginning of a statement. */
static int is_misplaced(struct message *m) {
    const char *token = token_text(m);
    switch (before.kind) {
    case MONKEY_TOKEN_LET:
        return SAY(m, "unexpected '%s': behind let stands a name", token);
    case MONKEY_TOKEN_FN:
        if (is_word(here.kind)) {
            return SAY(m, "unexpected '%s': a function has no name of its own: let %s = fn(..) { .. }", token, token);
        }
        return SAY(m, "unexpected '%s': behind if and fn stands (", token);
    case MONKEY_TOKEN_IF:
        return SAY(m, "unexpected '%s': behind if and fn stands (", token);
    case MONKEY_TOKEN_ELSE:
        return SAY(m, "unexpected '%s': behind else stands a block, { .. }", token);
    case MONKEY_TOKEN_COMMA:
        return closes(here.kind) && SAY(m, "unexpected '%s' behind a comma: nothing stands behind the last comma", token);
    case MONKEY_TOKEN_ENDED:
    case MONKEY_TOKEN_SEMICOLON:
    case MONKEY_TOKEN_OPEN_BRACE:
        return here.kind == MONKEY_TOKEN_SEMICOLON && SAY(m, "unexpected ';': there is no statement before it");
    default:
        break;
    }
    int named = is_word(before.kind) || before.kind == MONKEY_TOKEN_CLOSE_PAREN || before.kind == MONKEY_TOKEN_CLOSE_BRACKET;
    return here.kind == MONKEY_TOKEN_ASSIGN && named &&
           SAY(m, "unexpected '=': a definition is let NAME = .., a comparison ==; nothing else is assigned");
}

/* A bracket that closes another one than is open. */
static int is_crossed(struct message *m) {
    uint8_t b = byte_at(m, m->place);
    if (!closes(here.kind)) {
        return 0;
    }
    if (!find_bracket(m)) {
        return SAY(m, "unexpected '%c': no bracket is open", b);
    }
    uint8_t open = m->text[m->noted], pair = open == '(' ? ')' : open == '[' ? ']' : '}';
    m->note = pair == b ? NULL : m->note;
    return pair != b ? SAY(m, "unexpected '%c' where a %c is open", b, open) : 0;
}

/* Anything else. */
static void name_token(struct message *m) {
    const char *kind = here.kind == MONKEY_TOKEN_STRING ? "string " : here.kind == MONKEY_TOKEN_INTEGER ? "integer " :
                       here.kind == MONKEY_TOKEN_NAME ? "name " : is_word(here.kind) ? "word " : "";
    const char *quote = here.kind == MONKEY_TOKEN_STRING ? "" : "'";
    snprintf(m->reason, sizeof m->reason, "unexpected %s%s%s%s", kind, quote, token_text(m), quote);
}

/* The reason of a large integer. */
static void explain_integer(struct message *m) {
    const char *lowest = before.kind == MONKEY_TOKEN_MINUS && stands(m, m->place, "9223372036854775808") && !is_digit(byte_at(m, m->place + 19))
                             ? "; -9223372036854775808 has no text form: write -9223372036854775807 - 1" : "";
    snprintf(m->reason, sizeof m->reason, "integers are at most 9223372036854775807%s", lowest);
}

/* Finds where the statements of a text end that end in a ; and 0 as the first: how many these are, at most TEXT_LIMIT + 2. */
size_t find_ends(const uint8_t *text, size_t length, size_t *ends) {
    size_t count = 1, depth = 0;
    ends[0] = 0;
    struct token t = next_token(text, length, 0);
    for (; t.kind != MONKEY_TOKEN_ENDED; t = next_token(text, length, t.end)) {
        depth += (size_t)opens(t.kind);
        depth -= (size_t)closes(t.kind);
        if (t.kind == MONKEY_TOKEN_SEMICOLON && depth == 0) {
            ends[count++] = t.end;
        }
    }
    return count;
}

/* Finds the statement in which the tree of a text passes a limit: the first that, with those before it, is refused by the number too. */
static void find_statement(struct message *m, unsigned number) {
    static uint8_t tree[TREE_ROOM];
    static size_t ends[TEXT_LIMIT + 2];
    size_t count = find_ends(m->text, m->length, ends);
    size_t low = 0, high = count; /* what ends at low is taken; what ends at high is not, or is the whole */
    while (high - low > 1) {
        size_t middle = low + (high - low) / 2;
        int refused = monkey_number(monkey_read_text(m->text, ends[middle], tree, sizeof tree)) == number;
        low = refused ? low : middle;
        high = refused ? middle : high;
    }
    m->place = next_token(m->text, m->length, ends[low]).at;
}

/* Says why a text is no script: by the first of these that has something to say. */
static void explain_script(struct message *m) {
    static int (*const guesses[])(struct message *) = {is_long, is_early, is_foreign, is_comment, is_no_name, is_lacked, is_misplaced, is_crossed};
    for (size_t k = 0; k < sizeof guesses / sizeof guesses[0]; k++) {
        if (guesses[k](m)) {
            return;
        }
    }
    name_token(m);
}

/* Finds the reason of a text that is refused by its number, and the place: what was answered, or of a tree a statement. */
void find_reason(struct message *m, uint64_t answer) {
    m->place = monkey_value(answer);
    m->note = NULL;
    look_around(m);
    switch (monkey_number(answer)) {
    case MONKEY_BAD_SCRIPT:
        explain_script(m);
        return;
    case MONKEY_LARGE_INTEGER:
        explain_integer(m);
        return;
    case MONKEY_TOO_DEEP:
        find_statement(m, MONKEY_TOO_DEEP);
        snprintf(m->reason, sizeof m->reason, "too deep: in the statement that begins here more than 64 levels stand in one another");
        return;
    default:
        find_statement(m, MONKEY_OUTPUT_SHORT);
        snprintf(m->reason, sizeof m->reason, "too long: with the statement that begins here the script's tree passes 32768 bytes");
    }
}

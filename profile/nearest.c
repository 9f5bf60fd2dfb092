/*
 * The nearest of some words to one that was typed: the one that is had by the fewest changes. Each is a letter more, less or another, or two
 * neighbours in turned order.
 */
#include <string.h>

#include "profile.h"

enum { LONGEST = 32 }; /* words above it are near to none */

/* The least of three. */
static size_t least(size_t a, size_t b, size_t c) {
    size_t d = a < b ? a : b;
    return d < c ? d : c;
}

/* How many changes lead from one word to another; neither is longer than LONGEST. */
static size_t changes(const char *from, size_t rows, const char *to, size_t columns) {
    size_t table[LONGEST + 1][LONGEST + 1];
    for (size_t i = 0; i <= rows; i++) {
        for (size_t j = 0; j <= columns; j++) {
            if (i == 0 || j == 0) {
                table[i][j] = i + j;
                continue;
            }
            table[i][j] = least(table[i - 1][j] + 1, table[i][j - 1] + 1, table[i - 1][j - 1] + (from[i - 1] != to[j - 1]));
            if (i > 1 && j > 1 && from[i - 1] == to[j - 2] && from[i - 2] == to[j - 1] && table[i - 2][j - 2] + 1 < table[i][j]) {
                table[i][j] = table[i - 2][j - 2] + 1;
            }
        }
    }
    return table[rows][columns];
}

/* Begins a search for what is near to a word; of an option with a value in it, the part before the value. */
struct nearest nearest_to(const char *word) {
    struct nearest n = {word, strcspn(word, "="), NULL, 0};
    return n;
}

/* Takes a word into the search. It is near if about a third of the letters change, or fewer; of two that are as near the first is kept. */
void consider(struct nearest *n, const char *candidate) {
    size_t length = strlen(candidate);
    size_t longer = length > n->length ? length : n->length;
    if (longer > LONGEST) {
        return;
    }
    size_t distance = changes(n->word, n->length, candidate, length);
    if (distance <= (longer + 2) / 3 && distance < longer - 1 && (n->best == NULL || distance < n->distance)) {
        n->best = candidate;
        n->distance = distance;
    }
}

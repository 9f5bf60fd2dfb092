/*
 * Where literals stand in trees, images and sessions: a reading of document 01 that asks the library nothing.
 */
#ifndef PLACES_H
#define PLACES_H

#include <stddef.h>
#include <stdint.h>

/* What a byte is: none of a literal's, or of which literal. A code byte is the first of an instruction True or False. */
enum place { PLAIN, INTEGER, BOOLEAN, STRING, CODE };

/* Marks the literals' bytes that depth-first reading gets past before it ends or refuses, number 4 set aside. */
void tree_places(const uint8_t *tree, size_t length, uint8_t *places);

/* Marks the literal bytes of an image, in either form, or of a session, as far as they can be read; where the last field ends. */
size_t image_places(const uint8_t *image, size_t length, uint8_t *places);

#endif

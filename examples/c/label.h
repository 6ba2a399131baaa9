/* A label from the text of a command line, and chars printed: UTF-8 to the 16-bit chars of a drawing and back. */
#ifndef LABEL_H
#define LABEL_H

#include <stddef.h>
#include <stdint.h>

/* The text as UTF-16: its chars, for which there has to be room for as many as the text has bytes, and in count how many they are. 0 where
 * the text is not UTF-8. */
int label_of(const char *text, uint16_t *chars, size_t *count);

/* Prints so many chars of a table, one a word. */
void print_chars(const uint32_t *chars, size_t count);

#endif

/* Lines of a printed report, read back. */
#ifndef ROWS_H
#define ROWS_H

#include <stdint.h>
#include <string.h>

/* The line of a function: how many numbers it has, and which of them is the spill. */
#define FUNCTION_FIELDS 6
#define SPILL 4

/* The numbers in the line of a point. Once is the last, and only reports in blocks have it. */
enum { POINT, HIGH, DEAD, NEED, SAVE, RELOAD, LATER, CHAIN, COST, FILL, ONCE, POINT_FIELDS };

struct row {
    uint64_t field[POINT_FIELDS];
    int fields;
};

/*
 * Reads "  (", the word, numbers with one space before each, ")" and a line feed. Returns what follows, or NULL where the text does not begin with such a
 * line of at most POINT_FIELDS numbers. The text ends in a zero byte.
 */
static inline const char *row_of(const char *text, const char *word, struct row *row)
{
    row->fields = 0;
    if (strncmp(text, "  (", 3) != 0 || strncmp(text + 3, word, strlen(word)) != 0)
        return NULL;
    text += 3 + strlen(word);
    while (*text == ' ' && row->fields < POINT_FIELDS) {
        uint64_t value = 0;
        if (*++text < '0' || *text > '9')
            return NULL;
        for (; *text >= '0' && *text <= '9'; text++)
            value = 10 * value + (uint64_t)(*text - '0');
        row->field[row->fields++] = value;
    }
    return strncmp(text, ")\n", 2) == 0 ? text + 2 : NULL;
}

#endif

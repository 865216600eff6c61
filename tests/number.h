/* Whole numbers from a program's words: digits, with commas or underscores between them (20,000,000). Declares nothing of the C library. */
#ifndef NUMBER_H
#define NUMBER_H

#include <stdint.h>

/* Whether the word is such a number below 2^63; then it is in *number. */
static inline int number_of(const char *word, uint64_t *number)
{
    uint64_t value = 0;
    if (*word < '0' || *word > '9')
        return 0;
    for (; *word; word++) {
        if (*word == ',' || *word == '_')
            continue;
        if (*word < '0' || *word > '9' || value > UINT64_C(900000000000000000))
            return 0;
        value = 10 * value + (uint64_t)(*word - '0');
    }
    *number = value;
    return 1;
}

/* The words [COUNT [SEED]]: whether there are no others; each that is there is in its number. */
static inline int count_and_seed(int words, char **word, uint64_t *count, uint64_t *seed)
{
    return words <= 3 && (words < 2 || number_of(word[1], count)) && (words < 3 || number_of(word[2], seed));
}

#endif

/* Whole numbers in text. */
#include <stddef.h>

#include "natural.h"

enum taken take_number(const char **text, uint64_t most, uint64_t *number)
{
    const char *start = *text;
    int large = 0;
    *number = 0;
    for (; **text >= '0' && **text <= '9'; ++*text) {
        uint64_t digit = (uint64_t)(**text - '0');
        large = large || *number > most / 10 || (*number == most / 10 && digit > most % 10);
        *number = large ? 0 : 10 * *number + digit;
    }
    return *text == start ? NO_DIGIT : large ? TOO_LARGE : TAKEN;
}

const char *read_natural(const char *text, uint64_t most, uint64_t *number)
{
    enum taken taken = take_number(&text, most, number);
    return taken == NO_DIGIT || *text != '\0' ? "no whole number" : taken == TOO_LARGE ? "too large a number" : NULL;
}

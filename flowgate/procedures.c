/* The procedures of an accepted certificate. */
#include "procedures.h"

enum { SET = 32, FLOW, IMPLICATION, BEFORE, TABLE = 62, KINDS = 64, RULES = 64 };

/* How many parts follow a word of each kind; of kinds 32 to 35 the payload says it. */
static const unsigned char operands[KINDS] = {
    [3] = 2, [4] = 2, [8] = 2, [10] = 2, [11] = 2, [12] = 1, [18] = 3, [25] = 2, [26] = 1, [27] = 1, [28] = 1, [29] = 3, [30] = 2, [31] = 1,
};

/* How many items and children each rule has, of kinds 33, 34 and 35. */
static const unsigned char items[3][RULES] = {
    {[2] = 3, [6] = 6, [7] = 3, [8] = 3, [9] = 6, [11] = 1, [12] = 6, [13] = 1, [14] = 2},
    {[16] = 6, [17] = 5},
    {[20] = 4, [21] = 2, [23] = 3, [28] = 2, [30] = 2, [32] = 1},
};

static size_t parts_of(uint32_t word)
{
    unsigned kind = kind_of(word);
    unsigned payload = payload_of(word);
    if (kind == SET) {
        return 2 * (size_t)payload;
    }
    if (kind >= FLOW && kind <= BEFORE) {
        return items[kind - FLOW][payload % RULES];
    }
    return operands[kind];
}

/* The part that begins at a place, which becomes the one past it. */
static struct span take_part(const struct file *file, size_t *place)
{
    struct span span = {*place, *place};
    for (size_t due = 1; due > 0 && span.past < count_words(file); span.past++) {
        due += parts_of(word_at(file, span.past)) - 1;
    }
    *place = span.past;
    return span;
}

int find_procedures(const struct file *file, const struct settings *settings, struct table *table)
{
    size_t place = 1;
    table->count = 0;
    if (count_words(file) > 1 && kind_of(word_at(file, 1)) == TABLE) {
        if (payload_of(word_at(file, 1)) > MOST_PROCEDURES) {
            return 0;
        }
        table->count = payload_of(word_at(file, 1));
        place = 2;
    }
    for (size_t i = 0; i < table->count; i++) {
        struct procedure *procedure = &table->procedures[i];
        procedure->body = take_part(file, &place);
        procedure->precondition = take_part(file, &place);
        procedure->postcondition = take_part(file, &place);
        take_part(file, &place);
    }
    return place
        == flow_first(flow_program(file->bytes, file->count, settings->comparisons, settings->depth, settings->members));
}

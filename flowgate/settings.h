/* The settings that a program's options give: the most comparisons of an implication, the most depth of a word, the most members of a
 * set. An option that is not given leaves the standard value. */
#ifndef SETTINGS_H
#define SETTINGS_H

#include <stddef.h>
#include <stdint.h>
#include <stdio.h>

#include "file.h"
#include "options.h"

struct settings {
    size_t comparisons;
    size_t depth;
    size_t members;
};

/* The values of --comparisons, --depth and --members as they were given, or NULL. */
struct given_settings {
    const char *comparisons;
    const char *depth;
    const char *members;
};

/* For the text of --help. */
#define SETTINGS_HELP \
    "  --comparisons N       allow N distinct comparisons in an implication, " \
        FLOW_RANGE_COMPARISONS " (" FLOWCHECK_QUOTED(FLOW_STANDARD_COMPARISONS) " if not given),\n" \
    "  --depth N             words that are N deep, " FLOW_RANGE_DEPTH " (" FLOWCHECK_QUOTED(FLOW_STANDARD_DEPTH) "),\n" \
    "  --members N           and N members written in a set, " FLOW_RANGE_MEMBERS " (" FLOWCHECK_QUOTED(FLOW_STANDARD_MEMBERS) ")\n"

/* Reads the values that were given. BAD_USE: one is no whole number in its range, and it was told. */
enum command read_settings(const struct program *program, const struct given_settings *given, struct settings *settings);

/* Whether all are the standard values. */
int are_standard(const struct settings *settings);

/* The settings as `comparisons 10, depth 128, members 64`, and as a JSON object. */
void put_settings(const struct settings *settings, FILE *out);
void put_json_settings(const struct settings *settings, FILE *out);

/* The setting that a file's refusal comes from, as `depth 128; `; nothing for a refusal that comes from none. */
void put_exceeded(const struct settings *settings, const struct file *file, uint32_t number, uint32_t place, FILE *out);

#endif

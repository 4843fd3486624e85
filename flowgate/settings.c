/* The settings that a program's options give. */
#include "natural.h"
#include "settings.h"

/* The kind of a set's word, and that word where no member follows. */
enum { SET = 32 };
static const uint32_t empty_set = (uint32_t)SET << 26;

/* Reads one setting, if it was given. */
static enum command read_setting(const struct program *program, const char *text, size_t least, size_t most, const char *said, size_t *value)
{
    uint64_t number = 0;
    if (text == NULL) {
        return GO_ON;
    }
    if (read_natural(text, most, &number) != NULL || number < least) {
        return bad_use(program, text, said);
    }
    *value = (size_t)number;
    return GO_ON;
}

enum command read_settings(const struct program *program, const struct given_settings *given, struct settings *settings)
{
    const struct settings standard = {FLOW_STANDARD_SETTINGS};
    *settings = standard;
    enum command command = read_setting(program, given->comparisons, FLOW_LEAST_COMPARISONS, FLOW_MOST_COMPARISONS,
        "--comparisons is a whole number from " FLOW_RANGE_COMPARISONS, &settings->comparisons);
    if (command == GO_ON) {
        command = read_setting(program, given->depth, FLOW_LEAST_DEPTH, FLOW_MOST_DEPTH,
            "--depth is a whole number from " FLOW_RANGE_DEPTH, &settings->depth);
    }
    if (command == GO_ON) {
        command = read_setting(program, given->members, FLOW_LEAST_MEMBERS, FLOW_MOST_MEMBERS,
            "--members is a whole number from " FLOW_RANGE_MEMBERS, &settings->members);
    }
    return command;
}

int are_standard(const struct settings *settings)
{
    return settings->comparisons == FLOW_STANDARD_COMPARISONS && settings->depth == FLOW_STANDARD_DEPTH
        && settings->members == FLOW_STANDARD_MEMBERS;
}

void put_settings(const struct settings *settings, FILE *out)
{
    fprintf(out, "comparisons %zu, depth %zu, members %zu", settings->comparisons, settings->depth, settings->members);
}

void put_json_settings(const struct settings *settings, FILE *out)
{
    fprintf(out, "{\"comparisons\":%zu,\"depth\":%zu,\"members\":%zu}", settings->comparisons, settings->depth, settings->members);
}

/* Whether a 5 at this place is of a set's count: an empty set would be read there. A 5 where no set is due stays with an empty set.
 * Reading has no use for comparisons: with none allowed, judging what was read ends soon. */
static int has_many_members(const struct settings *settings, const struct file *file, uint32_t place)
{
    static struct file other;
    if (place >= count_words(file) || kind_of(word_at(file, place)) != SET || payload_of(word_at(file, place)) <= settings->members) {
        return 0;
    }
    other = *file;
    set_word_at(&other, place, empty_set);
    uint32_t answer = flow_check_settings(other.bytes, other.count, FLOW_LEAST_COMPARISONS, settings->depth, settings->members);
    return flow_number(answer) != 5 || flow_place(answer) != place;
}

void put_exceeded(const struct settings *settings, const struct file *file, uint32_t number, uint32_t place, FILE *out)
{
    if (number == 4) {
        fprintf(out, "depth %zu; ", settings->depth);
    } else if (number == 5 && has_many_members(settings, file, place)) {
        fprintf(out, "members %zu; ", settings->members);
    } else if (number == 9) {
        fprintf(out, "comparisons %zu; ", settings->comparisons);
    }
}

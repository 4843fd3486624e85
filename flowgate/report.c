/* What is written of a certificate. */
#include <stdio.h>
#include <string.h>

#include "report.h"
#include "text.h"

enum { NEIGHBOURS = 2 };

static void print_word(uint32_t word)
{
    printf("%u:%u", kind_of(word), payload_of(word));
}

/* The words about a place, the one at the place in brackets. */
static void print_words(const struct file *file, size_t place)
{
    size_t count = count_words(file);
    size_t i = place < NEIGHBOURS ? 0 : place - NEIGHBOURS;
    for (; i < count && i <= place + NEIGHBOURS; i++) {
        fputs(i == place ? " [" : " ", stdout);
        print_word(word_at(file, i));
        fputs(i == place ? "]" : "", stdout);
    }
    if (place >= count) {
        fputs(" [no word, the file ends]", stdout);
    }
}

static void print_refusal(const struct file *file, const struct settings *settings, uint32_t number, uint32_t place)
{
    printf("refused %u: %s; ", number, flow_meaning(number));
    put_exceeded(settings, file, number, place, stdout);
    if (number == 1 && file->count > FLOW_MOST_BYTES) {
        printf("over %d bytes; ", FLOW_MOST_BYTES);
    } else if (number == 1) {
        printf("%zu bytes; ", file->count);
    }
    printf("at word %u:", place);
    print_words(file, place);
    putchar('\n');
}

/* The word of the part and the ordered one, each as kind:payload, or that there is none. */
static void print_difference(const struct file *file, const struct file *ordered, const struct result *result)
{
    struct pieces pieces = find_part(file, result->settings, result->difference.part);
    size_t word = result->difference.word;
    printf("differs: word %zu of the %s is ", word, name_of(result->difference.part));
    if (word < count_part(&pieces)) {
        print_word(word_at(file, place_in(&pieces, word)));
    } else {
        fputs("no word", stdout);
    }
    fputs(", ordered is ", stdout);
    if (word < count_words(ordered)) {
        print_word(word_at(ordered, word));
    } else {
        fputs(4 * word < ordered->count ? "no whole word" : "no word", stdout);
    }
    putchar('\n');
}

/* The place of a result that has one: in the certificate. */
static size_t place_of(const struct file *file, const struct result *result)
{
    if (result->verdict == REFUSED) {
        return flow_place(result->answer);
    }
    struct pieces pieces = find_part(file, result->settings, result->difference.part);
    return place_in(&pieces, result->difference.word);
}

/* Settings that are not the standard ones are told, since the file may be accepted under no others. */
static void print_accepted(const struct result *result)
{
    printf(": accepted %u", flow_count(result->answer));
    if (!are_standard(result->settings)) {
        fputs(" under ", stdout);
        put_settings(result->settings, stdout);
    }
    putchar('\n');
}

void print_text(const char *name, const struct file *file, const struct file *ordered, const struct result *result)
{
    if (result->verdict == UNREADABLE) {
        complain("flowgate", name, strerror(result->error));
        return;
    }
    put_name(name, stdout);
    if (result->verdict == ACCEPTED) {
        print_accepted(result);
        return;
    }
    printf(":%zu: ", place_of(file, result));
    if (result->verdict == REFUSED) {
        print_refusal(file, result->settings, flow_number(result->answer), flow_place(result->answer));
    } else {
        print_difference(file, ordered, result);
    }
}

/* A word as a JSON string, or null where there is none. */
static void print_json_word(const struct file *file, size_t place, int there)
{
    if (there) {
        putchar('"');
        print_word(word_at(file, place));
        putchar('"');
    } else {
        fputs("null", stdout);
    }
}

static void print_json_difference(const struct file *file, const struct file *ordered, const struct result *result)
{
    struct pieces pieces = find_part(file, result->settings, result->difference.part);
    size_t word = result->difference.word;
    size_t place = place_in(&pieces, word);
    printf("\"differs\",\"number\":null,\"place\":%zu,\"count\":%u,\"meaning\":\"the %s is not as ordered\"", place,
        flow_count(result->answer), name_of(result->difference.part));
    printf(",\"part\":\"%s\",\"word\":%zu,\"is\":", name_of(result->difference.part), word);
    print_json_word(file, place, word < count_part(&pieces));
    fputs(",\"ordered\":", stdout);
    print_json_word(ordered, word, word < count_words(ordered));
}

void print_json(const char *name, const struct file *file, const struct file *ordered, const struct result *result)
{
    uint32_t answer = result->answer;
    fputs("{\"file\":", stdout);
    put_json(name, stdout);
    fputs(",\"verdict\":", stdout);
    if (result->verdict == ACCEPTED) {
        printf("\"accepted\",\"number\":null,\"place\":null,\"count\":%u,\"meaning\":null", flow_count(answer));
    } else if (result->verdict == REFUSED) {
        printf("\"refused\",\"number\":%u,\"place\":%u,\"count\":null,\"meaning\":", flow_number(answer), flow_place(answer));
        put_json(flow_meaning(flow_number(answer)), stdout);
    } else if (result->verdict == DIFFERS) {
        print_json_difference(file, ordered, result);
    } else {
        fputs("\"unreadable\",\"number\":null,\"place\":null,\"count\":null,\"meaning\":", stdout);
        put_json(strerror(result->error), stdout);
    }
    if (!are_standard(result->settings)) {
        fputs(",\"settings\":", stdout);
        put_json_settings(result->settings, stdout);
    }
    fputs("}\n", stdout);
}

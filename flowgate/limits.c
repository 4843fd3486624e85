/* Every call under settings other than the standard ones, with known answers (document 02, request [6]): each setting at the ends of its
 * range; 19 just outside, before all other refusals and with nothing changed that was lent; and files that are read or accepted only from
 * a setting on. What is lent lies in blocks of just its size, so that valgrind sees an access past it. It is C and C++ alike. Writes a
 * line for each answer that is wrong; exit status 0 if none is. */
#include <stdint.h>
#include <stdio.h>
#include <stdlib.h>
#include <string.h>

#include "flowcheck.h"

#define REFUSED(number, place) ((number) * 65536u + (place))
#define GIVEN(settings) settings.comparisons, settings.depth, settings.members

enum { SCALARS = FLOW_SCALARS, VALUES = FLOW_VALUES, LENT = 0x5a };

struct settings {
    size_t comparisons;
    size_t depth;
    size_t members;
};

/* What is lent for the calls: a file that is made word by word; as many masks as it has words; a store. */
static uint8_t made[FLOW_MOST_BYTES];
static size_t bytes;
static uint8_t *file;
static uint64_t *masks;
static int64_t *scalars;
static int64_t *values;
static int wrong;

static void expect(const char *what, struct settings settings, uint64_t got, uint64_t due)
{
    if (got != due) {
        printf("limits: %s under %zu, %zu, %zu: %llu, not %llu\n", what, settings.comparisons, settings.depth, settings.members,
            (unsigned long long)got, (unsigned long long)due);
        wrong = 1;
    }
}

static void *block(size_t size)
{
    void *room = malloc(size + (size == 0));
    if (room == NULL) {
        perror("limits");
        exit(1);
    }
    memset(room, LENT, size);
    return room;
}

static void lend(void)
{
    file = (uint8_t *)block(bytes);
    masks = (uint64_t *)block(bytes / 4 * sizeof(uint64_t));
    scalars = (int64_t *)block(SCALARS * sizeof(int64_t));
    values = (int64_t *)block(VALUES * sizeof(int64_t));
    memcpy(file, made, bytes);
}

static void give_back(void)
{
    free(file);
    free(masks);
    free(scalars);
    free(values);
}

/* Whether all these bytes are as they were lent. */
static int untouched(const void *lent, size_t size)
{
    const uint8_t *at = (const uint8_t *)lent;
    for (size_t i = 0; i < size; i++) {
        if (at[i] != LENT) {
            return 0;
        }
    }
    return 1;
}

static void expect_unchanged(const char *what, struct settings settings)
{
    expect(what, settings, memcmp(file, made, bytes) == 0, 1);
    expect(what, settings, (uint64_t)untouched(masks, bytes / 4 * sizeof(uint64_t)), 1);
    expect(what, settings, (uint64_t)untouched(scalars, SCALARS * sizeof(int64_t)), 1);
    expect(what, settings, (uint64_t)untouched(values, VALUES * sizeof(int64_t)), 1);
}

/* ---- files word by word */

static void put_word(uint32_t kind, uint32_t payload)
{
    for (int i = 0; i < 4; i++) {
        made[bytes++] = (uint8_t)((kind << 26 | payload) >> 8 * i);
    }
}

static void put_times(size_t times, uint32_t kind, uint32_t payload)
{
    for (; times > 0; times--) {
        put_word(kind, payload);
    }
}

static void begin(size_t words)
{
    bytes = 0;
    put_word(63, (uint32_t)words);
}

/* 63:5 24:0 32:0 32:0 33:1 */
static void make_skip(void)
{
    begin(5);
    put_word(24, 0);
    put_times(2, 32, 0);
    put_word(33, 1);
}

/* An assert whose test is true and nests to this depth: the word at place p has depth p. */
static void make_deep(size_t depth)
{
    begin(depth + 4);
    put_word(26, 0);
    put_times(depth - 2, 12, 0);
    put_word(9, depth % 2 == 0);
    put_times(2, 32, 0);
    put_word(33, 10);
}

/* Skip, with so many members true => 0 in its precondition, from place 2, and in its postcondition. */
static void make_set(size_t members)
{
    begin(4 * members + 5);
    put_word(24, 0);
    for (int i = 0; i < 2; i++) {
        put_word(32, (uint32_t)members);
        for (size_t member = 0; member < members; member++) {
            put_word(9, 1);
            put_word(1, 0);
        }
    }
    put_word(33, 1);
}

/* A set of one member for x9, under x0 < 0 and .. and x0 < k - 1. */
static void put_conjunction(uint32_t k)
{
    put_word(32, 1);
    for (uint32_t i = 0; i < k; i++) {
        put_times(i + 1 < k, 10, 0);
        put_word(8, 1);
        put_word(2, 0);
        put_word(1, i);
    }
    put_word(2, 9);
}

/* Skip, by rule 7 and set rule 18: that k comparisons imply the first of them. The place of set rule 18 is 8 * k + 10. */
static void make_implication(uint32_t k)
{
    begin(8 * k + 12);
    put_word(24, 0);
    put_conjunction(1);
    put_conjunction(k);
    put_word(33, 7);
    put_conjunction(k);
    put_word(34, 18);
    put_word(33, 1);
}

/* ---- the calls */

/* The checks, and the calls for the parts, which are there only of an accepted file; the program is from word 1 on. */
static void check(const char *what, struct settings settings, uint32_t answer)
{
    lend();
    expect(what, settings, flow_check_settings(file, bytes, GIVEN(settings)), answer);
    expect(what, settings, flow_check_settings_bytes(file, bytes, GIVEN(settings)), answer);
    expect(what, settings, flow_first(flow_program(file, bytes, GIVEN(settings))), (uint64_t)flow_accepted(answer));
    uint32_t past = flow_past(flow_program(file, bytes, GIVEN(settings)));
    expect(what, settings, flow_first(flow_precondition(file, bytes, GIVEN(settings))), past);
    past = flow_past(flow_precondition(file, bytes, GIVEN(settings)));
    expect(what, settings, flow_first(flow_postcondition(file, bytes, GIVEN(settings))), past);
    expect(what, settings, past != 0, (uint64_t)flow_accepted(answer));
    expect_unchanged(what, settings);
    expect(what, settings, flow_check_masks(file, bytes, masks, bytes / 4, GIVEN(settings)), answer);
    expect(what, settings, (uint64_t)untouched(masks, bytes / 4 * sizeof(uint64_t)), !flow_stored(answer));
    give_back();
}

/* A run of one step. */
static void run(const char *what, struct settings settings, uint32_t answer)
{
    uint64_t steps = answer == 0;
    lend();
    expect(what, settings, flow_run(file, bytes, scalars, SCALARS, values, VALUES, 1, GIVEN(settings)), steps << 32 | answer);
    expect_unchanged(what, settings);
    give_back();
}

/* Puts an assert at place 1 whose test nests one deeper than that of the file, to this depth. */
static void put_deeper(const char *what, struct settings settings, size_t depth, uint32_t answer)
{
    bytes = 0;
    put_word(26, 0);
    put_times(depth - 2, 12, 0);
    put_word(9, 1);
    size_t k = bytes;
    uint8_t *command = (uint8_t *)block(k);
    memcpy(command, made, k);
    begin(depth + 4);
    put_word(26, 0);
    put_word(10, 0);
    put_times(depth - 4, 12, 0);
    put_times(2, 9, 1);
    put_times(2, 32, 0);
    put_word(33, 10);
    lend();
    expect(what, settings, flow_put(file, bytes, masks, bytes / 4, 1, command, k, GIVEN(settings)), answer);
    if (flow_was_put(answer)) {
        expect(what, settings, memcmp(file + 4, command, k) == 0, 1);
    } else {
        expect_unchanged(what, settings);
    }
    give_back();
    free(command);
}

/* ---- the cases */

/* 19, from every call, on the file made; other refusals would follow: masks and a store that are too few, a budget that is too large, a
 * place of no command. */
static void refuse(const char *what, struct settings settings)
{
    uint8_t *command = (uint8_t *)block(4);
    lend();
    expect(what, settings, flow_check_settings(file, bytes, GIVEN(settings)), REFUSED(19, 0));
    expect(what, settings, flow_check_settings_bytes(NULL, 0, GIVEN(settings)), REFUSED(19, 0));
    expect(what, settings, flow_program(file, bytes, GIVEN(settings)), 0);
    expect(what, settings, flow_precondition(file, bytes, GIVEN(settings)), 0);
    expect(what, settings, flow_postcondition(file, bytes, GIVEN(settings)), 0);
    for (size_t less = 0; less < 2 && less <= bytes / 4; less++) {
        expect(what, settings, flow_check_masks(file, bytes, masks, bytes / 4 - less, GIVEN(settings)), REFUSED(19, 0));
        expect(what, settings, flow_put(file, bytes, masks, bytes / 4 - less, 1, command, 4, GIVEN(settings)), REFUSED(19, 0));
        expect(what, settings, flow_run(file, bytes, scalars, SCALARS - less, values, VALUES, 1, GIVEN(settings)), REFUSED(19, 0));
    }
    expect(what, settings, flow_check_masks_bytes(NULL, 0, NULL, 0, GIVEN(settings)), REFUSED(19, 0));
    expect(what, settings, flow_put_bytes(NULL, 0, NULL, 0, 0, NULL, 0, GIVEN(settings)), REFUSED(19, 0));
    expect(what, settings, flow_run_bytes(NULL, 0, NULL, 0, NULL, 0, SIZE_MAX, GIVEN(settings)), REFUSED(19, 0));
    expect_unchanged(what, settings);
    give_back();
    free(command);
}

static void outside(void)
{
    static const struct settings none[] = {
        {17, 128, 64}, {10, 0, 64}, {10, 257, 64}, {10, 128, 129}, {17, 0, 129}, {SIZE_MAX, 128, 64}, {10, SIZE_MAX, 64},
        {10, 128, SIZE_MAX}, {SIZE_MAX, SIZE_MAX, SIZE_MAX}, {266, 384, 320}, {(size_t)1 << 32, 128, 64}, {10, ((size_t)1 << 32) + 128, 64},
    };
    for (size_t i = 0; i < sizeof none / sizeof none[0]; i++) {
        make_skip();
        refuse("a file that reads", none[i]);
        bytes = 0;
        refuse("19 before 1", none[i]);
        bytes = 4;
        memset(made, 0, bytes);
        refuse("19 before 2", none[i]);
    }
}

static void inside(void)
{
    static const struct settings some[] = {
        {FLOW_STANDARD_SETTINGS}, {FLOW_MOST_SETTINGS}, {0, 1, 0}, {0, 128, 64}, {16, 128, 64}, {10, 1, 64}, {10, 256, 64}, {10, 128, 0},
        {10, 128, 128}, {16, 1, 0}, {0, 256, 128},
    };
    for (size_t i = 0; i < sizeof some / sizeof some[0]; i++) {
        make_skip();
        check("skip", some[i], 1);
        run("a run of skip", some[i], 0);
        bytes = 0;
        check("no file", some[i], REFUSED(1, 0));
        run("a run of no file", some[i], REFUSED(1, 0));
    }
}

/* From the setting that a file needs on it is accepted; one below, it is refused. The runner reads alike, and judges nothing. */
static void needed(void)
{
    for (size_t depth = 127; depth <= 256; depth += depth == 129 ? 126 : 1) {
        struct settings enough = {10, depth, 64};
        struct settings less = {10, depth - 1, 64};
        make_deep(depth);
        check("deep", enough, 1);
        check("deep, one less", less, REFUSED(4, (uint32_t)depth));
        run("a deep run", enough, 0);
        run("a deep run, one less", less, REFUSED(4, (uint32_t)depth));
        put_deeper("put deep", enough, depth, 0);
        put_deeper("put deep, one less", less, depth, REFUSED(18, 0));
    }
    for (size_t members = 1; members <= 128; members += members == 1 || members == 65 ? 62 : 1) {
        struct settings enough = {10, 128, members};
        struct settings less = {10, 128, members - 1};
        make_set(members);
        check("set", enough, 1);
        check("set, one less", less, REFUSED(5, 2));
        run("a run with a set", enough, 0);
        run("a run with a set, one less", less, REFUSED(5, 2));
    }
    for (uint32_t k = 1; k <= 16; k++) {
        struct settings enough = {k, 128, 64};
        struct settings less = {k - 1, 128, 64};
        make_implication(k);
        check("implication", enough, 3);
        check("implication, one less", less, REFUSED(9, 8 * k + 10));
        run("a run with an implication", less, 0);
    }
}

/* One more than the largest settings allow. */
static void beyond(void)
{
    struct settings most = {FLOW_MOST_SETTINGS};
    make_deep(257);
    check("depth 257", most, REFUSED(4, 257));
    run("a run of depth 257", most, REFUSED(4, 257));
    put_deeper("put to depth 257", most, 257, REFUSED(18, 0));
    make_set(129);
    check("129 members", most, REFUSED(5, 2));
    run("a run with 129 members", most, REFUSED(5, 2));
    make_implication(17);
    check("17 comparisons", most, REFUSED(9, 146));
}

/* flow_check takes no settings: it answers as under the standard ones. */
static void without_settings(void)
{
    struct settings standard = {FLOW_STANDARD_SETTINGS};
    make_deep(128);
    expect("flow_check, depth 128", standard, flow_check(made, bytes), 1);
    make_deep(129);
    expect("flow_check, depth 129", standard, flow_check(made, bytes), REFUSED(4, 129));
    make_set(64);
    expect("flow_check, 64 members", standard, flow_check(made, bytes), 1);
    make_set(65);
    expect("flow_check, 65 members", standard, flow_check(made, bytes), REFUSED(5, 2));
    make_implication(10);
    expect("flow_check, 10 comparisons", standard, flow_check(made, bytes), 3);
    make_implication(11);
    expect("flow_check, 11 comparisons", standard, flow_check(made, bytes), REFUSED(9, 98));
}

int main(void)
{
    outside();
    inside();
    needed();
    beyond();
    without_settings();
    return wrong;
}

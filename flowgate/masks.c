/* flow_check_masks and flow_put with known answers: each refusal in its order, the masks of every kind of command, what is changed and
 * what is not, and the header's functions about them, all under the standard settings (limits.c has others). The rows of tests/calls.tsv are
 * run elsewhere. What is lent lies in blocks of just its size, so that valgrind sees an access past it. It is C and C++ alike. Writes a
 * line for each answer that is wrong; exit status 0 if none is. */
#include <stdint.h>
#include <stdio.h>
#include <stdlib.h>
#include <string.h>

#include "flowcheck.h"

#define STANDARD FLOW_STANDARD_SETTINGS
#define REFUSED(number, place) ((number) * 65536 + (place))

/* The bytes of a file, and one word more. */
enum { MOST = FLOW_MOST_BYTES + 4 };

/* What is lent for a call. */
struct lent {
    uint8_t *file;
    size_t count;
    uint64_t *masks;
    size_t n;
};

static int wrong;

static void expect(const char *what, uint64_t got, uint64_t due)
{
    if (got != due) {
        printf("masks: %s: %llu, not %llu\n", what, (unsigned long long)got, (unsigned long long)due);
        wrong = 1;
    }
}

/* The bytes of the words kind:payload in the text, and how many. */
static size_t bytes_of(const char *text, uint8_t *bytes)
{
    size_t count = 0;
    while (*text != '\0') {
        char *end;
        uint32_t word = (uint32_t)strtoul(text, &end, 10) << 26;
        word |= (uint32_t)strtoul(end + 1, &end, 10);
        for (int i = 0; i < 4; i++) {
            bytes[count++] = (uint8_t)(word >> 8 * i);
        }
        text = end + strspn(end, " ");
    }
    return count;
}

static void *block(size_t size)
{
    void *made = malloc(size + (size == 0));
    if (made == NULL) {
        perror("masks");
        exit(1);
    }
    return made;
}

/* What the number at a place is before a call: no mask of these files, and no two are alike. */
static uint64_t as_lent(size_t place)
{
    return 0x5a5a5a5a00000000u + place;
}

static struct lent lend(const uint8_t *bytes, size_t count, size_t n)
{
    struct lent lent;
    lent.file = (uint8_t *)block(count);
    lent.count = count;
    lent.masks = (uint64_t *)block(n * sizeof(uint64_t));
    lent.n = n;
    memcpy(lent.file, bytes, count);
    for (size_t i = 0; i < n; i++) {
        lent.masks[i] = as_lent(i);
    }
    return lent;
}

static void give_back(struct lent lent)
{
    free(lent.file);
    free(lent.masks);
}

/* The number at each place is as the text says, PLACE=MASK in hexadecimal, and 0 at the other words of the file; past these, and
 * everywhere if there is no text, it is as lent. */
static void expect_masks(const char *what, struct lent lent, const char *masks)
{
    for (size_t i = 0; i < lent.n; i++) {
        uint64_t due = masks != NULL && i < lent.count / 4 ? 0 : as_lent(i);
        char *end;
        if (masks != NULL && *masks != '\0' && strtoul(masks, &end, 10) == i) {
            due = strtoull(end + 1, &end, 16);
            masks = end + strspn(end, " ");
        }
        expect(what, lent.masks[i], due);
    }
    expect(what, masks == NULL || *masks == '\0', 1);
}

static void expect_file(const char *what, struct lent lent, const uint8_t *bytes)
{
    expect(what, memcmp(lent.file, bytes, lent.count) == 0, 1);
}

/* ---- the check */

/* A file, how many numbers are lent, the answer, and the masks afterwards, or NULL where they are as lent. */
struct check {
    const char *what;
    const char *file;
    size_t n;
    uint32_t answer;
    const char *masks;
};

static const struct check checks[] = {
    {"1 before 17", "", 0, REFUSED(1, 0), NULL},
    {"2 before 17", "63:4 24:0 32:0 32:0 33:1", 0, REFUSED(2, 0), NULL},
    {"17 before 3", "63:4 24:0 32:0 32:0", 3, REFUSED(17, 0), NULL},
    {"17 before 5", "63:5 24:1 32:0 32:0 33:1", 4, REFUSED(17, 0), NULL},
    {"17 before 6", "63:6 24:0 32:0 32:0 33:1 24:0", 5, REFUSED(17, 0), NULL},
    {"17 before 16", "63:5 38:0 32:0 32:0 33:10", 4, REFUSED(17, 0), NULL},
    {"17 before 7", "63:6 31:33 24:0 32:0 32:0 33:10", 5, REFUSED(17, 0), NULL},
    {"17 before 8", "63:6 27:0 1:1 32:0 32:0 33:1", 5, REFUSED(17, 0), NULL},
    {"3", "63:4 24:0 32:0 32:0", 4, REFUSED(3, 4), NULL},
    {"5", "63:5 24:1 32:0 32:0 33:1", 9, REFUSED(5, 1), NULL},
    {"6 before 16", "63:6 38:0 32:0 32:0 33:10 24:0", 6, REFUSED(6, 5), NULL},
    {"16 before 7", "63:6 31:33 38:0 32:0 32:0 33:10", 6, REFUSED(16, 2), NULL},
    {"7 before 8", "63:6 31:33 24:0 32:0 32:0 33:1", 7, REFUSED(7, 1), NULL},
    {"8, stored", "63:6 28:7 17:0 32:0 32:0 33:1", 8, REFUSED(8, 5), "1=8000000000"},
    {"8 of a procedure, stored", "63:11 62:1 27:3 1:0 32:0 32:0 33:1 38:0 32:0 32:0 33:10", 12, REFUSED(8, 6), "2=8 7=8"},
    {"every simple and compound command",
        "63:27 25:0 26:0 9:1 25:0 27:31 1:0 25:0 28:31 17:0 25:0 29:0 9:1 27:0 1:0 28:0 17:0 25:0 30:0 9:0 27:5 1:0 31:98 24:0 32:0 32:0 33:10",
        29, 1,
        "1=8000000180000025 4=8000000180000025 5=80000000 7=8000000100000025 8=8000000000000000 10=100000025 11=100000001 13=1 "
        "15=100000000 17=24 18=20 20=20 22=4"},
    {"calls within calls",
        "63:19 62:2 27:4 1:0 32:0 32:0 33:10 25:0 38:0 28:1 17:0 32:0 32:0 33:10 31:296 38:1 32:0 32:0 33:10", 19, 3,
        "2=10 7=200000010 8=10 9=200000000 14=200000110 15=200000010"},
    {"a carried command with a call",
        "63:26 62:1 28:3 17:0 32:0 32:0 33:10 31:32 38:0 32:0 32:0 33:14 25:0 27:0 1:1 30:0 8:2 2:0 2:1 25:0 38:0 27:0 3:0 2:0 1:1 33:10",
        30, 3, "2=800000000 7=800000001 8=800000000 12=800000001 13=1 15=800000001 19=800000001 20=800000000 21=1"},
};

/* Apart from 17 the answer is that of flow_check, and the file is as lent. */
static void check_bytes(const char *what, const uint8_t *bytes, size_t count, size_t n, uint32_t answer, const char *masks)
{
    struct lent lent = lend(bytes, count, n);
    expect(what, flow_check_masks(lent.file, lent.count, lent.masks, lent.n, STANDARD), answer);
    expect_masks(what, lent, masks);
    expect_file(what, lent, bytes);
    if (flow_number(answer) != 17) {
        expect(what, flow_check(lent.file, lent.count), answer);
    }
    expect(what, (uint64_t)flow_stored(answer), masks != NULL);
    give_back(lent);
}

static void check_cases(void)
{
    static uint8_t bytes[MOST];
    for (size_t i = 0; i < sizeof checks / sizeof checks[0]; i++) {
        size_t count = bytes_of(checks[i].file, bytes);
        check_bytes(checks[i].what, bytes, count, checks[i].n, checks[i].answer, checks[i].masks);
    }
    bytes_of("63:5 24:0 32:0 32:0 33:1", bytes);
    check_bytes("7 bytes", bytes, 7, 0, REFUSED(1, 0), NULL);
    check_bytes("19 bytes", bytes, 19, 8, REFUSED(1, 0), NULL);
    memset(bytes, 0, sizeof bytes);
    check_bytes("32,768 bytes", bytes, FLOW_MOST_BYTES, 0, REFUSED(2, 0), NULL);
    check_bytes("32,772 bytes", bytes, FLOW_MOST_BYTES + 4, 9, REFUSED(1, 0), NULL);
}

/* ---- the workbench call */

/* A file, how many numbers are lent, the place, the new command, the answer, and the masks afterwards if it is put. */
struct put {
    const char *what;
    const char *file;
    size_t n;
    size_t place;
    const char *command;
    uint32_t answer;
    const char *masks;
};

/* assert true; (x2 := 7; skip), and others with one of its commands changed; a `for` over x5 up to x6; the same, its body in a procedure */
#define SMALL "63:11 25:0 26:0 9:1 25:0 27:2 1:7 24:0 32:0 32:0 33:10"
#define THREE "63:9 25:0 26:0 12:0 9:1 24:0 32:0 32:0 33:10"
#define LOOP "63:7 31:197 27:0 1:1 32:0 32:0 33:10"
#define CALLED "63:12 62:1 27:0 1:1 32:0 32:0 33:10 31:197 38:0 32:0 32:0 33:10"
#define CARRIED "63:20 31:32 24:0 32:0 32:0 33:14 25:0 27:0 1:1 30:0 8:2 2:0 2:1 25:0 24:0 27:0 3:0 2:0 1:1 33:10"

/* The refusals of the file come before 18. */
static const struct put unread[] = {
    {"put: 1", "", 0, 999, "", REFUSED(1, 0), NULL},
    {"put: 2 before 17", "63:4 24:0 32:0 32:0 33:1", 0, 999, "", REFUSED(2, 0), NULL},
    {"put: 17 before 3", "63:4 24:0 32:0 32:0", 3, 1, "24:0", REFUSED(17, 0), NULL},
    {"put: 17 before 18", SMALL, 10, 999, "", REFUSED(17, 0), NULL},
    {"put: 3", "63:4 24:0 32:0 32:0", 4, 1, "24:0", REFUSED(3, 4), NULL},
    {"put: 5", "63:5 24:1 32:0 32:0 33:1", 5, 1, "24:0", REFUSED(5, 1), NULL},
    {"put: 6 before 16", "63:6 38:0 32:0 32:0 33:10 24:0", 6, 5, "24:0", REFUSED(6, 5), NULL},
    {"put: 16 before 7", "63:6 31:33 38:0 32:0 32:0 33:10", 6, 2, "24:0", REFUSED(16, 2), NULL},
    {"put: 7", "63:7 31:32 27:0 1:1 32:0 32:0 33:10", 7, 2, "27:2 1:1", REFUSED(7, 1), NULL},
};

/* 18: the place, the new command, the lengths, the file so changed. */
static const struct put refused[] = {
    {"place of word 0", SMALL, 11, 0, "24:0", REFUSED(18, 0), NULL},
    {"place of a sequence", SMALL, 11, 1, "24:0", REFUSED(18, 0), NULL},
    {"place of an assert's test", SMALL, 11, 3, "24:0", REFUSED(18, 0), NULL},
    {"place of a set", SMALL, 11, 8, "24:0", REFUSED(18, 0), NULL},
    {"place of evidence", SMALL, 11, 10, "24:0", REFUSED(18, 0), NULL},
    {"place past the words", SMALL, 20, 11, "24:0", REFUSED(18, 0), NULL},
    {"largest place", SMALL, 11, SIZE_MAX, "24:0", REFUSED(18, 0), NULL},
    {"a place that times 4 is that of byte 28", SMALL, 11, SIZE_MAX / 4 + 8, "24:0", REFUSED(18, 0), NULL},
    {"place of a call", CALLED, 12, 8, "24:0", REFUSED(18, 0), NULL},
    {"place of a while", "63:7 30:0 9:1 24:0 32:0 32:0 33:10", 7, 1, "26:0 12:0 9:1", REFUSED(18, 0), NULL},
    {"place of an if", "63:8 29:0 9:1 24:0 24:0 32:0 32:0 33:10", 8, 1, "26:0 12:0 12:0 9:1", REFUSED(18, 0), NULL},
    {"place of a for", "63:6 31:32 24:0 32:0 32:0 33:10", 6, 1, "27:7 1:1", REFUSED(18, 0), NULL},
    {"place of a table", CALLED, 12, 1, "24:0", REFUSED(18, 0), NULL},
    {"no command", SMALL, 11, 7, "", REFUSED(18, 0), NULL},
    {"an expression", SMALL, 11, 7, "9:1", REFUSED(18, 0), NULL},
    {"a call for skip", "63:10 62:1 24:0 32:0 32:0 33:10 24:0 32:0 32:0 33:10", 10, 6, "38:0", REFUSED(18, 0), NULL},
    {"a while for an assert", THREE, 9, 2, "30:0 9:1 24:0", REFUSED(18, 0), NULL},
    {"a for for an assert", SMALL, 11, 2, "31:32 24:0", REFUSED(18, 0), NULL},
    {"a skip, and a sequence that reads on", THREE, 9, 2, "24:0 25:0 24:0", REFUSED(18, 0), NULL},
    {"a command and a word", SMALL, 11, 5, "24:0 27:2", REFUSED(18, 0), NULL},
    {"a command that ends too early", SMALL, 11, 5, "27:2 3:0", REFUSED(18, 0), NULL},
    {"a longer one", SMALL, 11, 5, "27:2 3:0 1:1 1:1", REFUSED(18, 0), NULL},
    {"a shorter one", THREE, 9, 2, "26:0 9:0", REFUSED(18, 0), NULL},
    {"skip with a payload", SMALL, 11, 7, "24:1", REFUSED(18, 0), NULL},
    {"array 32", SMALL, 11, 5, "28:32 17:0", REFUSED(18, 0), NULL},
    {"an array for a scalar", SMALL, 11, 5, "27:2 17:0", REFUSED(18, 0), NULL},
    {"q of the for", LOOP, 7, 2, "27:5 1:1", REFUSED(18, 0), NULL},
    {"m of the for", LOOP, 7, 2, "27:6 1:1", REFUSED(18, 0), NULL},
    {"q of a for that calls", CALLED, 12, 2, "27:5 1:1", REFUSED(18, 0), NULL},
    {"m of a for that calls", CALLED, 12, 2, "27:6 1:1", REFUSED(18, 0), NULL},
};

static const struct put done[] = {
    {"assert for assert", SMALL, 11, 2, "26:0 9:0", 0, "1=4 4=4 5=4"},
    {"scalar for assert", SMALL, 13, 2, "27:31 2:9", 0, "1=80000004 2=80000000 4=4 5=4"},
    {"array for scalar", SMALL, 11, 5, "28:31 16:0", 0, "1=8000000000000000 4=8000000000000000 5=8000000000000000"},
    {"assert for scalar", SMALL, 11, 5, "26:0 9:1", 0, ""},
    {"skip for skip", SMALL, 11, 7, "24:0", 0, "1=4 4=4 5=4"},
    {"the words that are there", SMALL, 12, 5, "27:2 1:7", 0, "1=4 4=4 5=4"},
    {"another constant", SMALL, 11, 5, "27:2 1:67108863", 0, "1=4 4=4 5=4"},
    {"three words", THREE, 9, 2, "26:0 12:0 9:0", 0, ""},
    {"neither q nor m", LOOP, 7, 2, "27:7 1:1", 0, "1=a0 2=80"},
    {"array with q's number", LOOP, 9, 2, "28:5 17:0", 0, "1=2000000020 2=2000000000"},
    {"in a procedure", CALLED, 15, 2, "28:6 17:0", 0, "2=4000000000 7=4000000020 8=4000000000"},
    {"in a carried command", CARRIED, 20, 7, "27:9 1:1", 0, "1=1 6=201 7=200 9=1 13=1 15=1"},
    {"in a file that 8 refuses", "63:6 27:0 1:1 32:0 32:0 33:1", 8, 1, "28:0 17:0", 0, "1=100000000"},
};

/* If it is put, the masks are those of a fresh check of the changed file, whose other words are as they were; if not, nothing is changed. */
static void put_bytes(const struct put *put, const uint8_t *bytes, size_t count, const uint8_t *command, size_t k)
{
    struct lent lent = lend(bytes, count, put->n);
    struct lent fresh;
    uint8_t *copy = (uint8_t *)block(k);
    memcpy(copy, command, k);
    expect(put->what, flow_put(lent.file, lent.count, lent.masks, lent.n, put->place, copy, k, STANDARD), put->answer);
    expect_masks(put->what, lent, put->masks);
    fresh = lend(bytes, count, put->n);
    if (flow_was_put(put->answer)) {
        memcpy(fresh.file + 4 * put->place, command, k);
        expect(put->what, (uint64_t)flow_stored(flow_check_masks(fresh.file, count, fresh.masks, fresh.n, STANDARD)), 1);
    }
    expect_file(put->what, lent, fresh.file);
    expect(put->what, memcmp(lent.masks, fresh.masks, lent.n * sizeof(uint64_t)) == 0, 1);
    expect(put->what, memcmp(copy, command, k) == 0, 1);
    free(copy);
    give_back(fresh);
    give_back(lent);
}

static void put_cases(const struct put *cases, size_t number)
{
    static uint8_t bytes[MOST];
    static uint8_t command[MOST];
    for (size_t i = 0; i < number; i++) {
        size_t count = bytes_of(cases[i].file, bytes);
        put_bytes(&cases[i], bytes, count, command, bytes_of(cases[i].command, command));
    }
}

/* Bytes that are no whole words, of the file and of the command. */
static void put_cut(void)
{
    static const struct put cut = {"a command cut", SMALL, 11, 5, "", REFUSED(18, 0), NULL};
    static const struct put cut_file = {"a file cut", SMALL, 11, 5, "", REFUSED(1, 0), NULL};
    uint8_t bytes[64];
    uint8_t command[12];
    size_t count = bytes_of(SMALL, bytes);
    bytes_of("27:2 1:8 24:0", command);
    put_bytes(&cut, bytes, count, command, 7);
    put_bytes(&cut, bytes, count, command, 9);
    put_bytes(&cut, bytes, count, command, 1);
    put_bytes(&cut_file, bytes, count - 1, command, 8);
}

/* ---- limits */

static char *repeat(char *at, const char *text, int times)
{
    for (; times > 0; times--) {
        at += sprintf(at, "%s", text);
    }
    return at;
}

/* Refusal 4, and 17 before it. */
static void check_deep(void)
{
    static char file[1024];
    static uint8_t bytes[1024];
    size_t count;
    strcpy(repeat(repeat(file, "63:133 26:0 ", 1), "12:0 ", 127), "9:1 32:0 32:0 33:10");
    count = bytes_of(file, bytes);
    check_bytes("17 before 4", bytes, count, 132, REFUSED(17, 0), NULL);
    check_bytes("4", bytes, count, 133, REFUSED(4, 129), NULL);
}

/* Refusal 9 leaves the masks stored. */
static void check_large(void)
{
    static char file[2048];
    static uint8_t bytes[2048];
    char *at = repeat(file, "63:97 27:3 1:0 32:0", 1);
    for (int i = 0; i < 2; i++) {
        at = repeat(at, i == 0 ? " 32:1" : " 33:7 32:1", 1);
        for (int constant = 0; constant < 11; constant++) {
            at += sprintf(at, "%s 8:0 2:0 1:%d", constant < 10 ? " 10:0" : "", constant);
        }
        at = repeat(at, " 2:0", 1);
    }
    strcpy(at, " 34:14 33:10");
    check_bytes("9, stored", bytes, bytes_of(file, bytes), 97, REFUSED(9, 95), "1=8");
}

/* An assert at depth 2 whose test has so many levels, for one of equal length with a level less. By itself it reads, up to 127 levels. */
static void put_deep(const char *what, int levels, uint32_t answer)
{
    static char file[1024];
    static char command[1024];
    struct put put = {what, file, (size_t)levels + 7, 2, command, answer, answer == 0 ? "" : NULL};
    strcpy(repeat(file + sprintf(file, "63:%d 25:0 26:0 ", levels + 7), "12:0 ", levels - 3), "10:0 9:1 9:1 24:0 32:0 32:0 33:10");
    strcpy(repeat(repeat(command, "26:0 ", 1), "12:0 ", levels - 1), "9:1");
    put_cases(&put, 1);
}

/* Sequences with so many commands, all of them skip but the last. */
static char *sequences(char *at, int commands, const char *last)
{
    if (commands == 1) {
        return repeat(at, last, 1);
    }
    at = sequences(repeat(at, "25:0 ", 1), commands / 2, "24:0 ");
    return sequences(at, commands - commands / 2, last);
}

/* A file of 8,192 words: the last command's mask reaches the first word, and so it does when another is put. */
static void most_words(void)
{
    static char file[8 * FLOW_MOST_WORDS];
    static uint8_t bytes[MOST];
    uint8_t command[8];
    struct lent lent;
    strcpy(sequences(repeat(file, "63:8192 ", 1), 4094, "27:31 1:0 "), "32:0 32:0 33:10");
    expect("most words", bytes_of(file, bytes), FLOW_MOST_BYTES);
    check_bytes("one number too few for the most words", bytes, FLOW_MOST_BYTES, FLOW_MOST_WORDS - 1, REFUSED(17, 0), NULL);
    lent = lend(bytes, FLOW_MOST_BYTES, FLOW_MOST_WORDS);
    expect("most words checked", flow_check_masks(lent.file, lent.count, lent.masks, lent.n, STANDARD), 1);
    expect("first word", lent.masks[1], 0x80000000u);
    expect("last command", lent.masks[8187], 0x80000000u);
    expect("last word", lent.masks[8191], 0);
    expect("put as last", flow_put(lent.file, lent.count, lent.masks, lent.n, 8187, command, bytes_of("28:0 17:0", command), STANDARD), 0);
    expect("first word after it", lent.masks[1], (uint64_t)1 << 32);
    expect("last command after it", lent.masks[8187], (uint64_t)1 << 32);
    expect("file after it", memcmp(lent.file + 4 * 8187, command, 8) == 0, 1);
    give_back(lent);
}

/* Words that claim 134,217,726 parts each, in the file and as the new command: finding where a command ends takes a step for each word, not
   for each part that is claimed, or this would not end in time. */
static void claimed_parts(void)
{
    static char file[24 * FLOW_MOST_WORDS];
    static char words[24 * FLOW_MOST_WORDS];
    static uint8_t bytes[MOST];
    static uint8_t command[MOST];
    struct lent lent;
    size_t k;
    repeat(repeat(file, "63:8192 26:0 ", 1), "32:67108863 ", 8190);
    repeat(repeat(words, "26:0 ", 1), "32:67108863 ", 8190);
    expect("claimed parts", bytes_of(file, bytes), FLOW_MOST_BYTES);
    k = bytes_of(words, command);
    lent = lend(bytes, FLOW_MOST_BYTES, FLOW_MOST_WORDS);
    expect("put among claimed parts", flow_put(lent.file, lent.count, lent.masks, lent.n, 1, command, k, STANDARD), REFUSED(5, 2));
    expect("put at claimed parts", flow_put(lent.file, lent.count, lent.masks, lent.n, 2, command, k - 4, STANDARD), REFUSED(5, 2));
    expect_masks("claimed parts", lent, NULL);
    expect_file("claimed parts", lent, bytes);
    give_back(lent);
}

/* ---- masks that are not set, null, and what the header takes apart */

/* The lent numbers are never read: here they have no value, which valgrind would tell. */
static void not_set(void)
{
    uint8_t bytes[64];
    uint8_t command[8];
    size_t count = bytes_of(SMALL, bytes);
    uint64_t *masks = (uint64_t *)block(12 * sizeof(uint64_t));
    expect("checked, no number set", flow_check_masks(bytes, count, masks, 12, STANDARD), 1);
    expect("its mask", masks[1], 4);
    free(masks);
    masks = (uint64_t *)block(12 * sizeof(uint64_t));
    expect("put, no number set", flow_put(bytes, count, masks, 12, 5, command, bytes_of("27:3 1:7", command), STANDARD), 0);
    expect("its mask", masks[1], 8);
    masks[11] = 6;
    expect("put again", flow_put(bytes, count, masks, 12, 2, command, bytes_of("28:0 17:0", command), STANDARD), 0);
    expect("its mask", masks[1], 0x100000008u);
    expect("past the words", masks[11], 6);
    free(masks);
}

/* Null is nothing, whatever its count; any other pointer is handed on. */
static void with_null(void)
{
    uint8_t bytes[64];
    uint8_t command[8];
    size_t count = bytes_of(SMALL, bytes);
    size_t k = bytes_of("27:9 1:7", command);
    uint64_t masks[11] = {0};
    expect("check of null", flow_check_masks_bytes(NULL, 0, NULL, 0, STANDARD), REFUSED(1, 0));
    expect("check of null, 44", flow_check_masks_bytes(NULL, 44, masks, 11, STANDARD), REFUSED(1, 0));
    expect("check with no masks", flow_check_masks_bytes(bytes, count, NULL, 11, STANDARD), REFUSED(17, 0));
    expect("check of bytes", flow_check_masks_bytes(bytes, count, masks, 11, STANDARD), 1);
    expect("its mask", masks[1], 4);
    expect("put into null", flow_put_bytes(NULL, 44, masks, 11, 5, command, k, STANDARD), REFUSED(1, 0));
    expect("put into null, all null", flow_put_bytes(NULL, 0, NULL, 0, 0, NULL, 0, STANDARD), REFUSED(1, 0));
    expect("put with no masks", flow_put_bytes(bytes, count, NULL, 11, 5, command, k, STANDARD), REFUSED(17, 0));
    expect("put of null", flow_put_bytes(bytes, count, masks, 11, 5, NULL, k, STANDARD), REFUSED(18, 0));
    expect("put of bytes", flow_put_bytes(bytes, count, masks, 11, 5, command, k, STANDARD), 0);
    expect("its mask", masks[1], 512);
}

static void taken_apart(void)
{
    uint64_t mask = (uint64_t)1 << 63 | 1;
    uint32_t number;
    for (number = 1; number <= 19; number++) {
        expect("stored", (uint64_t)flow_stored(REFUSED(number, 7)), number == 8 || number == 9);
        expect("not put", (uint64_t)flow_was_put(REFUSED(number, 0)), 0);
    }
    expect("stored and accepted", (uint64_t)flow_stored(53), 1);
    expect("put", (uint64_t)flow_was_put(0), 1);
    expect("number and place of a put", flow_number(REFUSED(18, 0)) + flow_place(REFUSED(18, 0)), 18);
    expect("scalar 0", (uint64_t)flow_modifies_scalar(mask, 0), 1);
    expect("scalar 31", (uint64_t)flow_modifies_scalar(mask, 31), 0);
    expect("array 0", (uint64_t)flow_modifies_array(mask, 0), 0);
    expect("array 31", (uint64_t)flow_modifies_array(mask, 31), 1);
    expect("no scalar 63", (uint64_t)flow_modifies_scalar(mask, 63), 0);
    expect("no array 32", (uint64_t)flow_modifies_array(mask, 32), 0);
}

int main(void)
{
    check_cases();
    check_deep();
    check_large();
    put_cases(unread, sizeof unread / sizeof unread[0]);
    put_cases(refused, sizeof refused / sizeof refused[0]);
    put_cases(done, sizeof done / sizeof done[0]);
    put_cut();
    put_deep("test to depth 128", 126, 0);
    put_deep("test to depth 129", 127, REFUSED(18, 0));
    most_words();
    claimed_parts();
    not_set();
    with_null();
    taken_apart();
    return wrong;
}

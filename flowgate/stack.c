/* How much stack the library's calls take: `stack ROWS RUNS FOLDER/...`, with the rows and runs that have known answers, and folders of
 * files with theirs in `expected`. To these it adds files in which evidence, expressions or commands nest as deep as may be, also through
 * procedures. flow_put is given the longest command that it takes, in its own place. All is done under the standard settings, and again
 * under the largest, with files as deep as these allow; of a file that the standard ones refuse by 4, 5 or 9 no answer is known there.
 *
 * Each call is made in a thread whose stack lies above a page that can't be touched. First the stack is more than enough and filled
 * with a pattern, and the lowest byte that was written says how much the call took. Then it is just what flowcheck.h states. Writes the
 * most that each call took; exit status 1 if an answer is wrong or the stack stated does not suffice. */
#define _DEFAULT_SOURCE
#include <pthread.h>
#include <stdint.h>
#include <stdio.h>
#include <stdlib.h>
#include <string.h>
#include <sys/mman.h>
#include <sys/wait.h>
#include <unistd.h>

#include "flowcheck.h"

enum { SCALARS = 32, VALUES = 2048, MOST_BYTES = 32768, MOST_STACK = 256 * 1024, MOST_STACK_DEEPEST = 512 * 1024 };
enum { PAGE = 4096, PATTERN = 0xa5, BUDGET = 10000 };

/* A run may be in sixteen procedures at once. */
enum { BODIES = FLOW_MOST_PROCEDURES + 1, MOST_ROOM = 2 * BODIES * MOST_STACK_DEEPEST };

/* The kinds of words. */
enum { CONSTANT = 1, SCALAR = 2, OPERATOR = 3, SELECT = 4, LESS = 8, TRUTH = 9, AND = 10, OR = 11, NOT = 12 };
enum { ARRAY = 16, ZERO = 17, UPDATE = 18 };
enum { SKIP = 24, SEQUENCE = 25, ASSERT = 26, TO_SCALAR = 27, TO_ARRAY = 28, IF = 29, WHILE = 30, FOR = 31, CALL = 38, TABLE = 62 };
enum { SET = 32, FLOW = 33, IMPLICATION = 34, BEFORE = 35, FIRST_WORD = 63 };

/* What is to be called, and the answer. flow_check is called where the settings are the standard ones. */
enum call { CHECK_SETTINGS, PROGRAM, PRECONDITION, POSTCONDITION, CHECK, RUN, CHECK_MASKS, PUT, CALLS };
static const char *const names[CALLS] = {"flow_check_settings", "flow_program", "flow_precondition", "flow_postcondition", "flow_check",
    "flow_run", "flow_check_masks", "flow_put"};
static uint32_t (*const calls[CHECK])(const uint8_t *, size_t, size_t, size_t, size_t)
    = {flow_check_settings, flow_program, flow_precondition, flow_postcondition};
static enum call call;
static uint8_t file[MOST_BYTES + 4];
static size_t bytes;
static size_t budget;
static int64_t scalars[SCALARS];
static int64_t values[VALUES];
static uint64_t masks[FLOW_MOST_WORDS];
static uint64_t answer;

/* The settings; the most stack that may be stated for a check; what is stated. */
struct limits {
    size_t comparisons;
    size_t depth;
    size_t members;
    size_t most_stack;
    size_t stated[CALLS];
};
static const struct limits standard = {FLOW_STANDARD_SETTINGS, MOST_STACK,
    {FLOW_CHECK_STACK, FLOW_CHECK_STACK, FLOW_CHECK_STACK, FLOW_CHECK_STACK, FLOW_CHECK_STACK, FLOW_RUN_STACK, FLOW_CHECK_MASKS_STACK,
        FLOW_PUT_STACK}};
static const struct limits largest = {FLOW_MOST_SETTINGS, MOST_STACK_DEEPEST,
    {FLOW_CHECK_STACK_DEEPEST, FLOW_CHECK_STACK_DEEPEST, FLOW_CHECK_STACK_DEEPEST, FLOW_CHECK_STACK_DEEPEST, FLOW_CHECK_STACK_DEEPEST,
        FLOW_RUN_STACK_DEEPEST, FLOW_CHECK_MASKS_STACK_DEEPEST, FLOW_PUT_STACK_DEEPEST}};

/* Those at hand, and their depth. */
static const struct limits *limits;
static int deepest;

/* What flow_put is given beside the file: a place, and the words that stand there. */
static size_t place;
static uint8_t command[MOST_BYTES];
static size_t command_bytes;

/* Where the thread's stack is, how much of it is filled with the pattern, and where in it the call was made; `above` is what the thread
 * takes above that. */
static uint8_t *stack;
static size_t room;
static uint8_t *frame;
static size_t above;

/* Whether the stack is just what is stated. What is known of it then is shared with the process that waits. */
static int just;
static char *trying;

static struct {
    size_t calls;
    size_t stack;
    char name[80];
} most[CALLS];
static int wrong;

static void fail(const char *what)
{
    perror(what);
    exit(1);
}

/* The call itself: what lies below this frame is the call's. */
static void *make_call(void *unused)
{
    size_t comparisons = limits->comparisons, depth = limits->depth, members = limits->members;

    frame = __builtin_frame_address(0);
    if (call == CHECK) {
        answer = flow_check(file, bytes);
    } else if (call == RUN) {
        answer = flow_run(file, bytes, scalars, SCALARS, values, VALUES, budget, comparisons, depth, members);
    } else if (call == CHECK_MASKS) {
        answer = flow_check_masks(file, bytes, masks, FLOW_MOST_WORDS, comparisons, depth, members);
    } else if (call == PUT) {
        answer = flow_put(file, bytes, masks, FLOW_MOST_WORDS, place, command, command_bytes, comparisons, depth, members);
    } else {
        answer = calls[call](file, bytes, comparisons, depth, members);
    }
    return unused;
}

static void call_in_thread(size_t size)
{
    pthread_t thread;
    pthread_attr_t attributes;

    if (pthread_attr_init(&attributes) || pthread_attr_setstack(&attributes, stack, size)
        || pthread_create(&thread, &attributes, make_call, NULL) || pthread_join(thread, NULL)
        || pthread_attr_destroy(&attributes)) {
        fail("stack: a thread");
    }
}

/* Makes the call in a thread, with as much stack as is asked for, and notes how much it took. */
static void measure(const char *name)
{
    size_t lowest = 0;

    memset(stack, PATTERN, room);
    call_in_thread(room);
    above = (size_t)(stack + room - frame);
    while (stack[lowest] == PATTERN) {
        lowest++;
    }
    most[call].calls++;
    if (most[call].stack < room - above - lowest) {
        most[call].stack = room - above - lowest;
        snprintf(most[call].name, sizeof most[call].name, "%s", name);
    }
}

/* The same with just the stack that is stated: below it is the page that can't be touched. Threads align by 64 bytes. */
static void call_with_stated(const char *name)
{
    size_t stated = limits->stated[call];

    snprintf(trying, PAGE, "%s on %s", names[call], name);
    call_in_thread(stated + above / 64 * 64);
    if ((size_t)(frame - stack) > stated || (size_t)(frame - stack) + 64 <= stated) {
        printf("stack: the thread's stack is not as it should be\n");
        wrong = 1;
    }
}

/* Makes the call on the file at hand; `due` is the answer, or NULL if it is not known. */
static void try(enum call which, const char *name, const uint64_t *due)
{
    call = which;
    if (just) {
        call_with_stated(name);
    } else {
        measure(name);
    }
    if (due && answer != *due) {
        printf("stack: %s on %s: %llu, not %llu\n", names[call], name, (unsigned long long)answer, (unsigned long long)*due);
        wrong = 1;
    }
}

/* The operands of a word in a skip, assert or assignment of a file that reads. */
static int operands(unsigned kind)
{
    switch (kind) {
    case UPDATE: return 3;
    case OPERATOR:
    case SELECT:
    case LESS:
    case AND:
    case OR: return 2;
    case NOT:
    case ASSERT:
    case TO_SCALAR:
    case TO_ARRAY: return 1;
    default: return 0;
    }
}

/* The kind of the word at a place. */
static unsigned kind_at(size_t at)
{
    return file[4 * at + 3] >> 2;
}

/* The words of the command at a place. */
static size_t length_at(size_t at)
{
    size_t length = 0;
    int due = 1;

    for (; due > 0 && 4 * (at + length) < bytes; length++) {
        due += operands(kind_at(at + length)) - 1;
    }
    return length;
}

/* Finds the longest skip, assert or assignment of a file that reads, and of several the last. */
static void find_command(void)
{
    size_t at;

    command_bytes = 0;
    for (at = 1; 4 * at < bytes; at++) {
        unsigned kind = kind_at(at);

        if ((kind == SKIP || (kind >= ASSERT && kind <= TO_ARRAY)) && 4 * length_at(at) >= command_bytes) {
            place = at;
            command_bytes = 4 * length_at(at);
        }
    }
    memcpy(command, file + 4 * place, command_bytes);
}

/* Puts the words that are there: a file that reads then takes them, and one without such a command is refused. */
static void try_put(const char *name, uint64_t due)
{
    uint64_t put = due;

    place = 0;
    command_bytes = 0;
    if (flow_stored((uint32_t)due)) {
        find_command();
        put = command_bytes > 0 ? 0 : 18 << 16;
    }
    try(PUT, name, &put);
}

/* Makes the checks, the calls for the parts, which are 0 for a refused file, and flow_put. */
static void try_check(const char *name, const uint64_t *due)
{
    static const uint64_t none = 0;
    int i;

    if (limits == &standard) {
        try(CHECK, name, due);
    }
    try(CHECK_SETTINGS, name, due);
    for (i = PROGRAM; i <= POSTCONDITION; i++) {
        try((enum call)i, name, *due >> 16 ? &none : NULL);
    }
    try(CHECK_MASKS, name, due);
    try_put(name, *due);
}

/* The refusals that larger settings may change. */
static int is_limit(uint32_t number)
{
    return number == 4 || number == 5 || number == 9;
}

/* The same for a file whose answer is known under the standard settings. */
static void try_known(const char *name, const uint64_t *due)
{
    uint64_t changed = *due;

    if (limits != &standard && is_limit(flow_number((uint32_t)*due))) {
        changed = flow_check_settings(file, bytes, limits->comparisons, limits->depth, limits->members);
    }
    try_check(name, &changed);
}

/* Runs the file from a store that is 0 but for the bounds of `for` loops. */
static void try_run(const char *name)
{
    memset(scalars, 0, sizeof scalars);
    memset(values, 0, sizeof values);
    scalars[SCALARS - 1] = 1;
    budget = BUDGET;
    try(RUN, name, NULL);
}

/* ---- files with known answers */

/* The field that starts at a place, which is ended there; the place of the next. */
static char *field(char **at)
{
    char *start = *at;
    size_t length = strcspn(start, "\t\n");

    *at = start + length + (start[length] != '\0');
    start[length] = '\0';
    return start;
}

static void read_hexadecimal(const char *digits)
{
    char pair[3] = "";

    for (bytes = 0; digits[2 * bytes] && bytes < sizeof file; bytes++) {
        pair[0] = digits[2 * bytes];
        pair[1] = digits[2 * bytes + 1];
        file[bytes] = (uint8_t)strtoul(pair, NULL, 16);
    }
}

/* `accepted N`, `ended` or `refused NUMBER PLACE` as one number. */
static uint64_t number_of(const char *line)
{
    char *end;
    uint64_t number;

    if (strncmp(line, "refused ", 8) != 0) {
        return strncmp(line, "accepted ", 9) == 0 ? strtoul(line + 9, NULL, 10) : 0;
    }
    number = strtoul(line + 8, &end, 10);
    return number << 16 | strtoul(end, NULL, 10);
}

static void try_row(char *at)
{
    const char *name = field(&at);
    uint64_t due = number_of(field(&at));

    read_hexadecimal(field(&at));
    try_known(name, &due);
}

/* A lent store: INDEX=VALUE,.., the scalars and then the values. */
static void lend(char *text)
{
    memset(scalars, 0, sizeof scalars);
    memset(values, 0, sizeof values);
    while (*text) {
        unsigned long index = strtoul(text, &text, 10);
        int64_t value = strtoll(text + 1, &text, 10);

        *(index < SCALARS ? scalars + index : values + (index - SCALARS)) = value;
        text += *text == ',';
    }
}

static void try_run_row(char *at)
{
    const char *name = field(&at);
    uint64_t due;

    budget = strtoull(field(&at), NULL, 10);
    due = number_of(field(&at));
    due |= (uint64_t)strtoull(field(&at), NULL, 10) << 32;
    read_hexadecimal(field(&at));
    lend(field(&at));
    try(RUN, name, limits == &standard || !is_limit(flow_run_number(due)) ? &due : NULL);
}

static FILE *open_file(const char *folder_or_path, const char *name)
{
    char path[4096];
    FILE *stream = NULL;

    if (snprintf(path, sizeof path, "%s%s", folder_or_path, name) < (int)sizeof path) {
        stream = fopen(path, "rb");
    }
    if (!stream) {
        fail(path);
    }
    return stream;
}

static void try_table(const char *folder_or_path, const char *name, void (*try_line)(char *))
{
    static char line[1 << 18];
    FILE *table = open_file(folder_or_path, name);

    while (fgets(line, sizeof line, table)) {
        if (line[0] != '#') {
            try_line(line);
        }
    }
    fclose(table);
}

/* A file of a folder, by its line of `expected`. */
static const char *folder;
static void try_file(char *at)
{
    const char *name = field(&at);
    uint64_t due = number_of(field(&at));
    FILE *stream = open_file(folder, name);

    bytes = fread(file, 1, sizeof file, stream);
    fclose(stream);
    try_known(name, &due);
    try_run(name);
}

/* ---- files as deep as may be, word by word */

static void put(uint32_t kind, uint32_t payload)
{
    uint32_t word = kind << 26 | payload;

    file[bytes++] = (uint8_t)word;
    file[bytes++] = (uint8_t)(word >> 8);
    file[bytes++] = (uint8_t)(word >> 16);
    file[bytes++] = (uint8_t)(word >> 24);
}

static void begin(void)
{
    bytes = 0;
    put(FIRST_WORD, 0);
}

/* The number of words goes to word 0. */
static void end(void)
{
    size_t words = bytes / 4;

    bytes = 0;
    put(FIRST_WORD, (uint32_t)words);
    bytes = 4 * words;
}

/* So many times: the word, and after it, if there is one, an operand of one word: zero everywhere, or another with payload 1. */
static void nest(int times, uint32_t kind, uint32_t payload, uint32_t leaf)
{
    while (times-- > 0) {
        put(kind, payload);
        if (leaf) {
            put(leaf, leaf != ZERO);
        }
    }
}

/* Never true: ors of c and not c, over as many comparisons c as may be. */
static void never(int from, int to)
{
    int middle = (from + to) / 2;
    int i;

    if (to - from > 1) {
        put(OR, 0);
        never(from, middle);
        never(middle, to);
        return;
    }
    put(AND, 0);
    for (i = 0; i < 2; i++) {
        nest(i, NOT, 0, 0);
        put(LESS, 1);
        put(SCALAR, 0);
        put(CONSTANT, (uint32_t)from % (uint32_t)limits->comparisons);
    }
}

/* Antecedents that are never true. */
enum antecedent { SMALL, LARGE, UNDER_NOTS, UNDER_ANDS, ANTECEDENTS };
static const char *const antecedents[ANTECEDENTS] = {"small", "large", "large under nots", "large under ands"};
static void put_antecedent(enum antecedent which)
{
    if (which == UNDER_NOTS) {
        nest(deepest - 16, NOT, 0, 0);
    } else if (which == UNDER_ANDS) {
        nest(deepest - 16, AND, 0, TRUTH);
    }
    never(0, which == SMALL ? 1 : 450);
}

/* Rule 8, then set rule 17 down to the last level, and there rule 14: the antecedent implies false. */
static void try_implied_set(enum antecedent which)
{
    char name[80];
    uint64_t due = 2 * (uint64_t)deepest - 1;
    int i;

    begin();
    put(SKIP, 0);
    put(SET, 0);
    put(SET, 1);
    put_antecedent(which);
    put(SCALAR, 0);
    put(FLOW, 8);
    put(SET, 0);
    put(FLOW, 1);
    for (i = 2; i < deepest; i++) {
        put(IMPLICATION, 17);
        nest(3, SET, 0, 0);
        put(IMPLICATION, 13);
    }
    put(IMPLICATION, 14);
    end();
    snprintf(name, sizeof name, "set rule 14 at depth %d, %s", deepest, antecedents[which]);
    try_check(name, &due);
    try_run(name);
}

/* Rule 11, then rule 28 down to the last level but one, and there rule 21: the antecedent and not B implies true. */
static void try_implied_before(enum antecedent which)
{
    char name[80];
    uint64_t due = (uint64_t)deepest;

    begin();
    put(WHILE, 0);
    put(TRUTH, 0);
    put(SKIP, 0);
    nest(1, SET, 1, TRUTH);
    put(CONSTANT, 5);
    put(SET, 1);
    put_antecedent(which);
    put(CONSTANT, 5);
    put(FLOW, 11);
    nest(deepest - 3, BEFORE, 28, TRUTH);
    nest(1, BEFORE, 21, TRUTH);
    put(BEFORE, 22);
    end();
    snprintf(name, sizeof name, "rule 21 at depth %d, %s", deepest - 1, antecedents[which]);
    try_check(name, &due);
}

/* Expressions that nest: a word at each level, with an operand of one word before the next level if `leaf` is one; the last word;
 * and what each level has after it. */
static const struct deep {
    const char *name;
    uint32_t kind;
    uint32_t leaf;
    uint32_t last;
    uint32_t after;
    int times;
    uint32_t command;
} deep[] = {
    {"nots", NOT, 0, TRUTH, 0, 0, ASSERT},
    {"ands", AND, TRUTH, TRUTH, 0, 0, ASSERT},
    {"ors", OR, TRUTH, TRUTH, 0, 0, ASSERT},
    {"ands on the left", AND, 0, TRUTH, TRUTH, 1, ASSERT},
    {"sums", OPERATOR, SCALAR, SCALAR, 0, 0, TO_SCALAR},
    {"sums on the left", OPERATOR, 0, SCALAR, SCALAR, 1, TO_SCALAR},
    {"selects", SELECT, ARRAY, SCALAR, 0, 0, TO_SCALAR},
    {"selects from zeros", SELECT, ZERO, SCALAR, 0, 0, TO_SCALAR},
    {"updates", UPDATE, 0, ARRAY, SCALAR, 2, TO_ARRAY},
};
enum { DEEP = sizeof deep / sizeof deep[0] };
static void put_deep(const struct deep *which, int levels)
{
    nest(levels - 1, which->kind, 0, which->leaf);
    put(which->last, 1);
    nest((levels - 1) * which->times, which->after, 1, 0);
}

/* Rule 13 at each while of a nest, and below it rule 3 or 4, which puts an identifier for itself into expressions as deep as may be; the
 * sets have as many members as may be. */
static void try_replaced(const struct deep *which, uint32_t assignment, uint32_t identifier)
{
    char name[80];
    uint64_t due = (uint64_t)deepest - 1;
    int members = (int)limits->members;
    int long_members = 2560 / deepest;
    int i;

    begin();
    nest(deepest - 2, WHILE, 0, TRUTH);
    nest(1, assignment, 1, identifier);
    for (i = 0; i < 2 * members; i++) {
        int member = i % members;

        if (member == 0) {
            put(SET, (uint32_t)members);
        }
        put(TRUTH, 1);
        put_deep(member == 1 ? which : deep, member == 0 || member >= long_members ? 1 : deepest - 1);
    }
    nest(deepest - 2, FLOW, 13, 0);
    put(FLOW, assignment == TO_SCALAR ? 3 : 4);
    end();
    snprintf(name, sizeof name, "rule %d at depth %d, %s", assignment == TO_SCALAR ? 3 : 4, deepest - 1, which->name);
    try_check(name, &due);
}

/* Rule 13 at each while of a nest, and below it rule 1: antecedents as deep as may be, P's with a "true and" at the last level. */
static void try_compared(const struct deep *which)
{
    char name[80];
    uint64_t due = (uint64_t)deepest;
    int i;

    begin();
    nest(deepest - 1, WHILE, 0, TRUTH);
    put(SKIP, 0);
    for (i = 0; i < 2; i++) {
        nest(1, SET, 2, TRUTH);
        put(TRUTH, 1);
        nest(deepest - 3, which->kind, 0, which->leaf);
        nest(1 - i, AND, 0, TRUTH);
        put(TRUTH, 0);
        nest((deepest - 3) * which->times, which->after, 1, 0);
        put(SCALAR, 0);
    }
    nest(deepest - 1, FLOW, 13, 0);
    put(FLOW, 1);
    end();
    snprintf(name, sizeof name, "rule 1 at depth %d, antecedents of %s", deepest, which->name);
    try_check(name, &due);
}

/* So many `for` loops, over scalars of their own. */
static void put_fors(int fors)
{
    int i;

    for (i = 0; i < fors; i++) {
        put(FOR, (uint32_t)(2 + i + 32 * (SCALARS - 1)));
    }
}

/* The start of a file: loops, so many of them `for` loops. */
static void begin_loops(int fors, int whiles)
{
    begin();
    put_fors(fors);
    nest(whiles, WHILE, 0, TRUTH);
}

/* The end of a file, whose contract asks nothing. */
static void try_command(const char *name, int fors, int whiles)
{
    char whole[80];
    uint64_t due = 1;

    nest(2, SET, 0, 0);
    put(FLOW, 10);
    end();
    snprintf(whole, sizeof whole, "%s under %d fors and %d whiles", name, fors, whiles);
    try_check(whole, &due);
    try_run(whole);
}

/* Under so many loops skip, or commands with an expression that has all the levels left. */
static void try_loops(int fors, int whiles)
{
    int left = deepest - fors - whiles;
    size_t i;

    begin_loops(fors, whiles);
    put(SKIP, 0);
    try_command("skip", fors, whiles);
    for (i = 0; left >= 2 && i < DEEP; i++) {
        begin_loops(fors, whiles);
        put(deep[i].command, deep[i].command != ASSERT);
        put_deep(&deep[i], left - 1);
        try_command(deep[i].name, fors, whiles);
    }
}

static void try_branches(void)
{
    begin();
    nest(deepest - 1, IF, 0, TRUTH);
    nest(deepest, SKIP, 0, 0);
    try_command("skip under ifs", 0, 0);
    begin();
    nest(deepest - 1, SEQUENCE, 0, 0);
    nest(deepest, SKIP, 0, 0);
    try_command("skip under sequences", 0, 0);
}

/* So many levels around a command of one word. */
static void put_levels(uint32_t kind, int levels, uint32_t inner, uint32_t payload)
{
    nest(levels, kind, 0, kind == SEQUENCE ? 0 : TRUTH);
    put(inner, payload);
    nest(kind == WHILE ? 0 : levels, SKIP, 0, 0);
}

/* A command whose expression nests one deeper than may be. */
static void try_too_deep(const struct deep *which)
{
    char name[80];
    uint64_t due;

    begin();
    put(which->command, which->command != ASSERT);
    put_deep(which, deepest);
    nest(2, SET, 0, 0);
    put(FLOW, 10);
    end();
    due = flow_check_settings(file, bytes, limits->comparisons, limits->depth, limits->members);
    snprintf(name, sizeof name, "%s to depth %d", which->name, deepest + 1);
    if (flow_number((uint32_t)due) != 4) {
        printf("stack: %s: not refused by 4\n", name);
        wrong = 1;
    }
    try_check(name, &due);
    try_run(name);
}

/* The body of procedure 0 where it is an expression: as deep as may be. */
static void put_last(const struct deep *last)
{
    put(last->command, last->command != ASSERT);
    put_deep(last, deepest - 1);
}

/* The words of an expression with so many levels, and of its command. */
static int last_words(const struct deep *last)
{
    return 2 + (deepest - 2) * (1 + (last->leaf != 0) + last->times);
}

/* The levels that the bodies can have together, besides the `for` loops and procedure 0 if it is an expression: two words for a while, and
 * for a sequence with its other part, three for an if. Each body has two sets and its evidence, and all but procedure 0's a call. */
static int all_levels(uint32_t kind, int fors, const struct deep *last)
{
    int words = FLOW_MOST_WORDS - 2 - 4 * BODIES - fors - (last ? last_words(last) - 1 : 0);

    return words / (kind == IF ? 3 : 2);
}

/* The levels of the next body, at most so many: they are no longer left for others. */
static int take_levels(int *left, int most_levels)
{
    int levels = *left < most_levels ? *left : most_levels;

    *left -= levels;
    return levels;
}

/* A run that is in sixteen procedures at once, each at the deepest level of its body; where the words don't suffice for that, the main
 * program and the last procedures nest less. The main program has `for` loops if it has whiles: none of their scalars is modified by what
 * they call. The contracts ask nothing. */
static void try_procedures(uint32_t kind, const char *name, const struct deep *last)
{
    char whole[80];
    uint64_t due = BODIES;
    int fors = kind == WHILE ? 28 : 0;
    int left = all_levels(kind, fors, last);
    uint32_t i;

    begin();
    put(TABLE, FLOW_MOST_PROCEDURES);
    for (i = 0; i < BODIES; i++) {
        if (i == 0 && last) {
            put_last(last);
        } else {
            int outer = i == FLOW_MOST_PROCEDURES ? fors : 0;

            put_fors(outer);
            put_levels(kind, take_levels(&left, deepest - 1 - outer), i == 0 ? SKIP : CALL, i == 0 ? 0 : i - 1);
        }
        nest(2, SET, 0, 0);
        put(FLOW, 10);
    }
    end();
    snprintf(whole, sizeof whole, "16 procedures of %s, the last of %s", name, last ? last->name : name);
    try_check(whole, &due);
    room = 2 * BODIES * limits->most_stack;
    try_run(whole);
    room = 2 * limits->most_stack;
}

static void try_all_procedures(void)
{
    size_t i;

    try_procedures(WHILE, "whiles", NULL);
    try_procedures(IF, "ifs", NULL);
    try_procedures(SEQUENCE, "sequences", NULL);
    for (i = 0; i < DEEP; i++) {
        try_procedures(WHILE, "whiles", &deep[i]);
    }
}

static void try_deepest(void)
{
    static const int fors[] = {0, 28};
    int i;
    int whiles;

    for (i = 0; i < ANTECEDENTS; i++) {
        try_implied_set((enum antecedent)i);
        try_implied_before((enum antecedent)i);
    }
    for (i = 0; i < (int)DEEP; i++) {
        try_replaced(&deep[i], TO_SCALAR, SCALAR);
        try_replaced(&deep[i], TO_ARRAY, ARRAY);
        if (deep[i].command == ASSERT) {
            try_compared(&deep[i]);
        }
        try_too_deep(&deep[i]);
    }
    for (i = 0; i < 2; i++) {
        for (whiles = deepest - 1 - fors[i]; whiles >= 0; whiles -= whiles > deepest - 8 - fors[i] ? 1 : 30) {
            try_loops(fors[i], whiles);
        }
    }
    try_branches();
    try_all_procedures();
}

/* Under the standard settings, or under the largest. */
static void try_under(const struct limits *which, int count, char **paths)
{
    int i;

    limits = which;
    deepest = (int)limits->depth;
    room = 2 * limits->most_stack;
    try_deepest();
    try_table(paths[0], "", try_row);
    try_table(paths[1], "", try_run_row);
    for (i = 2; i < count; i++) {
        folder = paths[i];
        try_table(folder, "expected", try_file);
    }
}

/* All again with just the stack that is stated, in a process of its own, which dies if that does not suffice. */
static void try_with_stated(const struct limits *which, int count, char **paths)
{
    int status;
    pid_t child;

    fflush(stdout);
    child = fork();
    if (child < 0) {
        fail("stack: a process");
    }
    if (child == 0) {
        just = 1;
        try_under(which, count, paths);
        fflush(stdout);
        _exit(wrong);
    }
    if (waitpid(child, &status, 0) != child) {
        fail("stack: a process");
    }
    if (WIFSIGNALED(status)) {
        printf("stack: %s: signal %d with just the stack that is stated\n", trying, WTERMSIG(status));
    }
    wrong |= status != 0;
}

/* What was measured, and whether what is stated suffices for it and is no more than it may be. */
static void report(void)
{
    int i;

    printf("under %zu comparisons, depth %zu, %zu members:\n", limits->comparisons, limits->depth, limits->members);
    for (i = 0; i < CALLS; i++) {
        size_t stated = limits->stated[i];

        if (most[i].calls > 0) {
            printf("%s: at most %zu bytes of stack in %zu calls (%s); %zu are stated\n", names[i], most[i].stack, most[i].calls,
                most[i].name, stated);
        }
        wrong |= most[i].stack > stated || stated > limits->most_stack * (i == RUN ? BODIES : 1);
    }
    memset(most, 0, sizeof most);
}

int main(int count, char **arguments)
{
    static const struct limits *const both[] = {&standard, &largest};
    int i;
    uint8_t *mapped = mmap(NULL, PAGE + MOST_ROOM, PROT_READ | PROT_WRITE, MAP_PRIVATE | MAP_ANONYMOUS, -1, 0);

    trying = mmap(NULL, PAGE, PROT_READ | PROT_WRITE, MAP_SHARED | MAP_ANONYMOUS, -1, 0);
    if (mapped == MAP_FAILED || trying == MAP_FAILED || mprotect(mapped, PAGE, PROT_NONE)) {
        fail("stack: memory");
    }
    stack = mapped + PAGE;
    if (count < 3) {
        fprintf(stderr, "usage: stack ROWS RUNS FOLDER/...\n");
        return 2;
    }
    for (i = 0; i < 2; i++) {
        try_under(both[i], count - 1, arguments + 1);
        report();
        try_with_stated(both[i], count - 1, arguments + 1);
    }
    return wrong;
}

/* The proved calls for C and C++, and small functions that take their answers apart. `./library` makes target/c/lib/libflowcheck.a
 * and puts this header into target/c/include; `./library --prefix DIR` installs both. Link for x86-64.
 *
 * The calls end for every input, allocate nothing, keep nothing, and write only to what is lent without const: flow_run to the store,
 * flow_check_masks to the masks, flow_put to the masks and the file. What is lent may not overlap, and no pointer may be null, also where
 * its count is 0; the functions with `_bytes` in their names take null where nothing is lent. A place is that of a 32-bit word of the
 * file, from 0.
 *
 * All calls but flow_check take three settings as their last arguments: the most comparisons, depth and members (below). A program written
 * for version 1.4 has to be compiled anew, with FLOW_STANDARD_SETTINGS as the last arguments of these calls: the answers are then those
 * of 1.4. */
#ifndef FLOWCHECK_H
#define FLOWCHECK_H

#include <stddef.h>
#include <stdint.h>

/* The version of these calls and of what their numbers mean. It is written here alone. */
#define FLOWCHECK_VERSION_MAJOR 2
#define FLOWCHECK_VERSION_MINOR 0
#define FLOWCHECK_VERSION_PATCH 0
#define FLOWCHECK_QUOTE(a) #a
#define FLOWCHECK_QUOTED(a) FLOWCHECK_QUOTE(a)
#define FLOWCHECK_VERSION \
    FLOWCHECK_QUOTED(FLOWCHECK_VERSION_MAJOR) "." FLOWCHECK_QUOTED(FLOWCHECK_VERSION_MINOR) "." FLOWCHECK_QUOTED(FLOWCHECK_VERSION_PATCH)

/* The most bytes of a file; the most words, so that as many masks are enough for every file; the most procedures in it; the size of the
 * runner's store; its largest budget. */
#define FLOW_MOST_BYTES 32768
#define FLOW_MOST_WORDS 8192
#define FLOW_MOST_PROCEDURES 16
#define FLOW_SCALARS 32
#define FLOW_ARRAYS 32
#define FLOW_INDEXES 64
#define FLOW_VALUES 2048
#define FLOW_MOST_BUDGET 1000000

/* The settings, in the order in which calls take them: the most distinct comparisons of an implication, the most depth of a word, the most
 * members written in a set. The standard ones are those that flow_check keeps. Each has a range; outside it a call refuses by 19, before
 * all else. Within the ranges, raising a setting leaves every acceptance as it is, with its count, and changes no refusal of a check but
 * 4, 9 and the 5 of a set's count. */
#define FLOW_STANDARD_COMPARISONS 10
#define FLOW_STANDARD_DEPTH 128
#define FLOW_STANDARD_MEMBERS 64
#define FLOW_STANDARD_SETTINGS FLOW_STANDARD_COMPARISONS, FLOW_STANDARD_DEPTH, FLOW_STANDARD_MEMBERS
#define FLOW_LEAST_COMPARISONS 0
#define FLOW_LEAST_DEPTH 1
#define FLOW_LEAST_MEMBERS 0
#define FLOW_MOST_COMPARISONS 16
#define FLOW_MOST_DEPTH 256
#define FLOW_MOST_MEMBERS 128
#define FLOW_MOST_SETTINGS FLOW_MOST_COMPARISONS, FLOW_MOST_DEPTH, FLOW_MOST_MEMBERS

/* The ranges as texts, like "0 to 16". */
#define FLOW_RANGE_COMPARISONS FLOWCHECK_QUOTED(FLOW_LEAST_COMPARISONS) " to " FLOWCHECK_QUOTED(FLOW_MOST_COMPARISONS)
#define FLOW_RANGE_DEPTH FLOWCHECK_QUOTED(FLOW_LEAST_DEPTH) " to " FLOWCHECK_QUOTED(FLOW_MOST_DEPTH)
#define FLOW_RANGE_MEMBERS FLOWCHECK_QUOTED(FLOW_LEAST_MEMBERS) " to " FLOWCHECK_QUOTED(FLOW_MOST_MEMBERS)

/* The stack that a call takes below its caller's frame, at most, in bytes: a thread that makes the call must have so much left. The first
 * four are for settings that are at most the standard ones, those with _DEEPEST for any in range. flow_check_settings and the calls for
 * the parts of a file take what is stated for the check. Measured on files that nest as deep as the settings allow, and rounded up
 * (flowgate/stack.c); not proved. */
#define FLOW_CHECK_STACK 212992
#define FLOW_CHECK_MASKS_STACK 212992
#define FLOW_PUT_STACK 122880
#define FLOW_RUN_STACK 1425408
#define FLOW_CHECK_STACK_DEEPEST 352256
#define FLOW_CHECK_MASKS_STACK_DEEPEST 352256
#define FLOW_PUT_STACK_DEEPEST 167936
#define FLOW_RUN_STACK_DEEPEST 2621440

#ifdef __cplusplus
extern "C" {
#endif

/* Checks the file of `count` bytes under the standard settings. Accepted: the count of its evidence words, below 65,536. Refused: number *
 * 65,536 + place, the number one of 1 to 9 and 16 (flow_meaning). Antecedents, and the assertions of rules 20 to 32, are compared without
 * their "true and" and "and true"; consequents are compared by words. */
uint32_t flow_check(const uint8_t *file, size_t count);

/* The same under the settings given; refused also by 19. */
uint32_t flow_check_settings(const uint8_t *file, size_t count, size_t comparisons, size_t depth, size_t members);

/* Checks the file as flow_check_settings does, and stores in the `n` lent numbers what its commands modify: the number at place p becomes
 * the mask of word p. The mask of a command's first word, in the main program, in a procedure or in a command that evidence carries, has
 * bit i if the command modifies scalar i and bit 32 + i if it modifies array i; a call modifies what its procedure's body modifies, a `for`
 * its q as well. The mask of every other word is 0. The lent numbers are written and never read.
 * Answer: 17 at place 0 if 19, 1 and 2 pass and `n` is less than the words of the file, else that of flow_check_settings, in the same
 * form. Accepted, or refused by 8 or 9: the first count / 4 numbers are the masks, and those past them are as they were lent. Refused by
 * 1 to 7, 16, 17 or 19: all are as they were lent. */
uint32_t flow_check_masks(const uint8_t *file, size_t count, uint64_t *masks, size_t n, size_t comparisons, size_t depth, size_t members);

/* Puts the command of `k` bytes in the place of the one whose first word is at `place`. Each is one whole skip, assert or assignment, and
 * they have equal length; the old one may stand in the main program, in a procedure or in a command that evidence carries. The new one may
 * have the words of the old one, but `command` may not point into `file`. The lent numbers are written and never read.
 * Answer: 0 if it was put. Then the file has the new words, the first count / 4 numbers are the masks of the file so changed, and those
 * past them are as they were lent. Else number * 65,536 + place, the file and all numbers as they were lent: first the refusals of the
 * file as it was lent, 19, 1, 2, 17 (as for flow_check_masks), 3 to 6, 16 and 7; then 18 at place 0, if no such command starts at `place`,
 * the `k` bytes are not the words of just one such command, the lengths differ, or the file so changed would not be read: a new word would
 * be deeper than `depth` there, or a `for` around it, also through calls, would be refused by 7. Evidence is not judged: no 8 and no 9. */
uint32_t flow_put(uint8_t *file, size_t count, uint64_t *masks, size_t n, size_t place, const uint8_t *command, size_t k,
    size_t comparisons, size_t depth, size_t members);

/* Where the program, the precondition and the postcondition of a file stand that is accepted under the settings given: the place of the
 * part's first word * 65,536 + the place past its last. 0 if the file is refused. They are those of the main program: what it calls stands
 * before it, from word 1 on (62:k and the procedures), so who compares the program has to compare the procedures' bodies as well, as
 * flowgate does. */
uint32_t flow_program(const uint8_t *file, size_t count, size_t comparisons, size_t depth, size_t members);
uint32_t flow_precondition(const uint8_t *file, size_t count, size_t comparisons, size_t depth, size_t members);
uint32_t flow_postcondition(const uint8_t *file, size_t count, size_t comparisons, size_t depth, size_t members);

/* Runs the file's program in the lent store, without judging its evidence, for at most `budget` steps. `n` must be FLOW_SCALARS and `k`
 * FLOW_VALUES: array a's index i is value FLOW_INDEXES * a + i. The upper 32 bits of the answer are the steps finished. The lower 32
 * are 0 if the run ended, and the store is then the ending store; else number * 65,536 + place, the number one of 19, 1 to 7 and 10 to 16.
 * The right side of an and whose left side is false, and of an or whose left side is true, is not worked out: it gives no 14 and no 15.
 * For 19, 1 to 11 and 16 no step is finished and the store is untouched. For 12 to 15 the place is that of the command, in a procedure's
 * body if it stands there, and the store is as before the step that was due. */
uint64_t flow_run(const uint8_t *file, size_t count, int64_t *scalars, size_t n, int64_t *values, size_t k, size_t budget,
    size_t comparisons, size_t depth, size_t members);

#ifdef __cplusplus
}
#endif

/* What the number of a refusal means. They are tried in this order, but 19 before 1, 17 after 2, 3 to 5 at each word in file order, 16
 * after 6, 18 after 7, and 8 and 9 at each evidence word. docs/FORMAT.md has the usual causes. */
static inline const char *flow_meaning(uint32_t number)
{
    switch (number) {
    case 1: return "the byte count is 0, over 32,768 or no multiple of 4"; /* place 0 */
    case 2: return "word 0 is not 63:n, n the words in the file"; /* place 0 */
    case 3: return "the file ends where a word is due"; /* place n, one past the last word */
    case 4: return "a word is deeper than the settings allow";
    case 5: return "a word's kind or payload isn't allowed there"; /* also where a set has more members than the settings allow */
    case 6: return "words follow the evidence"; /* place of the first */
    case 7: return "a for has q = m or a body that modifies q or m"; /* place of the first such, also one that evidence carries */
    case 8: return "a rule's condition fails"; /* place of the evidence word */
    case 9: return "a rule's condition is an implication over more comparisons than the settings allow"; /* place of the evidence word */
    case 10: return "the budget is over 1,000,000"; /* place 0 */
    case 11: return "the store is not 32 scalars and 2,048 array values"; /* place 0 */
    case 12: return "an assertion is false"; /* 12 to 15: place of the command */
    case 13: return "the budget is used up and a step is due";
    case 14: return "a value leaves the signed 64-bit range";
    case 15: return "an index is outside 0 to 63";
    case 16: return "a call's number is not below its own procedure's, or not in the table"; /* place of the first such call */
    case 17: return "fewer masks are lent than the file has words"; /* place 0 */
    case 18: /* place 0 */
        return "the place or the new command is no skip, assert or assignment of equal length, or the changed file would not be read";
    case 19: /* place 0 */
        return "a setting is outside its range: comparisons " FLOW_RANGE_COMPARISONS ", depth " FLOW_RANGE_DEPTH
            ", members " FLOW_RANGE_MEMBERS;
    default: return "no refusal has this number";
    }
}

/* Of an answer of flow_check, flow_check_settings or flow_check_masks: whether the file is accepted; the count of its evidence words, if
 * so; the refusal's number (0: none) and place, if not. flow_number and flow_place are for answers of flow_put too. */
static inline int flow_accepted(uint32_t answer)
{
    return answer < 65536;
}
static inline uint32_t flow_count(uint32_t answer)
{
    return flow_accepted(answer) ? answer : 0;
}
static inline uint32_t flow_number(uint32_t answer)
{
    return answer >> 16;
}
static inline uint32_t flow_place(uint32_t answer)
{
    return flow_accepted(answer) ? 0 : answer & 65535;
}

/* Of an answer of flow_check_masks: whether the masks were stored. Of one of flow_put: whether the command was put, and so the file
 * and the masks are changed. */
static inline int flow_stored(uint32_t answer)
{
    return flow_accepted(answer) || flow_number(answer) == 8 || flow_number(answer) == 9;
}
static inline int flow_was_put(uint32_t answer)
{
    return answer == 0;
}

/* Of a mask: whether the command modifies this scalar, or this array. */
static inline int flow_modifies_scalar(uint64_t mask, uint32_t scalar)
{
    return scalar < FLOW_SCALARS && (mask >> scalar & 1) != 0;
}
static inline int flow_modifies_array(uint64_t mask, uint32_t array)
{
    return array < FLOW_ARRAYS && (mask >> (FLOW_SCALARS + array) & 1) != 0;
}

/* Of an answer of flow_program, flow_precondition or flow_postcondition: the place of the first word, and the one past the last. */
static inline uint32_t flow_first(uint32_t answer)
{
    return answer >> 16;
}
static inline uint32_t flow_past(uint32_t answer)
{
    return answer & 65535;
}

/* Of an answer of flow_run: whether the run ended; the steps finished; the refusal's number (0: none) and place. */
static inline int flow_run_ended(uint64_t answer)
{
    return (answer & 0xffffffff) == 0;
}
static inline uint64_t flow_run_steps(uint64_t answer)
{
    return answer >> 32;
}
static inline uint32_t flow_run_number(uint64_t answer)
{
    return answer >> 16 & 65535;
}
static inline uint32_t flow_run_place(uint64_t answer)
{
    return answer & 65535;
}

/* The calls where a pointer may be null: its count is then taken as 0. */
static inline const uint8_t *flow_lent(const uint8_t *bytes)
{
    static const uint8_t none = 0;
    return bytes ? bytes : &none;
}
static inline uint32_t flow_check_bytes(const uint8_t *file, size_t count)
{
    return flow_check(flow_lent(file), file ? count : 0);
}
static inline uint32_t flow_check_settings_bytes(const uint8_t *file, size_t count, size_t comparisons, size_t depth, size_t members)
{
    return flow_check_settings(flow_lent(file), file ? count : 0, comparisons, depth, members);
}
static inline uint32_t flow_program_bytes(const uint8_t *file, size_t count, size_t comparisons, size_t depth, size_t members)
{
    return flow_program(flow_lent(file), file ? count : 0, comparisons, depth, members);
}
static inline uint32_t flow_precondition_bytes(const uint8_t *file, size_t count, size_t comparisons, size_t depth, size_t members)
{
    return flow_precondition(flow_lent(file), file ? count : 0, comparisons, depth, members);
}
static inline uint32_t flow_postcondition_bytes(const uint8_t *file, size_t count, size_t comparisons, size_t depth, size_t members)
{
    return flow_postcondition(flow_lent(file), file ? count : 0, comparisons, depth, members);
}
static inline uint64_t flow_run_bytes(const uint8_t *file, size_t count, int64_t *scalars, size_t n, int64_t *values, size_t k,
    size_t budget, size_t comparisons, size_t depth, size_t members)
{
    int64_t none[2] = {0, 0};
    return flow_run(flow_lent(file), file ? count : 0, scalars ? scalars : none, scalars ? n : 0, values ? values : none + 1,
        values ? k : 0, budget, comparisons, depth, members);
}
static inline uint32_t flow_check_masks_bytes(const uint8_t *file, size_t count, uint64_t *masks, size_t n, size_t comparisons,
    size_t depth, size_t members)
{
    uint64_t none = 0;
    return flow_check_masks(flow_lent(file), file ? count : 0, masks ? masks : &none, masks ? n : 0, comparisons, depth, members);
}
static inline uint32_t flow_put_bytes(uint8_t *file, size_t count, uint64_t *masks, size_t n, size_t place, const uint8_t *command,
    size_t k, size_t comparisons, size_t depth, size_t members)
{
    uint8_t no_file = 0;
    uint64_t none = 0;
    return flow_put(file ? file : &no_file, file ? count : 0, masks ? masks : &none, masks ? n : 0, place, flow_lent(command),
        command ? k : 0, comparisons, depth, members);
}

#endif

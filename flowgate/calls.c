/* The library's calls with known answers, and what the header takes them apart into: document 01's rows on a `for` over skip, where the
 * parts of a file stand, and refusals of the runner. masks.c has the calls with masks, limits.c other settings than the standard ones. It is
 * C and C++ alike. Writes a line for each answer that is wrong; exit status 0 if none is. */
#include <stdint.h>
#include <stdio.h>
#include <string.h>

#include "flowcheck.h"

#define STANDARD FLOW_STANDARD_SETTINGS

enum { SCALARS = FLOW_SCALARS, VALUES = FLOW_VALUES };

/* 63:6 31:32 24:0 32:0 32:0 33:10, a `for` over scalar 0 up to scalar 1 whose body is skip */
static const uint8_t loop[] = {
    6, 0, 0, 0xfc, 0x20, 0, 0, 0x7c, 0, 0, 0, 0x60, 0, 0, 0, 0x80, 0, 0, 0, 0x80, 10, 0, 0, 0x84,
};

/* 63:9 28:31 18:0 16:31 2:0 1:67108863 32:0 32:0 33:10, which sets array 31 at the index scalar 0 to -1 */
static const uint8_t store[] = {
    9, 0, 0, 0xfc, 31, 0, 0, 0x70, 0, 0, 0, 0x48, 31, 0, 0, 0x40, 0, 0, 0, 8, 0xff, 0xff, 0xff, 7,
    0, 0, 0, 0x80, 0, 0, 0, 0x80, 10, 0, 0, 0x84,
};

/* 63:19 62:1 27:0 2:1 32:1 9:1 2:1 32:1 9:1 2:0 33:3 38:0 32:1 9:1 2:1 32:1 9:1 2:0 33:31, whose procedure copies scalar 1 into scalar 0 */
static const uint8_t called[] = {
    19, 0, 0, 0xfc, 1, 0, 0, 0xf8, 0, 0, 0, 0x6c, 1, 0, 0, 8, 1, 0, 0, 0x80, 1, 0, 0, 0x24, 1, 0, 0, 8, 1, 0, 0, 0x80, 1, 0, 0, 0x24, 0, 0, 0, 8,
    3, 0, 0, 0x84, 0, 0, 0, 0x98, 1, 0, 0, 0x80, 1, 0, 0, 0x24, 1, 0, 0, 8, 1, 0, 0, 0x80, 1, 0, 0, 0x24, 0, 0, 0, 8, 31, 0, 0, 0x84,
};

/* 63:5 38:0 32:0 32:0 33:10, which calls a procedure that is not there */
static const uint8_t nowhere[] = {
    5, 0, 0, 0xfc, 0, 0, 0, 0x98, 0, 0, 0, 0x80, 0, 0, 0, 0x80, 10, 0, 0, 0x84,
};

static int64_t scalars[SCALARS];
static int64_t values[VALUES];
static int wrong;

static void expect(const char *what, uint64_t got, uint64_t due)
{
    if (got != due) {
        printf("%s: %llu, not %llu\n", what, (unsigned long long)got, (unsigned long long)due);
        wrong = 1;
    }
}

static uint64_t steps_and(uint64_t steps, uint64_t number, uint64_t place)
{
    return steps << 32 | number << 16 | place;
}

/* Runs the loop from a store that is 0 but for the bound. */
static uint64_t run_loop(int64_t bound, size_t n, size_t k, size_t budget)
{
    memset(scalars, 0, sizeof scalars);
    scalars[1] = bound;
    return flow_run(loop, sizeof loop, scalars, n, values, k, budget, STANDARD);
}

static uint64_t run_store(int64_t index)
{
    scalars[0] = index;
    return flow_run(store, sizeof store, scalars, SCALARS, values, VALUES, 1, STANDARD);
}

static void check_calls(void)
{
    uint32_t refused = flow_check(store, sizeof loop);
    expect("loop accepted", flow_check(loop, sizeof loop), 1);
    expect("loop accepted with settings", flow_check_settings(loop, sizeof loop, STANDARD), 1);
    expect("loop cut", flow_check(loop, sizeof loop - 1), 65536);
    expect("accepted", (uint64_t)flow_accepted(flow_check(loop, sizeof loop)), 1);
    expect("its count", flow_count(flow_check(loop, sizeof loop)), 1);
    expect("its number", flow_number(flow_check(loop, sizeof loop)), 0);
    expect("its place", flow_place(flow_check(loop, sizeof loop)), 0);
    expect("refused", (uint64_t)flow_accepted(refused), 0);
    expect("its number", flow_number(refused), 2);
    expect("number and place", flow_number(8 * 65536 + 9) * 10 + flow_place(8 * 65536 + 9), 89);
    expect("no count", flow_count(8 * 65536 + 9), 0);
    expect("least refusal", (uint64_t)flow_accepted(65536), 0);
}

/* The parts of `store` are its words 1 to 5, 6 and 7. */
static void part_calls(void)
{
    expect("program", flow_program(store, sizeof store, STANDARD), 1 * 65536 + 6);
    expect("precondition", flow_precondition(store, sizeof store, STANDARD), 6 * 65536 + 7);
    expect("postcondition", flow_postcondition(store, sizeof store, STANDARD), 7 * 65536 + 8);
    expect("first word", flow_first(flow_program(store, sizeof store, STANDARD)), 1);
    expect("past the last", flow_past(flow_program(store, sizeof store, STANDARD)), 6);
    expect("no program", flow_program(store, sizeof store - 4, STANDARD), 0);
    expect("no precondition", flow_precondition(store, sizeof store - 4, STANDARD), 0);
    expect("no postcondition", flow_postcondition(store, sizeof store - 4, STANDARD), 0);
}

static uint64_t run_called(size_t budget)
{
    memset(scalars, 0, sizeof scalars);
    scalars[1] = 7;
    return flow_run(called, sizeof called, scalars, SCALARS, values, VALUES, budget, STANDARD);
}

/* The parts are the main program's; a call is one step, before its body's. */
static void procedure_calls(void)
{
    expect("called", flow_check(called, sizeof called), 2);
    expect("its program", flow_program(called, sizeof called, STANDARD), 11 * 65536 + 12);
    expect("its precondition", flow_precondition(called, sizeof called, STANDARD), 12 * 65536 + 15);
    expect("its postcondition", flow_postcondition(called, sizeof called, STANDARD), 15 * 65536 + 18);
    expect("a call and its body", run_called(2), steps_and(2, 0, 0));
    expect("what the body did", (uint64_t)scalars[0], 7);
    expect("no step for the body", run_called(1), steps_and(1, 13, 2));
    expect("no step for the call", run_called(0), steps_and(0, 13, 11));
    expect("a call of nothing", flow_check(nowhere, sizeof nowhere), 16 * 65536 + 1);
    expect("no program", flow_program(nowhere, sizeof nowhere, STANDARD), 0);
    expect("a run of it", flow_run(nowhere, sizeof nowhere, scalars, SCALARS, values, VALUES, FLOW_MOST_BUDGET + 1, STANDARD),
        steps_and(0, 16, 1));
}

static void run_calls(void)
{
    expect("up to 3", run_loop(3, SCALARS, VALUES, 11), steps_and(11, 0, 0));
    expect("q after 3", (uint64_t)scalars[0], 4);
    expect("up to -5", run_loop(-5, SCALARS, VALUES, 11), steps_and(2, 0, 0));
    expect("q after -5", (uint64_t)scalars[0], 1);
    expect("budget 10", run_loop(3, SCALARS, VALUES, 10), steps_and(10, 13, 1));
    expect("largest budget", run_loop(3, SCALARS, VALUES, FLOW_MOST_BUDGET), steps_and(11, 0, 0));
    expect("budget too large", run_loop(3, SCALARS, VALUES, FLOW_MOST_BUDGET + 1), steps_and(0, 10, 0));
    expect("31 scalars", run_loop(3, SCALARS - 1, VALUES, 11), steps_and(0, 11, 0));
    expect("2,047 values", run_loop(3, SCALARS, VALUES - 1, 11), steps_and(0, 11, 0));
    expect("store untouched", (uint64_t)scalars[0], 0);
    expect("index 63", run_store(63), steps_and(1, 0, 0));
    expect("last value", (uint64_t)values[VALUES - 1], UINT64_MAX);
    expect("index 64", run_store(64), steps_and(0, 15, 1));
    expect("ended", (uint64_t)flow_run_ended(run_store(63)), 1);
    expect("steps of an end", flow_run_steps(run_store(63)), 1);
    expect("not ended", (uint64_t)flow_run_ended(run_store(64)), 0);
    expect("steps", flow_run_steps(run_loop(3, SCALARS, VALUES, 10)), 10);
    expect("number", flow_run_number(run_loop(3, SCALARS, VALUES, 10)), 13);
    expect("place", flow_run_place(run_loop(3, SCALARS, VALUES, 10)), 1);
}

/* Null is no bytes, whatever its count; any other pointer is handed on. */
static void calls_with_null(void)
{
    expect("check of null", flow_check_bytes(NULL, 0), 65536);
    expect("check of null, 4", flow_check_bytes(NULL, 4), 65536);
    expect("check of bytes", flow_check_bytes(loop, sizeof loop), 1);
    expect("check of null with settings", flow_check_settings_bytes(NULL, 4, STANDARD), 65536);
    expect("check of bytes with settings", flow_check_settings_bytes(loop, sizeof loop, STANDARD), 1);
    expect("program of null", flow_program_bytes(NULL, 0, STANDARD), 0);
    expect("precondition of null", flow_precondition_bytes(NULL, 0, STANDARD), 0);
    expect("postcondition of null", flow_postcondition_bytes(NULL, 0, STANDARD), 0);
    expect("program of bytes", flow_program_bytes(store, sizeof store, STANDARD), 1 * 65536 + 6);
    expect("precondition of bytes", flow_precondition_bytes(store, sizeof store, STANDARD), 6 * 65536 + 7);
    expect("postcondition of bytes", flow_postcondition_bytes(store, sizeof store, STANDARD), 7 * 65536 + 8);
    expect("run of null", flow_run_bytes(NULL, 0, scalars, SCALARS, values, VALUES, 1, STANDARD), steps_and(0, 1, 0));
    expect("no scalars", flow_run_bytes(loop, sizeof loop, NULL, SCALARS, values, VALUES, 1, STANDARD), steps_and(0, 11, 0));
    expect("no values", flow_run_bytes(loop, sizeof loop, scalars, SCALARS, NULL, VALUES, 1, STANDARD), steps_and(0, 11, 0));
    expect("no store", flow_run_bytes(loop, sizeof loop, NULL, 0, NULL, 0, 1, STANDARD), steps_and(0, 11, 0));
    scalars[1] = -5;
    expect("run of bytes", flow_run_bytes(loop, sizeof loop, scalars, SCALARS, values, VALUES, 2, STANDARD), steps_and(2, 0, 0));
}

/* Nineteen meanings, no two alike, and one text for every other number. */
static void meanings(void)
{
    uint32_t i, j;
    for (i = 0; i <= 20; i++) {
        for (j = 1; j < i; j++) {
            expect("meanings that differ", strcmp(flow_meaning(i), flow_meaning(j)) != 0, 1);
        }
    }
    expect("no meaning", strcmp(flow_meaning(0), flow_meaning(20)) == 0, 1);
    expect("meaning of 8", strcmp(flow_meaning(8), "a rule's condition fails") == 0, 1);
    expect("meaning of 19",
        strcmp(flow_meaning(19), "a setting is outside its range: comparisons 0 to 16, depth 1 to 256, members 0 to 128") == 0, 1);
}

int main(void)
{
    char version[32];
    check_calls();
    part_calls();
    procedure_calls();
    run_calls();
    calls_with_null();
    meanings();
    snprintf(version, sizeof version, "%d.%d.%d", FLOWCHECK_VERSION_MAJOR, FLOWCHECK_VERSION_MINOR, FLOWCHECK_VERSION_PATCH);
    expect("version", strcmp(FLOWCHECK_VERSION, version) == 0, 1);
    return wrong;
}

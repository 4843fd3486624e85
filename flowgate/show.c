/* The parts of an accepted certificate in readable form. Words are in prefix order, and a word's kind says how its operands are written:
 * a form, where # is the next operand, @ the next in brackets if it is an and or an or, and $ the next command, on lines that are one
 * deeper. The check has accepted the file, so the walk stays in the part, and calls nest no deeper than the settings allow. */
#include <stdio.h>

#include "parts.h"
#include "show.h"

enum { CONSTANT = 1, SCALAR, OPERATION, SELECT, COMPARISON = 8, TRUTH, AND, OR, NOT, ARRAY = 16, ZERO, UPDATE };
enum { SKIP = 24, SEQUENCE, ASSERT, ASSIGN_SCALAR, ASSIGN_ARRAY, IF, WHILE, FOR, CALL = 38 };

/* The places of a part that are still to be shown, and how deep its lines are. */
struct walk {
    const struct file *file;
    size_t place;
    size_t past;
    int depth;
};

/* A word of the walk, so many places on; past the part's end, a word of no kind. */
static uint32_t look(const struct walk *walk, size_t on)
{
    return walk->place + on < walk->past ? word_at(walk->file, walk->place + on) : 0;
}

static uint32_t take(struct walk *walk)
{
    uint32_t word = look(walk, 0);
    walk->place++;
    return word;
}

static void show_expression(struct walk *walk);
static void show_command(struct walk *walk);

static void show_in_brackets(struct walk *walk, int brackets)
{
    fputs(brackets ? "(" : "", stdout);
    show_expression(walk);
    fputs(brackets ? ")" : "", stdout);
}

static void show_form(struct walk *walk, const char *form)
{
    for (; *form != '\0'; form++) {
        unsigned kind = kind_of(look(walk, 0));
        if (*form == '#') {
            show_expression(walk);
        } else if (*form == '@') {
            show_in_brackets(walk, kind == AND || kind == OR);
        } else if (*form == '$') {
            walk->depth++;
            show_command(walk);
            walk->depth--;
        } else {
            putchar(*form);
        }
    }
}

/* Below 33,554,432 the payload itself, otherwise the payload less 67,108,864 (document 02, request [4]). */
static long constant_of(unsigned payload)
{
    return payload < 33554432 ? (long)payload : (long)payload - 67108864;
}

static void show_expression(struct walk *walk)
{
    static const char *const operations[] = {"(# + #)", "(# - #)", "(# × #)", "?"};
    static const char *const comparisons[] = {"# = #", "# < #", "# ≤ #", "?"};
    uint32_t word = take(walk);
    unsigned payload = payload_of(word);
    switch (kind_of(word)) {
    case CONSTANT: printf("%ld", constant_of(payload)); break;
    case SCALAR: printf("x%u", payload); break;
    case OPERATION: show_form(walk, operations[payload & 3]); break;
    case SELECT: show_form(walk, "#[#]"); break;
    case COMPARISON: show_form(walk, comparisons[payload & 3]); break;
    case TRUTH: show_form(walk, payload == 0 ? "false" : "true"); break;
    case AND: show_form(walk, "@ ∧ @"); break;
    case OR: show_form(walk, "@ ∨ @"); break;
    case NOT: show_form(walk, "¬(#)"); break;
    case ARRAY: printf("a%u", payload); break;
    case ZERO: show_form(walk, "Z"); break;
    case UPDATE: show_form(walk, "#{# : #}"); break;
    default: show_form(walk, "?"); break;
    }
}

static void indent(const struct walk *walk)
{
    printf("%*s", 2 * walk->depth, "");
}

/* a[i] := e is short for a := a{i : e}. */
static void show_array_assignment(struct walk *walk, unsigned array)
{
    uint32_t old = look(walk, 1);
    int element = kind_of(look(walk, 0)) == UPDATE && kind_of(old) == ARRAY && payload_of(old) == array;
    printf("a%u", array);
    walk->place += element ? 2 : 0;
    show_form(walk, element ? "[#] := #\n" : " := #\n");
}

static void show_if(struct walk *walk)
{
    show_form(walk, "if # then\n$");
    indent(walk);
    show_form(walk, "else\n$");
}

static void show_command(struct walk *walk)
{
    uint32_t word = take(walk);
    unsigned payload = payload_of(word);
    if (kind_of(word) == SEQUENCE) {
        show_command(walk);
        show_command(walk);
        return;
    }
    indent(walk);
    switch (kind_of(word)) {
    case SKIP: show_form(walk, "skip\n"); break;
    case ASSERT: show_form(walk, "assert(#)\n"); break;
    case ASSIGN_SCALAR: printf("x%u", payload); show_form(walk, " := #\n"); break;
    case ASSIGN_ARRAY: show_array_assignment(walk, payload); break;
    case IF: show_if(walk); break;
    case WHILE: show_form(walk, "while # do\n$"); break;
    case FOR: printf("for x%u ← 1 to x%u do\n", payload % 32, payload / 32); show_form(walk, "$"); break;
    case CALL: printf("call procedure %u\n", payload); break;
    default: show_form(walk, "?\n"); break;
    }
}

/* A member to a line; a consequent that is boolean stands in brackets. */
static void show_set(struct walk *walk)
{
    unsigned members = payload_of(take(walk));
    if (members == 0) {
        puts("  (empty)");
    }
    for (unsigned i = 0; i < members; i++) {
        show_form(walk, "  # ⇒ ");
        show_in_brackets(walk, kind_of(look(walk, 0)) >= COMPARISON && kind_of(look(walk, 0)) <= NOT);
        putchar('\n');
    }
}

static void show_span(const struct file *file, struct span span, enum part part)
{
    struct walk walk = {file, span.first, span.past, 0};
    if (part == PROGRAM) {
        show_form(&walk, "$");
    } else {
        show_set(&walk);
    }
}

static void show_procedure(const struct file *file, const struct procedure *procedure, size_t number)
{
    printf("procedure %zu\n", number);
    show_span(file, procedure->body, PROGRAM);
    printf("precondition of procedure %zu\n", number);
    show_span(file, procedure->precondition, PRECONDITION);
    printf("postcondition of procedure %zu\n", number);
    show_span(file, procedure->postcondition, POSTCONDITION);
}

void show_parts(const struct file *file, const struct settings *settings)
{
    struct table table;
    find_procedures(file, settings, &table);
    for (size_t i = 0; i < table.count; i++) {
        show_procedure(file, &table.procedures[i], i);
    }
    for (int i = 0; i < PARTS; i++) {
        struct pieces pieces = find_part(file, settings, (enum part)i);
        puts(name_of((enum part)i));
        show_span(file, pieces.spans[pieces.count - 1], (enum part)i);
    }
}

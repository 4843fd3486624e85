/* flowrun [OPTION]... FILE BUDGET [STORE]...: runs the program of a certificate by the proved runner, without judging its evidence.
 * flowrun.1 has the options and the form of a store. Exit status: 0 if the run ended; 1 if it was refused; 2 if something can't be read
 * or written, or for bad use. */
#include <errno.h>
#include <inttypes.h>
#include <stdio.h>
#include <string.h>

#include "file.h"
#include "natural.h"
#include "options.h"
#include "settings.h"
#include "store.h"
#include "text.h"

enum { ENDED = 0, REFUSED = 1, FAILED = 2 };

static int quiet, json;
static struct given_settings given;

static const struct option options[] = {
    {"--comparisons", NULL, &given.comparisons},
    {"--depth", NULL, &given.depth},
    {"--members", NULL, &given.members},
    {"--json", &json, NULL},
    {"--quiet", &quiet, NULL},
    {NULL, NULL, NULL},
};

static const struct program program = {
    "flowrun",
    "usage: flowrun [OPTION]... FILE BUDGET [STORE]...\n",
    "Runs the program of a certificate for at most BUDGET steps; - is standard input.\n"
    "\n"
    "STORE is words x1=5 (scalar 1) and a0[3]=7 (array 0 at index 3), or @FILE, a file of such words;\n"
    "what is not named is 0. What the run changed is written as such words.\n"
    "\n"
    SETTINGS_HELP
    "  --json                write one JSON object\n"
    "  --quiet               write nothing\n"
    "  --help, --version     write this, or the version\n"
    "  --                    no option follows\n"
    "\n"
    "Exit status: 0 the run ended; 1 it was refused; 2 something can't be read or written, or bad use.\n",
    options,
};

/* What the file is read under. */
static struct settings settings;

static int fail(const char *name, int error)
{
    if (!quiet) {
        complain(program.name, name, strerror(error != 0 ? error : EIO));
    }
    return FAILED;
}

/* A fault in a file of words. */
static int fail_at(const char *name, const struct source *source, const char *wrong)
{
    char place[MOST_WORD + 32];
    snprintf(place, sizeof place, "%lu: %s", source->line, source->word);
    if (!quiet) {
        fflush(stdout);
        fprintf(stderr, "%s: ", program.name);
        put_name(name, stderr);
        putc(':', stderr);
        put_name(place, stderr);
        fprintf(stderr, ": %s\n", wrong);
    }
    return FAILED;
}

/* Sets what a file of words says. */
static int read_store(const char *name, struct store *store)
{
    static struct source source;
    int standard = strcmp(name, "-") == 0;
    errno = 0;
    source.stream = standard ? stdin : fopen(name, "r");
    if (source.stream == NULL) {
        return fail(name, errno);
    }
    const char *wrong = set_words(store, &source);
    int broken = ferror(source.stream);
    int error = errno;
    if (!standard) {
        fclose(source.stream);
    }
    if (broken) {
        return fail(name, error);
    }
    return wrong != NULL ? fail_at(name, &source, wrong) : ENDED;
}

/* Sets what a word of the command line says: a store's words, or @ and the name of a file of them. */
static int set_argument(const char *word, struct store *store)
{
    static struct source source;
    if (word[0] == '@') {
        return read_store(word + 1, store);
    }
    source.text = word;
    const char *wrong = set_words(store, &source);
    if (wrong != NULL) {
        bad_use(&program, source.word, wrong);
        return FAILED;
    }
    return ENDED;
}

/* The next cell from this one on that the run changed; CELLS if there is none. */
static size_t next_change(const struct store *before, const struct store *after, size_t cell)
{
    while (cell < CELLS && value_at(before, cell) == value_at(after, cell)) {
        cell++;
    }
    return cell;
}

static void print_refusal(const struct file *file, uint64_t answer)
{
    uint32_t number = flow_run_number(answer);
    uint32_t place = flow_run_place(answer);
    printf(":%u: refused %u: %s; ", place, number, flow_meaning(number));
    put_exceeded(&settings, file, number, place, stdout);
}

/* How the run ended. Settings that are not the standard ones are told, since the file may be read under no others. */
static void print_end(void)
{
    fputs(": ended ", stdout);
    if (!are_standard(&settings)) {
        fputs("under ", stdout);
        put_settings(&settings, stdout);
        fputs(", ", stdout);
    }
}

/* The whole text is words of a store: its first line is a comment. */
static void print_text(const char *name, const struct file *file, uint64_t answer, const struct store *before, const struct store *after)
{
    uint64_t steps = flow_run_steps(answer);
    fputs("# ", stdout);
    put_name(name, stdout);
    if (flow_run_ended(answer)) {
        print_end();
    } else {
        print_refusal(file, answer);
    }
    printf("after %" PRIu64 " step%s\n", steps, steps == 1 ? "" : "s");
    for (size_t cell = next_change(before, after, 0); cell < CELLS; cell = next_change(before, after, cell + 1)) {
        char cell_name[MOST_NAME];
        name_cell(cell, cell_name);
        printf("%s=%" PRId64 "\n", cell_name, value_at(after, cell));
    }
}

/* Values are strings: many readers of JSON round a number of 64 bits. */
static void print_json(const char *name, uint64_t answer, const struct store *before, const struct store *after)
{
    const char *comma = "";
    fputs("{\"file\":", stdout);
    put_json(name, stdout);
    if (flow_run_ended(answer)) {
        fputs(",\"verdict\":\"ended\",\"number\":null,\"place\":null,\"meaning\":null", stdout);
    } else {
        uint32_t number = flow_run_number(answer);
        printf(",\"verdict\":\"refused\",\"number\":%u,\"place\":%u,\"meaning\":", number, flow_run_place(answer));
        put_json(flow_meaning(number), stdout);
    }
    if (!are_standard(&settings)) {
        fputs(",\"settings\":", stdout);
        put_json_settings(&settings, stdout);
    }
    printf(",\"steps\":%" PRIu64 ",\"changed\":{", flow_run_steps(answer));
    for (size_t cell = next_change(before, after, 0); cell < CELLS; cell = next_change(before, after, cell + 1)) {
        char cell_name[MOST_NAME];
        name_cell(cell, cell_name);
        printf("%s\"%s\":\"%" PRId64 "\"", comma, cell_name, value_at(after, cell));
        comma = ",";
    }
    fputs("}}\n", stdout);
}

/* Runs the file from the store, and writes what came of it. */
static int run_file(const char *name, size_t budget, const struct store *before)
{
    static struct file file;
    static struct store after;
    int error = read_file(name, &file);
    if (error != 0) {
        return fail(name, error);
    }
    after = *before;
    uint64_t answer = flow_run(file.bytes, file.count, after.scalars, FLOW_SCALARS, after.values, FLOW_VALUES, budget,
        settings.comparisons, settings.depth, settings.members);
    if (json) {
        print_json(name, answer, before, &after);
    } else if (!quiet) {
        print_text(name, &file, answer, before, &after);
    }
    return flow_run_ended(answer) ? ENDED : REFUSED;
}

/* Words that don't go together; the budget and the settings. */
static enum command agree(int count, char **words, uint64_t *budget)
{
    int standard = 0;
    if (count < 2) {
        fputs(program.usage, stderr);
        return BAD_USE;
    }
    if (json && quiet) {
        return bad_use(&program, "--json", "not with --quiet");
    }
    for (int i = 0; i < count; i++) {
        standard += strcmp(words[i], i == 0 ? "-" : "@-") == 0;
    }
    if (standard > 1) {
        return bad_use(&program, "-", "standard input is read once");
    }
    const char *wrong = read_natural(words[1], SIZE_MAX, budget);
    return wrong != NULL ? bad_use(&program, words[1], wrong) : read_settings(&program, &given, &settings);
}

int main(int count, char **words)
{
    static struct store store;
    uint64_t budget = 0;
    int others = count > 0 ? count - 1 : 0;
    enum command command = read_options(&program, &others, words + 1);
    if (command == DONE) {
        return written(program.name) ? ENDED : FAILED;
    }
    if (command == BAD_USE || agree(others, words + 1, &budget) != GO_ON) {
        return FAILED;
    }
    for (int i = 2; i < others; i++) {
        if (set_argument(words[i + 1], &store) != ENDED) {
            return FAILED;
        }
    }
    int status = run_file(words[1], (size_t)budget, &store);
    return written(program.name) ? status : FAILED;
}

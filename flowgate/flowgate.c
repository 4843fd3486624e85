/* flowgate [OPTION]... FILE...: checks flow certificates as a step of a build, by the proved calls, and compares their parts with what
 * was ordered. flowgate.1 has the options and the lines. Exit status: 0 if every certificate is accepted and as ordered; 1 if one is
 * refused or differs; 2 if one can't be read, what is to be written can't, or for bad use. */
#include <errno.h>
#include <stdio.h>
#include <string.h>

#include "file.h"
#include "options.h"
#include "parts.h"
#include "report.h"
#include "settings.h"
#include "show.h"
#include "text.h"

enum { PASSED = 0, STOPPED = 1, FAILED = 2 };

/* What was asked for: the file with the bytes that a part must have, or NULL; the folders with such files and for the parts, or NULL. */
static const char *orders[PARTS];
static const char *contract;
static const char *folder;
static int show, quiet, json;
static struct given_settings given;

static const struct option options[] = {
    {"--program", NULL, &orders[PROGRAM]},
    {"--precondition", NULL, &orders[PRECONDITION]},
    {"--postcondition", NULL, &orders[POSTCONDITION]},
    {"--contract", NULL, &contract},
    {"--parts", NULL, &folder},
    {"--comparisons", NULL, &given.comparisons},
    {"--depth", NULL, &given.depth},
    {"--members", NULL, &given.members},
    {"--show", &show, NULL},
    {"--json", &json, NULL},
    {"--quiet", &quiet, NULL},
    {NULL, NULL, NULL},
};

static const struct program program = {
    "flowgate",
    "usage: flowgate [OPTION]... FILE...\n",
    "Checks flow certificates; - is standard input.\n"
    "\n"
    "  --program FILE        accept only a certificate whose program is just the bytes of FILE\n"
    "                        (with procedures: 62:k, their bodies, the main command),\n"
    "  --precondition FILE   whose precondition,\n"
    "  --postcondition FILE  whose postcondition\n"
    "  --contract DIR        all three, by DIR/program, DIR/precondition and DIR/postcondition\n"
    "  --parts DIR           write the parts of an accepted certificate as such files\n"
    SETTINGS_HELP
    "  --show                write the parts of accepted certificates in readable form\n"
    "  --json                write one JSON object a line\n"
    "  --quiet               write nothing\n"
    "  --help, --version     write this, or the version\n"
    "  --                    no option follows\n"
    "\n"
    "Exit status: 0 every certificate is accepted and as ordered; 1 one is refused or differs;\n"
    "2 one can't be read, what is to be written can't, or bad use.\n",
    options,
};

/* The bytes that a part must have, where its order is stated; what every certificate is judged under. */
static struct file ordered[PARTS];
static struct settings settings;

static int is_standard_input(const char *name)
{
    return name != NULL && strcmp(name, "-") == 0;
}

/* Options and files that don't go together; the settings. */
static enum command agree(int count, char **names)
{
    int standard = 0;
    for (int i = 0; i < PARTS; i++) {
        standard += is_standard_input(orders[i]);
        if (contract != NULL && orders[i] != NULL) {
            return bad_use(&program, "--contract", "it orders every part already");
        }
    }
    for (int i = 0; i < count; i++) {
        standard += is_standard_input(names[i]);
    }
    if (standard > 1) {
        return bad_use(&program, "-", "standard input is read once");
    }
    if (folder != NULL && count > 1) {
        return bad_use(&program, "--parts", "more than one certificate");
    }
    if (show + json + quiet > 1) {
        return bad_use(&program, show ? "--show" : "--json", json && show ? "not with --json" : "not with --quiet");
    }
    if (count == 0) {
        fputs(program.usage, stderr);
        return BAD_USE;
    }
    return read_settings(&program, &given, &settings);
}

static int fail(const char *name, int error)
{
    if (!quiet) {
        complain(program.name, name, strerror(error));
    }
    return FAILED;
}

/* Reads what was ordered. With a contract's folder, every part is stated. */
static int read_orders(void)
{
    static char paths[PARTS][MOST_PATH];
    for (int i = 0; i < PARTS; i++) {
        int error = 0;
        if (contract != NULL) {
            error = path_of(contract, (enum part)i, paths[i]);
            orders[i] = paths[i];
        }
        if (error == 0 && orders[i] != NULL) {
            error = read_file(orders[i], &ordered[i]);
        }
        if (error != 0) {
            return fail(orders[i], error);
        }
    }
    return PASSED;
}

/* Reads a certificate, checks it, and compares its parts with what was ordered. One whose procedures are not found does not pass: the
 * check and this program then know different layouts. */
static struct result judge(const char *name, struct file *file)
{
    struct table table;
    struct result result = {ACCEPTED, &settings, 0, {PROGRAM, 0}, 0};
    result.error = read_file(name, file);
    if (result.error != 0) {
        result.verdict = UNREADABLE;
        return result;
    }
    result.answer = flow_check_settings(file->bytes, file->count, settings.comparisons, settings.depth, settings.members);
    if (!flow_accepted(result.answer)) {
        result.verdict = REFUSED;
        return result;
    }
    if (!find_procedures(file, &settings, &table)) {
        result.verdict = UNREADABLE;
        result.error = ENOTSUP;
        return result;
    }
    for (int i = 0; i < PARTS && result.verdict == ACCEPTED; i++) {
        if (orders[i] != NULL && !is_ordered(file, &settings, &ordered[i], (enum part)i, &result.difference)) {
            result.verdict = DIFFERS;
        }
    }
    return result;
}

/* Writes the parts of an accepted certificate into the folder, if none of the files is there: what was reviewed is not written over. */
static int write_parts(const struct file *file)
{
    static char path[MOST_PATH];
    for (int i = 0; i < 2 * PARTS; i++) {
        enum part part = (enum part)(i % PARTS);
        int error = path_of(folder, part, path);
        if (error == 0) {
            error = i < PARTS ? find_new(path) : write_part(file, &settings, part, path);
        }
        if (error != 0) {
            return fail(path, error);
        }
    }
    return PASSED;
}

static int check_file(const char *name)
{
    static struct file file;
    struct result result = judge(name, &file);
    if (json) {
        print_json(name, &file, &ordered[result.difference.part], &result);
    } else if (!quiet) {
        print_text(name, &file, &ordered[result.difference.part], &result);
    }
    if (result.verdict != ACCEPTED) {
        return result.verdict == UNREADABLE ? FAILED : STOPPED;
    }
    if (show) {
        show_parts(&file, &settings);
    }
    return folder != NULL ? write_parts(&file) : PASSED;
}

int main(int count, char **words)
{
    int files = count > 0 ? count - 1 : 0;
    int worst = PASSED;
    enum command command = read_options(&program, &files, words + 1);
    if (command == DONE) {
        return written(program.name) ? PASSED : FAILED;
    }
    if (command == BAD_USE || agree(files, words + 1) != GO_ON || read_orders() != PASSED) {
        return FAILED;
    }
    for (int i = 0; i < files; i++) {
        int status = check_file(words[i + 1]);
        worst = status > worst ? status : worst;
    }
    return written(program.name) ? worst : FAILED;
}

/* A program's command line. */
#include <stdio.h>
#include <string.h>

#include "flowcheck.h"
#include "options.h"
#include "text.h"

enum command bad_use(const struct program *program, const char *word, const char *said)
{
    complain(program->name, word, said);
    fputs(program->usage, stderr);
    return BAD_USE;
}

/* The option of that name, of so many characters; NULL if there is none. */
static const struct option *find_option(const struct program *program, const char *name, size_t count)
{
    for (const struct option *option = program->options; option->name != NULL; option++) {
        if (strlen(option->name) == count && strncmp(option->name, name, count) == 0) {
            return option;
        }
    }
    return NULL;
}

/* What every program has. */
static enum command read_common(const struct program *program, const char *word)
{
    if (strcmp(word, "--help") == 0) {
        printf("%s%s", program->usage, program->help);
        return DONE;
    }
    if (strcmp(word, "--version") == 0) {
        printf("%s %s\n", program->name, FLOWCHECK_VERSION);
        return DONE;
    }
    return bad_use(program, word, "unknown option");
}

/* The option that starts at word `*at`, which becomes its last word. */
static enum command read_option(const struct program *program, int count, char **words, int *at)
{
    const char *word = words[*at];
    size_t length = strcspn(word, "=");
    const struct option *option = find_option(program, word, length);
    if (option == NULL || (option->flag != NULL && word[length] == '=')) {
        return read_common(program, word);
    }
    if (option->flag != NULL) {
        *option->flag = 1;
    } else if (*option->value != NULL) {
        return bad_use(program, word, "given twice");
    } else if (word[length] == '=') {
        *option->value = word + length + 1;
    } else if (*at + 1 < count) {
        *option->value = words[++*at];
    } else {
        return bad_use(program, word, "its value is missing");
    }
    return GO_ON;
}

enum command read_options(const struct program *program, int *count, char **words)
{
    int others = 0;
    int ended = 0;
    enum command command = GO_ON;
    for (int i = 0; i < *count && command == GO_ON; i++) {
        if (ended || words[i][0] != '-' || words[i][1] == '\0') {
            words[others++] = words[i];
        } else if (strcmp(words[i], "--") == 0) {
            ended = 1;
        } else {
            command = read_option(program, *count, words, &i);
        }
    }
    *count = others;
    return command;
}

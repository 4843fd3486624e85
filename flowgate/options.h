/* A program's command line: options in any order, `--` behind which there is none, and other words. Every program has --help and
 * --version. */
#ifndef OPTIONS_H
#define OPTIONS_H

/* An option without a value sets its flag to 1; one with a value, behind `=` or in the next word, is given once. */
struct option {
    const char *name;
    int *flag;
    const char **value;
};

struct program {
    const char *name;
    const char *usage;
    const char *help;
    const struct option *options; /* the last has no name */
};

enum command { GO_ON, DONE, BAD_USE };

/* Reads the words behind the program's name; the other words are left, and their count. DONE: help or the version was asked for, and
 * written. BAD_USE: it was told why. */
enum command read_options(const struct program *program, int *count, char **words);

/* Tells what is wrong with a word, and the usage. */
enum command bad_use(const struct program *program, const char *word, const char *said);

#endif

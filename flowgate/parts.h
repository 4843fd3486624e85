/* The three parts of an accepted certificate, by the proved calls: compared with what was ordered, and written as files. The program of
 * a certificate with procedures is 62:k, their bodies in table order, then the main command: a call says what is done by the body alone. */
#ifndef PARTS_H
#define PARTS_H

#include <stddef.h>

#include "file.h"
#include "procedures.h"
#include "settings.h"

enum part { PROGRAM, PRECONDITION, POSTCONDITION };
enum { PARTS = 3, MOST_PATH = 4096 };

/* The words of a part, in pieces of the certificate; the last of a program is its main command. */
struct pieces {
    size_t count;
    struct span spans[MOST_PROCEDURES + 2];
};

/* Where a part and what was ordered first differ: the word of the part, from 0. */
struct difference {
    enum part part;
    size_t word;
};

/* `program`, `precondition` or `postcondition`: the name of its file in a folder, too. */
const char *name_of(enum part part);

/* The words of a part; none if the file is refused under these settings. */
struct pieces find_part(const struct file *file, const struct settings *settings, enum part part);

/* How many words a part has. */
size_t count_part(const struct pieces *pieces);

/* The place in the certificate of a part's word, from 0; past the part's end, the place past its last word. */
size_t place_in(const struct pieces *pieces, size_t word);

/* Whether the part has just these bytes; if not, where they first differ. */
int is_ordered(const struct file *file, const struct settings *settings, const struct file *ordered, enum part part,
    struct difference *difference);

/* The path of a part's file in a folder: an error number if it is too long, or 0. */
int path_of(const char *folder, enum part part, char path[MOST_PATH]);

/* 0 if there is no file of that path; else EEXIST, or why that can't be told. */
int find_new(const char *path);

/* Writes a part as a file. The error number of what went wrong, or 0. */
int write_part(const struct file *file, const struct settings *settings, enum part part, const char *path);

#endif

/* The procedures of an accepted certificate, by the layout of docs/FORMAT.md. No proved call says where they stand: that the table ends
 * where the proved call says that the main program begins is tested each time. */
#ifndef PROCEDURES_H
#define PROCEDURES_H

#include <stddef.h>

#include "file.h"
#include "settings.h"

enum { MOST_PROCEDURES = FLOW_MOST_PROCEDURES };

/* Places of words: the first, and the one past the last. */
struct span {
    size_t first;
    size_t past;
};

struct procedure {
    struct span body;
    struct span precondition;
    struct span postcondition;
};

/* In table order: procedure p is at p. */
struct table {
    size_t count;
    struct procedure procedures[MOST_PROCEDURES];
};

/* Finds the procedures, none in a file without a table. Whether the main program of the file, accepted under these settings, begins where
 * they end. */
int find_procedures(const struct file *file, const struct settings *settings, struct table *table);

#endif

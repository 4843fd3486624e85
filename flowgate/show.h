/* The parts of an accepted certificate in readable form. */
#ifndef SHOW_H
#define SHOW_H

#include "file.h"
#include "settings.h"

/* Writes of each procedure and then of the main program: its commands, a line to each, then the precondition and the postcondition, a line
 * to a member. Scalars are x0 to x31, arrays a0 to a31; Z is the array that is 0 everywhere, a{i : e} the array a with e at index i. */
void show_parts(const struct file *file, const struct settings *settings);

#endif

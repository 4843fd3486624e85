/* What is written of a certificate: a line of text or of JSON. */
#ifndef REPORT_H
#define REPORT_H

#include "file.h"
#include "parts.h"
#include "settings.h"

enum verdict { ACCEPTED, REFUSED, DIFFERS, UNREADABLE };

/* Of one certificate: the settings it was to be judged under; the call's answer, if it was read; where a part differs; the error number, if
 * it was not read. */
struct result {
    enum verdict verdict;
    const struct settings *settings;
    uint32_t answer;
    struct difference difference;
    int error;
};

/* `ordered` is the file of the part that differs. */
void print_text(const char *name, const struct file *file, const struct file *ordered, const struct result *result);
void print_json(const char *name, const struct file *file, const struct file *ordered, const struct result *result);

#endif

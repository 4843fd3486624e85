/* Names of files in what is written, plain and as JSON. */
#include <stddef.h>

#include "text.h"

void put_name(const char *name, FILE *out)
{
    for (; *name != '\0'; name++) {
        unsigned char c = (unsigned char)*name;
        putc(c < 32 || c == 127 ? '?' : c, out);
    }
}

/* The bytes of the UTF-8 character that the text starts with; 0 if it starts with none. */
static size_t character_at(const unsigned char *text)
{
    unsigned char first = text[0];
    size_t count = first < 0x80 ? 1 : first < 0xc2 ? 0 : first < 0xe0 ? 2 : first < 0xf0 ? 3 : first < 0xf5 ? 4 : 0;
    /* what the second byte may be, where a character is not to be longer than it needs, a surrogate or above U+10FFFF */
    unsigned char least = first == 0xe0 ? 0xa0 : first == 0xf0 ? 0x90 : 0x80;
    unsigned char most = first == 0xed ? 0x9f : first == 0xf4 ? 0x8f : 0xbf;
    if (count > 1 && (text[1] < least || text[1] > most)) {
        return 0;
    }
    for (size_t i = 2; i < count; i++) {
        if (text[i] < 0x80 || text[i] > 0xbf) {
            return 0;
        }
    }
    return count;
}

void put_json(const char *text, FILE *out)
{
    const unsigned char *rest = (const unsigned char *)text;
    putc('"', out);
    while (*rest != '\0') {
        size_t count = character_at(rest);
        if (count == 0) {
            fputs("\\ufffd", out);
            rest++;
        } else if (*rest < 32 || *rest == 127) {
            fprintf(out, "\\u%04x", (unsigned)*rest++);
        } else {
            if (*rest == '"' || *rest == '\\') {
                putc('\\', out);
            }
            fwrite(rest, 1, count, out);
            rest += count;
        }
    }
    putc('"', out);
}

void complain(const char *program, const char *name, const char *said)
{
    fflush(stdout);
    fprintf(stderr, "%s: ", program);
    put_name(name, stderr);
    fprintf(stderr, ": %s\n", said);
}

int written(const char *program)
{
    if (fflush(stdout) != 0 || ferror(stdout)) {
        fprintf(stderr, "%s: standard output can't be written\n", program);
        return 0;
    }
    return 1;
}

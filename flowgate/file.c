/* A file read, and its words. */
#include <errno.h>
#include <stdio.h>
#include <string.h>

#include "file.h"

int read_file(const char *name, struct file *file)
{
    int standard = strcmp(name, "-") == 0;
    int error = 0;
    errno = 0;
    FILE *stream = standard ? stdin : fopen(name, "rb");
    if (stream == NULL) {
        return errno != 0 ? errno : EIO;
    }
    file->count = fread(file->bytes, 1, sizeof file->bytes, stream);
    if (ferror(stream)) {
        error = errno != 0 ? errno : EIO;
    }
    if (!standard) {
        fclose(stream);
    }
    return error;
}

size_t count_words(const struct file *file)
{
    return file->count / 4;
}

uint32_t word_at(const struct file *file, size_t place)
{
    const uint8_t *bytes = file->bytes + 4 * place;
    return (uint32_t)bytes[0] | (uint32_t)bytes[1] << 8 | (uint32_t)bytes[2] << 16 | (uint32_t)bytes[3] << 24;
}

void set_word_at(struct file *file, size_t place, uint32_t word)
{
    for (unsigned i = 0; i < 4; i++) {
        file->bytes[4 * place + i] = (uint8_t)(word >> 8 * i & 0xff);
    }
}

unsigned kind_of(uint32_t word)
{
    return word >> 26;
}

unsigned payload_of(uint32_t word)
{
    return word & 0x3ffffff;
}

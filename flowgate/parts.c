/* The parts of an accepted certificate. */
#include <errno.h>
#include <stdio.h>
#include <string.h>

#include "parts.h"

/* What is known of each part: its name, and the proved call that finds it. */
static const struct {
    const char *name;
    uint32_t (*find)(const uint8_t *file, size_t count, size_t comparisons, size_t depth, size_t members);
} parts[PARTS] = {
    [PROGRAM] = {"program", flow_program},
    [PRECONDITION] = {"precondition", flow_precondition},
    [POSTCONDITION] = {"postcondition", flow_postcondition},
};

const char *name_of(enum part part)
{
    return parts[part].name;
}

static void add_piece(struct pieces *pieces, size_t first, size_t past)
{
    pieces->spans[pieces->count].first = first;
    pieces->spans[pieces->count].past = past;
    pieces->count++;
}

/* What stands before the main command: 62:k and the bodies. */
static void add_bodies(struct pieces *pieces, const struct file *file, const struct settings *settings)
{
    struct table table;
    find_procedures(file, settings, &table);
    if (table.count > 0) {
        add_piece(pieces, 1, 2);
    }
    for (size_t i = 0; i < table.count; i++) {
        add_piece(pieces, table.procedures[i].body.first, table.procedures[i].body.past);
    }
}

struct pieces find_part(const struct file *file, const struct settings *settings, enum part part)
{
    uint32_t places = parts[part].find(file->bytes, file->count, settings->comparisons, settings->depth, settings->members);
    struct pieces pieces = {0};
    if (part == PROGRAM && places != 0) {
        add_bodies(&pieces, file, settings);
    }
    add_piece(&pieces, flow_first(places), flow_past(places));
    return pieces;
}

size_t count_part(const struct pieces *pieces)
{
    size_t words = 0;
    for (size_t i = 0; i < pieces->count; i++) {
        words += pieces->spans[i].past - pieces->spans[i].first;
    }
    return words;
}

size_t place_in(const struct pieces *pieces, size_t word)
{
    size_t past = 0;
    for (size_t i = 0; i < pieces->count; i++) {
        struct span span = pieces->spans[i];
        if (word < span.past - span.first) {
            return span.first + word;
        }
        word -= span.past - span.first;
        past = span.past;
    }
    return past;
}

int is_ordered(const struct file *file, const struct settings *settings, const struct file *ordered, enum part part,
    struct difference *difference)
{
    struct pieces pieces = find_part(file, settings, part);
    size_t count = 4 * count_part(&pieces);
    size_t i = 0;
    while (i < count && i < ordered->count && file->bytes[4 * place_in(&pieces, i / 4) + i % 4] == ordered->bytes[i]) {
        i++;
    }
    difference->part = part;
    difference->word = i / 4;
    return i == count && i == ordered->count;
}

int path_of(const char *folder, enum part part, char path[MOST_PATH])
{
    int count = snprintf(path, MOST_PATH, "%s/%s", folder, name_of(part));
    return count < 0 || count >= MOST_PATH ? ENAMETOOLONG : 0;
}

int find_new(const char *path)
{
    errno = 0;
    FILE *stream = fopen(path, "rb");
    if (stream == NULL) {
        return errno == ENOENT ? 0 : errno != 0 ? errno : EIO;
    }
    fclose(stream);
    return EEXIST;
}

int write_part(const struct file *file, const struct settings *settings, enum part part, const char *path)
{
    struct pieces pieces = find_part(file, settings, part);
    errno = 0;
    FILE *stream = fopen(path, "wb");
    if (stream == NULL) {
        return errno != 0 ? errno : EIO;
    }
    int whole = 1;
    for (size_t i = 0; i < pieces.count; i++) {
        size_t count = 4 * (pieces.spans[i].past - pieces.spans[i].first);
        whole &= fwrite(file->bytes + 4 * pieces.spans[i].first, 1, count, stream) == count;
    }
    int closed = fclose(stream) == 0;
    return whole && closed ? 0 : errno != 0 ? errno : EIO;
}

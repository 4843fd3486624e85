/* The runner's store as text. */
#include "natural.h"
#include "store.h"

static const char no_form[] = "no word of the form x1=5 or a0[3]=7";

/* The value that a word names, up to its `=`. */
static const char *find_value(struct store *store, const char **word, int64_t **value)
{
    uint64_t number = 0;
    uint64_t index = 0;
    char sort = *(*word)++;
    uint64_t most = sort == 'x' ? FLOW_SCALARS - 1 : FLOW_ARRAYS - 1;
    enum taken taken = sort == 'x' || sort == 'a' ? take_number(word, most, &number) : NO_DIGIT;
    if (taken == TOO_LARGE) {
        return sort == 'x' ? "scalars are x0 to x31" : "arrays are a0 to a31";
    }
    if (taken == TAKEN && sort == 'x') {
        *value = &store->scalars[number];
        return NULL;
    }
    if (taken == NO_DIGIT || *(*word)++ != '[') {
        return no_form;
    }
    taken = take_number(word, FLOW_INDEXES - 1, &index);
    *value = &store->values[FLOW_INDEXES * number + index];
    return taken == TOO_LARGE ? "indexes are 0 to 63" : taken == NO_DIGIT || *(*word)++ != ']' ? no_form : NULL;
}

/* Sets what a word says. */
static const char *set_word(struct store *store, const char *word)
{
    const uint64_t largest = INT64_MAX;
    int64_t *value = NULL;
    uint64_t number = 0;
    const char *wrong = find_value(store, &word, &value);
    if (wrong != NULL || *word++ != '=') {
        return wrong != NULL ? wrong : no_form;
    }
    int negative = *word == '-';
    word += negative;
    enum taken taken = take_number(&word, negative ? largest + 1 : largest, &number);
    if (taken == NO_DIGIT || *word != '\0') {
        return no_form;
    }
    if (taken == TOO_LARGE) {
        return "a value outside the signed 64-bit range";
    }
    *value = !negative ? (int64_t)number : number > largest ? INT64_MIN : -(int64_t)number;
    return NULL;
}

static void step(struct source *source)
{
    source->line += source->c == '\n';
    if (source->stream != NULL) {
        source->c = getc(source->stream);
    } else {
        source->c = *source->text == '\0' ? EOF : (unsigned char)*source->text++;
    }
}

static int is_blank(int c)
{
    return c == ' ' || c == '\t' || c == '\n' || c == '\r' || c == ',';
}

/* Steps over blanks and comments, to a word or the end. */
static void skip(struct source *source)
{
    int comment = 0;
    while (source->c != EOF && (comment || is_blank(source->c) || source->c == '#')) {
        comment = source->c != '\n' && (comment || source->c == '#');
        step(source);
    }
}

/* Takes the word at hand. A byte 0 is none of a word's. */
static const char *take_word(struct source *source)
{
    size_t count = 0;
    while (source->c != EOF && !is_blank(source->c) && source->c != '#' && count + 1 < MOST_WORD) {
        source->word[count++] = (char)(source->c == '\0' ? '?' : source->c);
        step(source);
    }
    source->word[count] = '\0';
    return count + 1 < MOST_WORD ? NULL : "too long a word";
}

const char *set_words(struct store *store, struct source *source)
{
    source->line = 1;
    source->c = ' ';
    for (skip(source); source->c != EOF; skip(source)) {
        const char *wrong = take_word(source);
        wrong = wrong != NULL ? wrong : set_word(store, source->word);
        if (wrong != NULL) {
            return wrong;
        }
    }
    return NULL;
}

int64_t value_at(const struct store *store, size_t cell)
{
    return cell < FLOW_SCALARS ? store->scalars[cell] : store->values[cell - FLOW_SCALARS];
}

void name_cell(size_t cell, char name[MOST_NAME])
{
    if (cell < FLOW_SCALARS) {
        snprintf(name, MOST_NAME, "x%zu", cell);
    } else {
        size_t value = cell - FLOW_SCALARS;
        snprintf(name, MOST_NAME, "a%zu[%zu]", value / FLOW_INDEXES, value % FLOW_INDEXES);
    }
}

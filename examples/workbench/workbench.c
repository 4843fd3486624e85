/* workbench CERTIFICATE: shows what each command of a certificate modifies, puts other commands in their place, and checks the result, by
 * flow_check_masks and flow_put of the proved library, under the standard settings. It takes lines from standard input, which `help` lists;
 * # starts a comment.
 * Exit status: 0 if every line was carried out, a refusal being an answer as any other; 1 if a line was bad; 2 if the certificate or the
 * lines can't be read, standard output can't be written, or for bad use. */
#define _POSIX_C_SOURCE 200809L
#include <ctype.h>
#include <errno.h>
#include <stdio.h>
#include <stdlib.h>
#include <string.h>
#include <unistd.h>
#include <flowcheck.h>

enum { CARRIED_OUT = 0, BAD_LINE = 1, FAILED = 2, MOST_KIND = 63, MOST_PAYLOAD = 67108863, MOST_NAME = 4096 };

/* In a file that reads, the words of kind 24 to 31 and 38 are the commands, and the kinds below 24 are those of expressions. */
enum { SKIP = 24, ASSERT = 26, TO_ARRAY = 28, FOR = 31, CALL = 38 };

/* The certificate, with room for a byte too many; the masks of its words, if `answer`, that of the last check, says that it reads. */
static uint8_t file[FLOW_MOST_BYTES + 1];
static size_t count;
static uint64_t masks[FLOW_MOST_WORDS];
static uint32_t answer;

/* The words of the line behind its first, and how many; its number, or 0 if there is none; whether a person types; whether it is the last. */
static char *words[FLOW_MOST_WORDS + 1];
static size_t behind, line_number;
static int typed, ended;

/* Says on one line what is wrong, and with which line if these are a script; the status. */
static int complain(int status, const char *what, const char *said)
{
    fflush(stdout);
    fputs("workbench: ", stderr);
    if (line_number > 0 && !typed) {
        fprintf(stderr, "line %zu: ", line_number);
    }
    for (; *what != '\0'; what++) {
        putc(iscntrl((unsigned char)*what) ? '?' : *what, stderr);
    }
    fprintf(stderr, ": %s\n", said);
    return status;
}

/* Reads a number that is at most `most` and the character behind it; what follows, or NULL if it is none. */
static const char *read_number(const char *text, size_t most, char end, size_t *number)
{
    const char *first = text;
    for (*number = 0; isdigit((unsigned char)*text) && *number <= most; text++) {
        *number = 10 * *number + (size_t)(*text - '0');
    }
    return text > first && *number <= most && *text == end ? text + 1 : NULL;
}

/* Reads a word KIND:PAYLOAD into four bytes, the low one first. */
static int read_word(const char *text, uint8_t *bytes)
{
    size_t kind, payload;
    const char *rest = read_number(text, MOST_KIND, ':', &kind);
    if (rest == NULL || read_number(rest, MOST_PAYLOAD, '\0', &payload) == NULL) {
        return 0;
    }
    for (int i = 0; i < 4; i++) {
        bytes[i] = (uint8_t)((kind << 26 | payload) >> 8 * i);
    }
    return 1;
}

static unsigned kind_at(size_t place)
{
    return file[4 * place + 3] >> 2;
}

static void print_word(size_t place)
{
    const uint8_t *bytes = file + 4 * place;
    printf(" %u:%u", kind_at(place), bytes[0] | (unsigned)bytes[1] << 8 | (unsigned)bytes[2] << 16 | (bytes[3] & 3u) << 24);
}

static void print_answer(uint32_t told)
{
    if (flow_accepted(told)) {
        printf("accepted %u\n", flow_count(told));
    } else {
        printf("refused %u %u: %s\n", flow_number(told), flow_place(told), flow_meaning(flow_number(told)));
    }
}

/* What a mask says, as ` x0 x31 a5`: bit i is scalar i, bit 32 + i array i. */
static void print_mask(uint64_t mask)
{
    for (unsigned i = 0; i < 64; i++) {
        if (mask >> i & 1) {
            printf(" %c%u", i < 32 ? 'x' : 'a', i % 32);
        }
    }
    fputs(mask == 0 ? " nothing" : "", stdout);
}

/* The commands and what they modify: all, or those that modify something else than before. */
static void print_commands(const uint64_t *before)
{
    for (size_t place = 0; place < count / 4; place++) {
        int command = (kind_at(place) >= SKIP && kind_at(place) <= FOR) || kind_at(place) == CALL;
        if (command && (before == NULL || masks[place] != before[place])) {
            printf("%zu", place);
            print_word(place);
            putchar(' ');
            print_mask(masks[place]);
            if (before != NULL) {
                printf(" (before:");
                print_mask(before[place]);
                putchar(')');
            }
            putchar('\n');
        }
    }
}

static int check(void)
{
    answer = flow_check_masks(file, count, masks, FLOW_MOST_WORDS, FLOW_STANDARD_SETTINGS);
    print_answer(answer);
    return CARRIED_OUT;
}

/* The line that puts the command at a place as it is: its word, and those of its expression. */
static int show_one(const char *word)
{
    size_t place;
    if (read_number(word, FLOW_MOST_WORDS - 1, '\0', &place) == NULL) {
        return complain(BAD_LINE, word, "no place of a word");
    }
    if (place >= count / 4 || (kind_at(place) != SKIP && (kind_at(place) < ASSERT || kind_at(place) > TO_ARRAY))) {
        return complain(BAD_LINE, word, "no skip, assert or assignment starts there");
    }
    printf("put %zu", place);
    do {
        print_word(place);
    } while (kind_at(++place) < SKIP);
    putchar('\n');
    return CARRIED_OUT;
}

static int show(void)
{
    if (!flow_stored(answer)) {
        print_answer(answer);
    } else if (behind > 0) {
        return show_one(words[0]);
    } else {
        print_commands(NULL);
    }
    return CARRIED_OUT;
}

static int put(void)
{
    static uint8_t command[FLOW_MOST_BYTES];
    static uint64_t before[FLOW_MOST_WORDS];
    size_t place;
    if (read_number(words[0], FLOW_MOST_WORDS - 1, '\0', &place) == NULL) {
        return complain(BAD_LINE, words[0], "no place of a word");
    }
    for (size_t i = 1; i < behind; i++) {
        if (!read_word(words[i], command + 4 * (i - 1))) {
            return complain(BAD_LINE, words[i], "no word KIND:PAYLOAD, from 0:0 to 63:67108863");
        }
    }
    memcpy(before, masks, sizeof masks);
    uint32_t done = flow_put(file, count, masks, FLOW_MOST_WORDS, place, command, 4 * (behind - 1), FLOW_STANDARD_SETTINGS);
    if (flow_was_put(done)) {
        puts("put");
        print_commands(before);
    } else {
        print_answer(done);
    }
    return CARRIED_OUT;
}

/* No file is written over but the one that was written last. */
static int write_file(void)
{
    static char last[MOST_NAME];
    const char *name = words[0];
    FILE *out = fopen(name, strcmp(name, last) == 0 ? "wb" : "wbx");
    if (out == NULL) {
        return complain(BAD_LINE, name, strerror(errno));
    }
    snprintf(last, sizeof last, "%s", name);
    size_t done = fwrite(file, 1, count, out);
    if (fclose(out) != 0 || done != count) {
        return complain(BAD_LINE, name, "it can't be written");
    }
    printf("written, %zu bytes\n", count);
    return CARRIED_OUT;
}

static int quit(void)
{
    ended = 1;
    return CARRIED_OUT;
}

static int help(void)
{
    puts("show             each command: its place, its first word, what it modifies\n"
         "show PLACE       the line that puts the skip, assert or assignment at PLACE as it is\n"
         "put PLACE WORDS  puts another of equal length there, by its words, as 27:0 1:5, and shows\n"
         "                 which commands now modify something else\n"
         "check            accepted COUNT, or refused NUMBER PLACE and what that means\n"
         "write FILE       writes the certificate as it is now, to a new file or the one written last\n"
         "help, quit       these lines; the end");
    return CARRIED_OUT;
}

/* The lines by their first words, with the least and the most words behind. */
static const struct {
    const char *name;
    size_t least, most;
    int (*carry_out)(void);
} lines[] = {
    {"show", 0, 1, show}, {"put", 1, FLOW_MOST_WORDS, put}, {"check", 0, 0, check},
    {"write", 1, 1, write_file}, {"help", 0, 0, help}, {"quit", 0, 0, quit},
};

static int carry_out(char *line)
{
    static const char space[] = " \t\r\n";
    const char *first = strtok(line, space);
    if (first == NULL || first[0] == '#') {
        return CARRIED_OUT;
    }
    behind = 0;
    for (char *word = strtok(NULL, space); word != NULL && word[0] != '#' && behind <= FLOW_MOST_WORDS; word = strtok(NULL, space)) {
        words[behind++] = word;
    }
    for (size_t i = 0; i < sizeof lines / sizeof lines[0]; i++) {
        if (strcmp(first, lines[i].name) == 0) {
            return behind < lines[i].least ? complain(BAD_LINE, first, "words are missing")
                : behind > lines[i].most ? complain(BAD_LINE, first, "too many words") : lines[i].carry_out();
        }
    }
    return complain(BAD_LINE, first, "no such line; `help` lists them");
}

/* Carries out the lines of standard input; the worst status of one. */
static int carry_out_lines(void)
{
    char *line = NULL;
    size_t size = 0;
    int status = CARRIED_OUT;
    typed = isatty(STDIN_FILENO);
    while (!ended) {
        fputs(typed ? "> " : "", stdout);
        fflush(stdout);
        ssize_t length = getline(&line, &size, stdin);
        if (length < 0) {
            fputs(typed ? "\n" : "", stdout);
            break;
        }
        line_number++;
        status |= strlen(line) < (size_t)length ? complain(BAD_LINE, "the line", "it has a byte 0") : carry_out(line);
    }
    free(line);
    line_number = 0;
    return status;
}

/* Reads the certificate; the error number of what went wrong, or 0. */
static int read_certificate(const char *name)
{
    FILE *in = fopen(name, "rb");
    if (in == NULL) {
        return errno;
    }
    count = fread(file, 1, sizeof file, in);
    int error = ferror(in) ? errno : 0;
    fclose(in);
    return error != 0 ? error : count > FLOW_MOST_BYTES ? EFBIG : 0;
}

int main(int argc, char **argv)
{
    if (argc != 2) {
        return complain(FAILED, "usage", "workbench CERTIFICATE");
    }
    int error = read_certificate(argv[1]);
    if (error != 0) {
        return complain(FAILED, argv[1], strerror(error));
    }
    check();
    int status = carry_out_lines();
    if (fflush(stdout) != 0 || ferror(stdout) || ferror(stdin)) {
        return ferror(stdin) ? complain(FAILED, "standard input", "it can't be read")
            : complain(FAILED, "standard output", "it can't be written");
    }
    return status;
}

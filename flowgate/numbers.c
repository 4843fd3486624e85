/* numbers FILE: the answer of flow_check_masks, and the masks that it stored, in hexadecimal.
 * numbers FILE PLACE COMMAND: the same of flow_put, with the bytes of the file COMMAND. For the files written out in docs/FORMAT.md. */
#include <stdio.h>
#include <stdlib.h>

#include "file.h"

static struct file file;
static struct file command;
static uint64_t masks[FLOW_MOST_WORDS];

/* The answer, and the masks if they were written. */
static void print(uint32_t answer, int put)
{
    if (put && flow_was_put(answer)) {
        printf("put");
    } else if (flow_accepted(answer)) {
        printf("accepted %u", flow_count(answer));
    } else {
        printf("refused %u %u", flow_number(answer), flow_place(answer));
    }
    if (flow_stored(answer)) {
        printf(" and");
        for (size_t i = 0; i < count_words(&file); i++) {
            printf(" %llx", (unsigned long long)masks[i]);
        }
    }
    putchar('\n');
}

int main(int count, char **arguments)
{
    if ((count != 2 && count != 4) || read_file(arguments[1], &file) != 0 || (count == 4 && read_file(arguments[3], &command) != 0)) {
        fputs("usage: numbers FILE [PLACE COMMAND]\n", stderr);
        return 2;
    }
    if (count == 2) {
        print(flow_check_masks(file.bytes, file.count, masks, FLOW_MOST_WORDS, FLOW_STANDARD_SETTINGS), 0);
    } else {
        size_t place = strtoul(arguments[2], NULL, 10);
        uint32_t answer
            = flow_put(file.bytes, file.count, masks, FLOW_MOST_WORDS, place, command.bytes, command.count, FLOW_STANDARD_SETTINGS);
        print(answer, 1);
    }
    return 0;
}

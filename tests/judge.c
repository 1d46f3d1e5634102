/* Takes a script from standard input, a step a line, through hfsc_judge of hfsc.h, and prints a line for each:
 *    tree HEX           the class-tree file of these bytes; - is an empty one           tree BYTES
 *    judge FIRST N N .. a log of these numbers, from that first stamp, over that file   judge ANSWER OUT OUT OUT OUT
 * ANSWER is what the function answered, and after it stand the four numbers that it wrote. A log may have any number of numbers, and none.
 * A script begins with `tree`, so scripts can stand one after another. Status 1 where a line is no step. */
#include <errno.h>
#include <inttypes.h>
#include <stdio.h>
#include <stdlib.h>
#include <string.h>
#include "hfsc.h"

enum { LINE = 1 << 22, OUT = 4, BESIDE = 16, UNSET = 0xA5 };

static char line[LINE];
static uint8_t file[LINE / 2];
static size_t bytes;
static uint32_t lent_log[LINE / 2 + BESIDE];
static struct {
    uint64_t before[BESIDE], numbers[OUT], after[BESIDE];
} out; /* what is written beside the four numbers shows */

/* The bytes of hexadecimal digits, two to a byte, or none for -; 0 where it is neither. */
static int digit(char c) { return c >= '0' && c <= '9' ? c - '0' : c >= 'a' && c <= 'f' ? c - 'a' + 10 : -1; }
static int file_of(const char *hex) {
    bytes = 0;
    if (strcmp(hex, "-\n") == 0)
        return 1;
    for (; digit(hex[0]) >= 0 && digit(hex[1]) >= 0; hex += 2)
        file[bytes++] = (uint8_t)(16 * digit(hex[0]) + digit(hex[1]));
    return bytes > 0 && strcmp(hex, "\n") == 0;
}

/* The number after a space, and where the text goes on; 0 where there is none of 32 bits. */
static int next_number(const char **text, uint32_t *number) {
    char *end;
    if (**text != ' ' || digit((*text)[1]) < 0)
        return 0;
    errno = 0;
    unsigned long long value = strtoull(*text + 1, &end, 10);
    *text = end;
    *number = (uint32_t)value;
    return errno == 0 && value <= UINT32_MAX;
}

/* A log and its first stamp; 0 where the text is no list of numbers. Numbers that are not the log's stand after it, should more be read. */
static int log_of(const char *text, uint32_t *first, size_t *numbers) {
    if (!next_number(&text, first))
        return 0;
    for (*numbers = 0; next_number(&text, &lent_log[*numbers]);)
        ++*numbers;
    memset(lent_log + *numbers, UNSET, BESIDE * sizeof *lent_log);
    return strcmp(text, "\n") == 0;
}

static void judge(uint32_t first, size_t numbers) {
    memset(&out, UNSET, sizeof out);
    printf("judge %" PRIu32, hfsc_judge(file, bytes, first, lent_log, numbers, out.numbers));
    for (int place = 0; place < OUT; place++)
        printf(" %" PRIu64, out.numbers[place]);
    for (size_t at = 0; at < sizeof out.before; at++)
        if (((uint8_t *)out.before)[at] != UNSET || ((uint8_t *)out.after)[at] != UNSET) {
            printf(" and numbers beside them");
            break;
        }
    putchar('\n');
}

/* A step; 0 where the line is none. */
static int step(void) {
    uint32_t first;
    size_t numbers;
    if (strncmp(line, "tree ", 5) == 0 && file_of(line + 5))
        printf("tree %zu\n", bytes);
    else if (strncmp(line, "judge ", 6) == 0 && log_of(line + 5, &first, &numbers))
        judge(first, numbers);
    else
        return 0;
    return 1;
}

int main(void) {
    while (fgets(line, sizeof line, stdin) != NULL)
        if (!step()) {
            fprintf(stderr, "judge: no step: %.60s\n", line);
            return 1;
        }
    return 0;
}

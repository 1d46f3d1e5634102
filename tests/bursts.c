/* Takes a script from standard input, a step a line, through the functions of hfsc.h that read a class-tree file in bursts, and prints a line for each:
 *    begin         a new file                                      begin seen COUNT TOLD kept SUM
 *    offer HEX     a burst of these bytes; - is an empty one       offer REFUSAL seen COUNT TOLD kept SUM
 *    zeros N M     M bursts of N zeros                             zeros REFUSAL seen COUNT TOLD kept SUM
 *    end           the end is told                                 end REFUSAL class CLASS seen COUNT TOLD kept SUM
 *    start STAMP   the end is told, and a state starts             start REFUSAL class CLASS seen COUNT TOLD kept SUM calls SUM
 * REFUSAL is the number that was answered. The first sum is over the kept bytes, the second over what the state answers to calls (`asked` below).
 * A script begins with `begin`, so scripts can stand one after another. Status 1 where a line is no step. */
#include <inttypes.h>
#include <stdio.h>
#include <stdlib.h>
#include <string.h>
#include "hfsc.h"

enum { LINE = 1 << 20, ASKED = 65, APART = 1000, UNSET = 0xA5, BESIDE = 256 };

static uint64_t words[HFSC_WORDS], seen[2];
static uint16_t lengths[HFSC_LENGTHS];
static struct {
    uint8_t before[BESIDE], kept[HFSC_KEPT], after[BESIDE];
} lent; /* what is written beside the kept bytes shows */
static char line[LINE];
static uint8_t burst[LINE / 2];

/* FNV-1a, 64 bits. */
static uint64_t add(uint64_t sum, uint8_t byte) { return (sum ^ byte) * UINT64_C(0x100000001b3); }
static uint64_t sum_of(const uint8_t *bytes, size_t count) {
    uint64_t sum = UINT64_C(0xcbf29ce484222325);
    for (size_t at = 0; at < count; at++)
        sum = add(sum, bytes[at]);
    return sum;
}
static uint64_t add_number(uint64_t sum, uint64_t number) {
    for (int byte = 0; byte < 8; byte++)
        sum = add(sum, (uint8_t)(number >> 8 * byte));
    return sum;
}

/* A sum over what a state answers to a packet for each class, a tick apart, then to as many departures; over the virtual times, and the clock. */
static uint64_t add_departure(uint64_t sum, uint32_t stamp) {
    uint64_t out[HFSC_DEPARTURE];
    sum = add_number(sum, hfsc_depart(words, lengths, stamp, out));
    for (int place = 0; place < HFSC_DEPARTURE; place++)
        sum = add_number(sum, out[place]);
    return sum;
}
static uint64_t asked(uint32_t stamp) {
    uint64_t sum = sum_of(NULL, 0), number;
    for (uint32_t leaf = 0; leaf < ASKED; leaf++) {
        sum = add_number(sum, hfsc_arrive(words, lengths, stamp + leaf, leaf, 9000 - leaf, &number));
        sum = add_number(sum, number);
    }
    for (uint32_t turn = 1; turn <= ASKED; turn++)
        sum = add_departure(sum, stamp + APART * turn);
    for (uint32_t class_number = 0; class_number < ASKED; class_number++)
        sum = add_number(sum, hfsc_virtual_time(words, lengths, class_number));
    return add_number(sum, hfsc_clock(words, lengths));
}

/* The bytes of hexadecimal digits, two to a byte, or none for -; 0 where it is neither. */
static int digit(char c) { return c >= '0' && c <= '9' ? c - '0' : c >= 'a' && c <= 'f' ? c - 'a' + 10 : -1; }
static int burst_of(const char *hex, size_t *bytes) {
    *bytes = 0;
    if (strcmp(hex, "-\n") == 0)
        return 1;
    for (; digit(hex[0]) >= 0 && digit(hex[1]) >= 0; hex += 2)
        burst[(*bytes)++] = (uint8_t)(16 * digit(hex[0]) + digit(hex[1]));
    return *bytes > 0 && strcmp(hex, "\n") == 0;
}

/* Bursts of zeros. They all have to be answered alike; if not, the answer is no refusal's number. */
static uint32_t offer_zeros(size_t bytes, uint64_t times) {
    uint8_t *zeros = calloc(bytes + 1, 1);
    if (zeros == NULL)
        exit(1);
    uint32_t answer = hfsc_bursts_offer(lent.kept, seen, zeros, bytes);
    for (uint64_t time = 1; time < times; time++)
        if (hfsc_bursts_offer(lent.kept, seen, zeros, bytes) != answer)
            answer = UINT32_MAX;
    free(zeros);
    return answer;
}

static void print_seen(void) {
    printf(" seen %" PRIu64 " %" PRIu64 " kept %016" PRIx64, seen[0], seen[1], sum_of(lent.kept, HFSC_KEPT));
    for (size_t at = 0; at < BESIDE; at++)
        if (lent.before[at] != UNSET || lent.after[at] != UNSET) {
            printf(" and bytes beside them");
            break;
        }
}

/* A step; 0 where the line is none. */
static int step(void) {
    uint32_t fault = UINT32_MAX, refusal, stamp;
    size_t bytes;
    uint64_t times;
    if (strcmp(line, "begin\n") == 0) {
        hfsc_bursts_begin(lent.kept, seen);
        printf("begin");
    } else if (strncmp(line, "offer ", 6) == 0 && burst_of(line + 6, &bytes)) {
        printf("offer %" PRIu32, hfsc_bursts_offer(lent.kept, seen, burst, bytes));
    } else if (sscanf(line, "zeros %zu %" SCNu64, &bytes, &times) == 2) {
        printf("zeros %" PRIu32, offer_zeros(bytes, times));
    } else if (strcmp(line, "end\n") == 0) {
        refusal = hfsc_bursts_end(lent.kept, seen, &fault);
        printf("end %" PRIu32 " class %" PRIu32, refusal, fault);
    } else if (sscanf(line, "start %" SCNu32, &stamp) == 1) {
        memset(words, UNSET, sizeof words);
        memset(lengths, UNSET, sizeof lengths);
        refusal = hfsc_start_bursts(words, lengths, lent.kept, seen, stamp, &fault);
        printf("start %" PRIu32 " class %" PRIu32, refusal, fault);
        print_seen();
        printf(" calls %016" PRIx64 "\n", asked(stamp));
        return 1;
    } else {
        return 0;
    }
    print_seen();
    putchar('\n');
    return 1;
}

int main(void) {
    memset(&lent, UNSET, sizeof lent);
    memset(seen, UNSET, sizeof seen);
    while (fgets(line, sizeof line, stdin) != NULL)
        if (!step()) {
            fprintf(stderr, "bursts: no step: %.60s\n", line);
            return 1;
        }
    return 0;
}

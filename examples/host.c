// A host in C: starts the scheduler from a tree file that comes in bursts, and stops where that is refused; offers a packet to each of the
// studio's leaves, and lets the link send; writes a tree of its own as a file, starts from that, and offers a part of it in bursts.
#include <inttypes.h>
#include <stdio.h>
#include "hfsc.h"

static uint64_t words[HFSC_WORDS];
static uint16_t lengths[HFSC_LENGTHS];

// all of a file but its last byte, in two bursts; that byte comes once the end was told, too late
static void cut(const uint8_t *file, size_t bytes) {
    uint8_t kept[HFSC_KEPT];
    uint64_t seen[2];
    uint32_t fault;
    hfsc_bursts_begin(kept, seen);
    printf("offer: %" PRIu32 "\n", hfsc_bursts_offer(kept, seen, file, 20));
    printf("offer: %" PRIu32 "\n", hfsc_bursts_offer(kept, seen, file + 20, bytes - 21));
    uint32_t refusal = hfsc_bursts_end(kept, seen, &fault);
    printf("end: %" PRIu32 " class %" PRIu32 " bytes %" PRIu64 "\n", refusal, fault, seen[0]);
    refusal = hfsc_bursts_offer(kept, seen, file + bytes - 1, 1);
    printf("offer: %" PRIu32 " bytes %" PRIu64 "\n", refusal, seen[0]);
}

int main(void) {
    uint8_t kept[HFSC_KEPT], burst[7], file[HFSC_FILE];
    uint64_t seen[2], number, out[HFSC_DEPARTURE];
    uint32_t fault, total, stamp = 4294967290u; // the counter comes round during the run
    hfsc_bursts_begin(kept, seen);
    for (size_t bytes; (bytes = fread(burst, 1, sizeof burst, stdin)) > 0;)
        hfsc_bursts_offer(kept, seen, burst, bytes);
    uint32_t refusal = hfsc_start_bursts(words, lengths, kept, seen, stamp, &fault);
    if (refusal != 0) {
        fprintf(stderr, "start refused: %" PRIu32 " class %" PRIu32 "\n", refusal, fault);
        return 1;
    }
    printf("start: %" PRIu32 " class %" PRIu32 " bytes %" PRIu64 "\n", refusal, fault, seen[0]);
    for (uint32_t leaf = 3; leaf < 8; leaf++)
        printf("arrive: %" PRIu32 "\n", hfsc_arrive(words, lengths, stamp, leaf, 200 * leaf, &number));
    for (; hfsc_depart(words, lengths, stamp, out) == 0 && out[HFSC_LEAVES]; stamp += out[HFSC_LENGTH] + HFSC_FRAMING)
        printf("tick %" PRIu64 ": class %" PRIu64 " number %" PRIu64 " length %" PRIu64 " rule %" PRIu64 " deadline %" PRIu64 "\n",
               hfsc_clock(words, lengths), out[HFSC_LEAF], out[HFSC_NUMBER], out[HFSC_LENGTH], out[HFSC_RULE], out[HFSC_DEADLINE]);
    // a root and one leaf, with a straight curve
    const uint32_t tree[] = {2, 0, 65536, 0, 0, 0, 0, 0, 1, 1, 65536, 0, 0};
    refusal = hfsc_write(tree, sizeof tree / sizeof *tree, file, sizeof file, &total, &fault);
    printf("write: %" PRIu32 " class %" PRIu32 " bytes %" PRIu32 "\n", refusal, fault, total);
    refusal = hfsc_start_file(words, lengths, file, total, stamp, &fault);
    printf("start: %" PRIu32 " class %" PRIu32 "\n", refusal, fault);
    cut(file, total);
    return 0;
}

/* The calls of crates/bench over again: the same trees, the same generator, the same line printed. */
#include "hfsc.h"

#include <inttypes.h>
#include <stdio.h>
#include <stdlib.h>
#include <string.h>

#define REFUSED (UINT64_C(1) << 32)

static struct hfsc s;
static uint32_t seed, stamp, last_class, last_ticks;
static uint64_t left, sum, mix;

static void note(uint64_t number) {
    sum += number;
    mix += sum;
}

static void arrives(uint32_t class, uint32_t pause) {
    uint64_t number;
    seed = seed * 1664525 + 1013904223;
    stamp += pause;
    int refusal = hfsc_arrive(&s, stamp, class, 1 + (seed >> 16) * 1500 / 65536, &number);
    note(refusal ? REFUSED : number);
}

static void departs(void) {
    struct packet p;
    stamp += last_ticks;
    if (hfsc_depart(&s, stamp, &p)) {
        note(REFUSED);
        return;
    }
    note(p.class);
    note(p.number);
    last_class = p.class;
    last_ticks = weigh(p.length);
    left++;
    if (p.real_time) note(1);
    if (p.timed) {
        note(p.eligible);
        note(p.deadline);
    }
}

#define WIDE 20 /* the classes above the leaves, in the tree with branches at every level */

/* The classes up to `above` stand above the leaves: each is the parent of the next, and the last that of all leaves. Wide: four beneath
   the root, four beneath each of those, and the leaves in turn beneath the sixteen. */
static void grow(struct tree *tree, uint32_t above, uint32_t leaves) {
    uint32_t rate = 32768 / (leaves + 1), bend = 2000 * (leaves + 1);
    const struct curve curves[] = {{FRONT_LOADED, 2 * rate, bend, rate}, {DELAYED, 2 * rate, bend, 0}, {NONE, 0, 0, 0}, {STRAIGHT, rate, 0, 0}};
    int wide = above == WIDE;
    memset(tree, 0, sizeof *tree);
    tree->count = above + 1 + leaves;
    tree->class[0].share = 65536;
    for (uint32_t i = 1; i <= above; i++) {
        tree->class[i].parent = !wide ? i - 1 : i < 5 ? 0 : 1 + (i - 5) / 4;
        tree->class[i].share = wide ? 1024 * i : 65536;
    }
    for (uint32_t leaf = 0; leaf < leaves; leaf++) {
        tree->class[above + 1 + leaf].parent = wide ? 5 + leaf % 16 : above;
        tree->class[above + 1 + leaf].share = 1024 + 64 * leaf;
        tree->class[above + 1 + leaf].curve = curves[leaf % 4];
    }
}

/* Bursts of 20 packets: all of one have left before the next comes. */
static void bursts(uint32_t above, uint32_t leaves, uint32_t pairs) {
    for (uint32_t burst = 0; burst < pairs / 20; burst++) {
        for (int i = 0; i < 20; i++) arrives(above + 1 + (seed >> 16) * leaves / 65536, seed % 1024);
        for (int i = 0; i < 20; i++) departs();
    }
}

/* Some packets for each leaf, then after each departure one for the same leaf: with two each always has some, with one each is
   emptied and filled again. */
static void refills(uint32_t above, uint32_t leaves, uint32_t pairs, int each) {
    while (each--)
        for (uint32_t i = 0; i < leaves; i++) arrives(above + 1 + i, 0);
    while (pairs--) {
        departs();
        arrives(last_class, 0);
    }
}

static int offered(uint32_t above, uint32_t length) {
    uint64_t number;
    return hfsc_arrive(&s, stamp, above + 1, length, &number);
}

/* Packets of 9,000 bytes for the first leaf, each of which leaves before the next comes, until one is refused. 2,256 bytes are left then: room for 2,236. */
static void fill(uint32_t above, uint32_t pairs) {
    const uint32_t lengths[] = {9000, 2237, 2236, 1};
    while (pairs-- && !offered(above, 9000)) departs();
    for (int i = 0; i < 4; i++) printf("%s%u: %d", i ? ", " : "", lengths[i], offered(above, lengths[i]));
    printf("\n");
}

int main(int argc, char **argv) {
    if (argc != 6) {
        fprintf(stderr, "usage: %s flat|deep|wide LEAVES bursty|waiting|emptied|full CALLS SEED\n", argv[0]);
        return 2;
    }
    uint32_t above = !strcmp(argv[1], "deep") ? 7 : !strcmp(argv[1], "wide") ? WIDE : 0, leaves = atoi(argv[2]), pairs = atoi(argv[4]) / 2;
    struct tree tree;
    seed = atoi(argv[5]);
    if (leaves > 63 - above) return 2;
    grow(&tree, above, leaves);
    if (hfsc_start(&s, &tree, 0)) return 1;
    if (!strcmp(argv[3], "waiting")) refills(above, leaves, pairs, 2);
    else if (!strcmp(argv[3], "emptied")) refills(above, leaves, pairs, 1);
    else if (!strcmp(argv[3], "full")) fill(above, pairs);
    else bursts(above, leaves, pairs);
    printf("left %" PRIu64 " sums %" PRIu64 " %" PRIu64 "\n", left, sum, mix);
    return 0;
}

/* Makes a run of calls over a class-tree file, in memory, and its log of so many records; then, by a word, does nothing more, replays the log's calls one by
   one from a new start, or judges the log. run counts the instructions of each: what the first takes, the others take too. */
#include <hfsc.h> /* the library's, not the twin's that stands beside this file */

#include <stdio.h>
#include <stdlib.h>
#include <string.h>

struct state {
    uint64_t words[HFSC_WORDS];
    uint16_t lengths[HFSC_LENGTHS];
};

static uint8_t file[HFSC_FILE];
static size_t bytes;
static uint32_t *records;
static size_t count;

static void die(const char *what) {
    fprintf(stderr, "bench: %s\n", what);
    exit(1);
}

static void start(struct state *s) {
    uint32_t fault;
    if (hfsc_start_file(s->words, s->lengths, file, bytes, 0, &fault)) die("the tree is refused");
}

static void note(uint32_t kind, uint32_t stamp, uint32_t leaf, uint32_t length) {
    uint32_t *r = records + 4 * count++;
    r[0] = kind, r[1] = stamp, r[2] = leaf, r[3] = length;
}

/* Packets of 1 to 1,500 bytes arrive for the leaves 3 to 7, some four of five as the link sends; it asks whenever it is free. */
static void make_log(size_t wanted) {
    static struct state s;
    uint32_t seed = 1, stamp = 0, ahead = 0;
    start(&s);
    while (count < wanted) {
        uint64_t out[HFSC_DEPARTURE], number;
        seed = seed * 1664525 + 1013904223;
        if (ahead < 8 && (seed >> 29) < 6) {
            uint32_t leaf = 3 + (seed >> 8) % 5, length = 1 + (seed >> 13) % 1500;
            if (hfsc_arrive(s.words, s.lengths, stamp, leaf, length, &number)) die("an arrival is refused");
            note(1, stamp, leaf, length), ahead++;
        } else {
            if (hfsc_depart(s.words, s.lengths, stamp, out)) die("a departure is refused");
            if (out[HFSC_LEAVES]) {
                note(2, stamp, (uint32_t)out[HFSC_LEAF], (uint32_t)out[HFSC_LENGTH]), ahead--;
                stamp += (uint32_t)out[HFSC_LENGTH] + HFSC_FRAMING;
            } else {
                note(3, stamp, 0, 0);
                stamp += 100;
            }
        }
    }
}

static void replay(void) {
    static struct state s;
    uint64_t out[HFSC_DEPARTURE], number;
    start(&s);
    for (const uint32_t *r = records; r < records + 4 * count; r += 4) {
        if (r[0] == 1 ? hfsc_arrive(s.words, s.lengths, r[1], r[2], r[3], &number) : hfsc_depart(s.words, s.lengths, r[1], out))
            die("a call of the log is refused");
    }
}

static void judge(void) {
    uint64_t out[4];
    if (hfsc_judge(file, bytes, 0, records, 4 * count, out) != HFSC_ACCEPTED) die("the log is not accepted");
}

int main(int argc, char **argv) {
    FILE *tree = argc == 4 ? fopen(argv[1], "rb") : NULL;
    size_t wanted = argc == 4 ? strtoul(argv[2], NULL, 10) : 0;
    if (!tree) die("usage: judge TREE RECORDS nothing|replay|judge");
    bytes = fread(file, 1, sizeof file, tree);
    fclose(tree);
    records = malloc(16 * wanted + 1);
    if (!records) die("no memory");
    make_log(wanted);
    if (!strcmp(argv[3], "replay")) replay();
    if (!strcmp(argv[3], "judge")) judge();
    printf("%zu records\n", count);
    return 0;
}

/* A fair service curve scheduler after document 01, in plain C: what bench/ measures the proved one against. */
#include <stdint.h>

enum kind { NONE, STRAIGHT, FRONT_LOADED, DELAYED };

struct curve {
    enum kind kind;
    uint32_t rate; /* of a front-loaded curve the first */
    uint32_t bend;
    uint32_t last; /* of a front-loaded curve */
};

struct tree {
    uint32_t count;
    struct {
        uint32_t parent, share;
        struct curve curve;
    } class[64];
};

/* A piece of a history: the tick or mark at which it starts, and the bytes sent before. */
struct piece {
    uint64_t start, sent;
};

struct class {
    uint32_t parent, share, child, sibling;
    uint32_t active;       /* 1 for a leaf in which a packet waits; else how many children are active */
    uint64_t virtual_time;
    uint64_t mark;
    uint64_t sent;         /* by either rule, from the class and all below it */
    struct piece fair;
    struct curve curve;
    uint64_t real;         /* bytes sent by the real-time rule */
    struct piece steep, flat;
    uint64_t came, left;   /* packets */
};

struct hfsc {
    uint64_t clock, bytes;
    uint32_t stamp, count;
    uint64_t eligible[64], deadline[64]; /* of each leaf's head; eligible is UINT64_MAX where there is none */
    struct class class[64];
    uint16_t length[64][64];
};

struct packet {
    uint32_t class, length;
    uint64_t number;
    int real_time, timed;
    uint64_t eligible, deadline;
};

enum { NONE_WAITS = -1 };

/* What a packet of so many bytes counts for, in bytes and in ticks of the link: with 8 bytes before it and a gap of 12 after it. */
uint64_t weigh(uint32_t length);

/* Each answers 0, or document 01's number of refusal; a departure also NONE_WAITS. */
int hfsc_start(struct hfsc *s, const struct tree *tree, uint32_t stamp);
int hfsc_arrive(struct hfsc *s, uint32_t stamp, uint32_t class, uint32_t length, uint64_t *number);
int hfsc_depart(struct hfsc *s, uint32_t stamp, struct packet *packet);

/* The rules of document 01, and request 2 of document 02, with a small state: two pieces stand for a leaf's whole history, one for a class's. */
#include "hfsc.h"

#include <string.h>

#define END (UINT64_C(1) << 40)
#define NEVER UINT64_MAX

static uint64_t parts(uint64_t bytes) { return bytes << 16; }
static uint64_t up(uint64_t n, uint64_t by) { return (n + by - 1) / by; }
static uint64_t larger(uint64_t a, uint64_t b) { return a < b ? b : a; }
uint64_t weigh(uint32_t length) { return (uint64_t)length + 20; }

/* ---- curves */

static uint64_t amount(const struct curve *c, uint64_t t) {
    switch (c->kind) {
    case STRAIGHT: return c->rate * t;
    case FRONT_LOADED: return t <= c->bend ? c->rate * t : c->rate * (uint64_t)c->bend + c->last * (t - c->bend);
    case DELAYED: return t <= c->bend ? 0 : c->rate * (t - c->bend);
    default: return 0;
    }
}

/* The least tick at which the curve has reached y parts. */
static uint64_t earliest(const struct curve *c, uint64_t y) {
    if (c->kind == FRONT_LOADED) {
        uint64_t turn = c->rate * (uint64_t)c->bend;
        return y <= turn ? up(y, c->rate) : c->bend + up(y - turn, c->last);
    }
    uint64_t t = up(y, c->rate);
    return c->kind == DELAYED && y ? c->bend + t : t;
}

/* Between two bends every curve is straight: the bends and the last slopes are enough to look at. */
static int fits(const struct tree *tree) {
    uint64_t slopes = 0;
    for (uint32_t i = 0; i < tree->count; i++) {
        const struct curve *c = &tree->class[i].curve;
        slopes += c->kind == NONE ? 0 : c->kind == FRONT_LOADED ? c->last : c->rate;
        if (c->kind < FRONT_LOADED) continue;
        uint64_t sum = 0;
        for (uint32_t j = 0; j < tree->count; j++) sum += amount(&tree->class[j].curve, c->bend);
        if (sum > parts(c->bend)) return 0;
    }
    return slopes <= 65536;
}

/* ---- trees */

static int rate_right(uint32_t rate) { return 1 <= rate && rate <= 65536; }
static int bend_right(uint32_t bend) { return 1 <= bend && bend <= 1048576; }

static int curve_right(const struct curve *c) {
    switch (c->kind) {
    case NONE: return 1;
    case STRAIGHT: return rate_right(c->rate);
    case FRONT_LOADED: return rate_right(c->rate) && bend_right(c->bend) && rate_right(c->last) && c->rate > c->last;
    case DELAYED: return bend_right(c->bend) && rate_right(c->rate);
    default: return 0;
    }
}

static int tree_check(const struct tree *tree) {
    uint32_t depth[64] = {0};
    char inside[64] = {0};
    int deep = 0, curved = 0;
    if (tree->count < 2 || tree->count > 64) return 4;
    for (uint32_t i = 0; i < tree->count; i++) {
        uint32_t parent = tree->class[i].parent, share = tree->class[i].share;
        const struct curve *c = &tree->class[i].curve;
        if (i == 0 ? parent || share != 65536 || c->kind != NONE : parent >= i || !rate_right(share) || !curve_right(c)) return 7;
        if (i == 0) continue;
        depth[i] = depth[parent] + 1;
        deep |= depth[i] > 8;
        inside[parent] = 1;
    }
    for (uint32_t i = 0; i < tree->count; i++) curved |= inside[i] && tree->class[i].curve.kind != NONE;
    return deep ? 8 : curved ? 9 : fits(tree) ? 0 : 10;
}

int hfsc_start(struct hfsc *s, const struct tree *tree, uint32_t stamp) {
    int refusal = tree_check(tree);
    memset(s, 0, sizeof *s);
    s->stamp = stamp;
    if (refusal) return refusal;
    s->count = tree->count;
    for (uint32_t i = tree->count; i-- > 0;) {
        struct class *c = &s->class[i], *parent = &s->class[tree->class[i].parent];
        c->parent = tree->class[i].parent;
        c->share = tree->class[i].share;
        c->curve = tree->class[i].curve;
        s->eligible[i] = NEVER;
        if (i == 0) break;
        c->sibling = parent->child;
        parent->child = i;
    }
    return 0;
}

/* ---- the clock */

static int tick(const struct hfsc *s, uint32_t stamp, uint64_t *now) {
    uint32_t elapsed = stamp - s->stamp;
    if (elapsed >> 31) return 14;
    *now = s->clock + elapsed;
    return *now > END ? 15 : 0;
}

static void move_clock(struct hfsc *s, uint64_t now, uint32_t stamp) {
    s->clock = now;
    s->stamp = stamp;
}

/* ---- a leaf's times */

/* The new piece, or the old one where that is lower on a line of this rate from now on. */
static void keep_lower(struct piece *old, struct piece new, uint64_t rate) {
    if (rate * (new.start - old->start) >= parts(new.sent - old->sent)) *old = new;
}

/* The first tick at which all pieces have reached so many bytes. */
static uint64_t reaches(const struct class *c, const struct curve *curve, uint64_t bytes) {
    uint64_t t = c->steep.start + earliest(curve, parts(bytes - c->steep.sent));
    if (curve->kind != FRONT_LOADED) return t;
    return larger(t, c->flat.start + earliest(curve, parts(bytes - c->flat.sent)));
}

static void add_piece(struct class *c, uint64_t now) {
    struct piece new = {now, c->real};
    keep_lower(&c->steep, new, c->curve.rate);
    if (c->curve.kind == FRONT_LOADED) keep_lower(&c->flat, new, c->curve.last);
}

/* A delayed curve is eligible as a straight one. */
static void set_eligible(struct hfsc *s, uint32_t class) {
    const struct class *c = &s->class[class];
    struct curve early = c->curve;
    if (early.kind == DELAYED) early.kind = STRAIGHT;
    s->eligible[class] = reaches(c, &early, c->real);
}

static void set_deadline(struct hfsc *s, uint32_t class, uint32_t length) {
    const struct class *c = &s->class[class];
    s->deadline[class] = reaches(c, &c->curve, c->real + weigh(length));
}

/* ---- virtual times */

static void bring_up(struct class *c) { c->virtual_time = c->fair.start + up(parts(c->sent - c->fair.sent), c->share); }

/* Where the class would start, but for the old mark: it is not yet counted as active. */
static uint64_t meeting(const struct hfsc *s, const struct class *parent) {
    uint64_t low = NEVER, high = 0;
    for (uint32_t i = parent->child; i; i = s->class[i].sibling) {
        const struct class *c = &s->class[i];
        if (parent->active && !c->active) continue;
        if (c->virtual_time < low) low = c->virtual_time;
        if (c->virtual_time > high) high = c->virtual_time;
    }
    return parent->active ? (low + high) / 2 : high;
}

/* The class turns active, then its parent if that was passive, and so upward. */
static void turn_active(struct hfsc *s, uint32_t class) {
    for (;;) {
        struct class *c = &s->class[class], *parent = &s->class[c->parent];
        if (class && !c->active) {
            parent->mark = larger(parent->mark, meeting(s, parent));
            if (parent->mark >= c->fair.start + up(parts(c->sent - c->fair.sent), c->share)) {
                c->fair.start = parent->mark;
                c->fair.sent = c->sent;
            }
            bring_up(c);
        }
        if (c->active++ || !class) return;
        class = c->parent;
    }
}

static void turn_passive(struct hfsc *s, uint32_t class) {
    while (--s->class[class].active == 0 && class) class = s->class[class].parent;
}

static void raise(struct hfsc *s, uint32_t class, uint64_t bytes) {
    for (; class; class = s->class[class].parent) {
        s->class[class].sent += bytes;
        bring_up(&s->class[class]);
    }
    s->class[0].sent += bytes;
}

/* ---- the calls */

int hfsc_arrive(struct hfsc *s, uint32_t stamp, uint32_t class, uint32_t length, uint64_t *number) {
    uint64_t now;
    int refusal = tick(s, stamp, &now);
    if (refusal) return refusal;
    if (class >= s->count || s->class[class].child) return 11;
    struct class *c = &s->class[class];
    if (length < 1 || length > 9000) return 12;
    if (c->came - c->left >= 64) return 13;
    if (s->bytes + weigh(length) > END) return 16;
    s->bytes += weigh(length);
    s->length[class][c->came % 64] = length;
    if (c->came == c->left) {
        if (c->curve.kind != NONE) {
            add_piece(c, now);
            set_eligible(s, class);
            set_deadline(s, class, length);
        }
        turn_active(s, class);
    }
    *number = c->came++;
    move_clock(s, now, stamp);
    return 0;
}

/* The real-time rule: class 0 where no leaf is eligible. */
static uint32_t soonest(const struct hfsc *s, uint64_t now) {
    uint32_t best = 0;
    uint64_t least = NEVER;
    for (uint32_t i = 1; i < s->count; i++)
        if (s->eligible[i] <= now && s->deadline[i] < least) {
            least = s->deadline[i];
            best = i;
        }
    return best;
}

/* The fair rule. */
static uint32_t lightest(const struct hfsc *s) {
    uint32_t class = 0;
    while (s->class[class].child) {
        uint32_t best = 0;
        uint64_t least = NEVER;
        for (uint32_t i = s->class[class].child; i; i = s->class[i].sibling)
            if (s->class[i].active && s->class[i].virtual_time < least) {
                least = s->class[i].virtual_time;
                best = i;
            }
        class = best;
    }
    return class;
}

int hfsc_depart(struct hfsc *s, uint32_t stamp, struct packet *packet) {
    uint64_t now;
    int refusal = tick(s, stamp, &now);
    if (refusal) return refusal;
    uint32_t class = soonest(s, now);
    int real_time = class != 0;
    if (!real_time && !s->class[0].active) {
        move_clock(s, now, stamp);
        return NONE_WAITS;
    }
    if (!real_time) class = lightest(s);
    struct class *c = &s->class[class];
    uint16_t *slot = &s->length[class][c->left % 64];
    packet->class = class;
    packet->number = c->left;
    packet->length = *slot;
    packet->real_time = real_time;
    packet->timed = c->curve.kind != NONE;
    packet->eligible = s->eligible[class];
    packet->deadline = s->deadline[class];
    *slot = 0;
    c->left++;
    if (real_time) c->real += weigh(packet->length);
    raise(s, class, weigh(packet->length));
    if (c->left == c->came) {
        s->eligible[class] = NEVER;
        s->deadline[class] = 0;
        turn_passive(s, class);
    } else if (packet->timed) {
        if (real_time) set_eligible(s, class);
        set_deadline(s, class, s->length[class][c->left % 64]);
    }
    move_clock(s, now, stamp);
    return 0;
}

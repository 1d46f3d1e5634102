/* A fair service curve scheduler for hosts in C: numbers and lent arrays, no allocation, no input or output.
 *
 * Link the static library of the crate `host_c`, which `rt lib` writes there for x86-64 and the scripts copy to target/staticlib/libhost.a. Of the C library it uses memcpy and memset.
 *
 * The state is two arrays, which the host keeps: `words` and `lengths` below. A start fills them, whatever they held. Every call after it takes
 * them as the last call left them. That is the one premise, and C can't check it. So the host owes, and what is proved rests on it:
 * - between calls nobody writes to the two arrays;
 * - a copy of both is a state too, but the arrays of one state don't go with those of another;
 * - no pointer is null, each array is as long as declared here, or as long as said beside it, and no two of a call's arrays overlap;
 * - no other thread uses the arrays during a call.
 *
 * One tick is the time the link takes for one byte. A stamp is a 32-bit counter of ticks that comes round to zero; a start takes the first one.
 * A packet of n bytes holds the link for n + HFSC_FRAMING ticks: 8 bytes of preamble and start mark go before it, and a gap of 12 byte-times after
 * it. So the host asks for the next packet that many ticks after one left. Bytes sent and accepted, and so eligible times, deadlines, virtual
 * times and refusal 16, count a packet for n + HFSC_FRAMING. Lengths that are given and told, and refusal 12, are n, without it.
 * start, end, write, arrive and depart answer 0, or the number of the refusal:
 *    1 file under 16 bytes                    7 a class's parent, share, kind or numbers  13 64 already wait in that leaf
 *    2 no mark at the file's start            8 depth over 8                              14 2^31 ticks or more since the last kept stamp
 *    3 version is not 1                       9 real-time curve on a class with children  15 clock would pass 2^40
 *    4 count outside 2 to 64                 10 the real-time curves don't fit the link   16 accepted bytes would pass 2^40 (framing counted)
 *    5 total or contents                     11 no such class, or not a leaf              17 the buffer is too small for the file
 *    6 a body's place or length              12 length outside 1 to 9,000
 * A refused start gives a state of no classes. A refused arrival or departure changes neither array, a refused write no byte of `out`.
 */
#ifndef HFSC_H
#define HFSC_H

#include <stddef.h>
#include <stdint.h>

#ifdef __cplusplus
extern "C" {
#endif

/* What a packet holds the link for beyond its length, in ticks. */
enum { HFSC_FRAMING = 20 };

/* The state's two arrays, the bytes of the longest right class-tree file, and what is kept of a file that comes in bursts. */
enum { HFSC_WORDS = 1536, HFSC_LENGTHS = 4096, HFSC_FILE = 2052, HFSC_KEPT = HFSC_FILE };

/* Starts from a class-tree file of so many bytes. On a refusal `fault` is the class that it names, else 0. */
uint32_t hfsc_start_file(uint64_t words[HFSC_WORDS], uint16_t lengths[HFSC_LENGTHS], const uint8_t *file, size_t bytes, uint32_t stamp,
                         uint32_t *fault);

/* Starts from a tree of so many words: the class count, then six words for each class, from class 0: parent, share, kind, and three numbers.
 * Kind 0, no real-time curve: - - -; 1, straight: rate - -; 2, front-loaded: first rate, bend, last rate; 3, delayed: bend, rate -.
 * The words marked - are not looked at, nor are words past the last class. A word that is not there counts as 0. */
uint32_t hfsc_start_words(uint64_t words[HFSC_WORDS], uint16_t lengths[HFSC_LENGTHS], const uint32_t *tree, size_t count, uint32_t stamp,
                          uint32_t *fault);

/* A class-tree file that comes in bursts, as over a modem. Begin; offer each burst as it comes, in order, of any size; and when the file has ended
 * either tell the end, or start, which tells it too. However the file was cut, and however long it is, the answer is the one that the whole file
 * gets. `kept` and `seen` are the host's memory: begin fills both, whatever they held, and between the calls nobody else writes to them. Nothing
 * else is kept, so that several files may come at once, each with memory of its own.
 * `seen[0]` counts the bytes offered, up to 2^32, and `seen[1]` is 1 once the end was told, 0 before; any number but 0 counts as
 * told, and is 1 after the next call. */

/* Before the first byte. */
void hfsc_bursts_begin(uint8_t kept[HFSC_KEPT], uint64_t seen[2]);

/* The next burst, of so many bytes; one of none changes nothing, and does not tell the end (its pointer is not null either). Before the end was
 * told the answer is 0: nothing yet. After it the burst changes nothing, and the answer is what the end was answered, until a begin; the class
 * comes from the end, told again. */
uint32_t hfsc_bursts_offer(uint8_t kept[HFSC_KEPT], uint64_t seen[2], const uint8_t *burst, size_t bytes);

/* The file has ended: 0, or the number of its refusal, 1 to 10, with the class that it names in `fault`, else 0. Told again it answers the same.
 * So a host that runs can hear of a refusal before it gives up its state for a start. */
uint32_t hfsc_bursts_end(const uint8_t kept[HFSC_KEPT], uint64_t seen[2], uint32_t *fault);

/* The file has ended, whether that was told or not: starts from it, as hfsc_start_file does from the whole file. */
uint32_t hfsc_start_bursts(uint64_t words[HFSC_WORDS], uint16_t lengths[HFSC_LENGTHS], const uint8_t kept[HFSC_KEPT], uint64_t seen[2],
                           uint32_t stamp, uint32_t *fault);

/* Writes the class-tree file of a tree of so many words, as hfsc_start_words takes them, to the front of `out`, which has room for so many
 * bytes. It asks for no state. On 0 the file is the first `total` bytes of `out`, the bytes after them are as they were, and `fault` is 0;
 * hfsc_start_file takes the file. On a refusal `total` is 0, `fault` is the class that it names, else 0, and all of `out` is as it was.
 * The refusals are 4, 7 to 10, and after them 17: `out` is too small. HFSC_FILE bytes of room are enough for every tree. */
uint32_t hfsc_write(const uint32_t *tree, size_t count, uint8_t *out, size_t bytes, uint32_t *total, uint32_t *fault);

/* A packet of this length in bytes arrives for a leaf. `number` is then its number within the leaf, from 0; 0 on a refusal. */
uint32_t hfsc_arrive(uint64_t words[HFSC_WORDS], uint16_t lengths[HFSC_LENGTHS], uint32_t stamp, uint32_t leaf, uint32_t length,
                     uint64_t *number);

/* What hfsc_depart writes, by place. Where there is nothing to say stands 0. */
enum {
    HFSC_LEAVES,   /* 1 where a packet leaves; 0 where none waits, and on a refusal */
    HFSC_LEAF,     /* its class */
    HFSC_NUMBER,   /* its number within the leaf, from 0 */
    HFSC_LENGTH,   /* its length in bytes; it holds the link for HFSC_FRAMING ticks more */
    HFSC_RULE,     /* 1 by the real-time rule, 2 by the fair rule */
    HFSC_TIMED,    /* 1 where the leaf has a real-time curve: then the two times */
    HFSC_ELIGIBLE, /* the tick from which the real-time rule could take it */
    HFSC_DEADLINE, /* the tick that its curve sets for it */
    HFSC_DEPARTURE /* how many numbers these are */
};

/* The link asks for a packet. */
uint32_t hfsc_depart(uint64_t words[HFSC_WORDS], uint16_t lengths[HFSC_LENGTHS], uint32_t stamp, uint64_t out[HFSC_DEPARTURE]);

/* The ticks since the start. */
uint64_t hfsc_clock(const uint64_t words[HFSC_WORDS], const uint16_t lengths[HFSC_LENGTHS]);

/* How many packets wait in a class: 0 for one with children, and for one that is not there. */
uint64_t hfsc_waiting(const uint64_t words[HFSC_WORDS], const uint16_t lengths[HFSC_LENGTHS], uint32_t class_number);

/* The virtual time of a class: 0 for the root, and for a class that is not there. */
uint64_t hfsc_virtual_time(const uint64_t words[HFSC_WORDS], const uint16_t lengths[HFSC_LENGTHS], uint32_t class_number);

/* 1, eligible time and deadline of a leaf's first packet; 0, 0, 0 where none waits or the class has no real-time curve. */
void hfsc_head_times(const uint64_t words[HFSC_WORDS], const uint16_t lengths[HFSC_LENGTHS], uint32_t class_number, uint64_t out[3]);

/* What hfsc_judge answers, and what it then writes into `out`, by place. Where there is nothing to say stands 0. */
enum {
    HFSC_ACCEPTED,      /* every record is what our rules say:  0, 0, 0, 0 */
    HFSC_TREE_REFUSED,  /* the file or its tree is refused:     0, number of the refusal, class that it names, 0 */
    HFSC_MALFORMED,     /* the first wrong record is malformed: record, 0, 0, 0 */
    HFSC_REFUSED,       /* our scheduler refuses it:            record, number of the refusal, 0, 0 */
    HFSC_ANOTHER_CHOICE /* our rules answer something else:     record, 1 where they send a packet, its class, its length; else 0, 0, 0 */
};

/* Judges the log of a box, over a class-tree file of so many bytes and from a first stamp. The log is so many numbers, four to a record:
 *   1, stamp, class, length   an arrival
 *   2, stamp, class, length   a departure that sent that packet
 *   3, stamp, 0, 0            a departure that found none waiting
 * It is accepted exactly if, replayed from the start, every arrival is accepted, and every departure, one that found none waiting too, is the
 * one that our rules give, class and length both. Otherwise the first wrong record is named, counted from 0: malformed if its kind is none of
 * these, or 3 with a class or a length, or if it is the last and has fewer than four numbers; else refused; else another choice. A file that is
 * refused is told before anything of the log is looked at. An empty log is accepted. The call asks for no state: it keeps one of its own, as long
 * as `words` and `lengths`, on the stack. */
uint32_t hfsc_judge(const uint8_t *file, size_t bytes, uint32_t first, const uint32_t *log, size_t numbers, uint64_t out[4]);

#ifdef __cplusplus
}
#endif

#endif

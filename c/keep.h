/* An example for firmware: a meter kept over power cuts, in two copies.
 *
 * The memory that keeps is KEEP_WORDS words of 64 bits, which the firmware's own keep_load and keep_store reach. It holds two copies of the
 * meter, each with a counter and a checksum; the one with the higher counter is the newer. A call takes the newer copy into working memory
 * (KEEP_COPY_WORDS words on the stack) and is made there. Where it is accepted, its outcome is stored over the older copy, which then is
 * the newer one; a refused call stores nothing.
 *
 * A cut at any moment leaves the meter before the call or the one after it. Which of them, the counter tells: an accepted call raises it.
 * So the firmware notes the volume and `counter` of struct keep in memory that keeps before it calls keep_metering. After a restart, and
 * before any other call, the volume is booked where keep_open finds a higher counter; else it is not, and the call is made again. A day
 * file is one call: all of it is booked then, or nothing.
 *
 * What the memory has to be: a store changes no other word, and a word reads the same until it is stored again, as in FRAM or memory with a
 * battery. Where a store erases a page, each copy has pages of its own. The word whose store a cut falls into may hold anything.
 *
 * A damaged copy is found by its checksum and never used: for certain where one, two or three bits of it flipped. After a cut or a damage
 * there is one copy alone, until the next accepted call or keep_mend.
 *
 * One struct keep for a memory, never copied, and one call at a time. */
#ifndef KEEP_H
#define KEEP_H

#include "loonstool.h"

#ifdef __cplusplus
extern "C" {
#endif

/* A copy: its counter, the words of the meter, its checksum. */
enum {
    KEEP_METER_WORDS = sizeof(struct loonstool_meter) / sizeof(uint64_t),
    KEEP_COPY_WORDS = KEEP_METER_WORDS + 2,
    KEEP_COPIES = 2,
    KEEP_WORDS = KEEP_COPIES * KEEP_COPY_WORDS
};

/* The firmware's own: the word at a place, 0 to KEEP_WORDS - 1, of the memory that keeps. keep_store comes back when the word is in that
 * memory, and not in a cache or a queue before it: the order of the stores is what makes a cut harmless. */
uint64_t keep_load(size_t place);
void keep_store(size_t place, uint64_t word);

/* Which copy is the newer one, 0 or 1, and its counter: all that the calls below have in working memory from one to the next. After every
 * restart keep_open fills it. */
struct keep {
    size_t newer;
    uint64_t counter;
};

enum keep_found {
    KEEP_WHOLE,   /* a meter. The other copy is whole too, or a cut left it unfinished */
    KEEP_DAMAGED, /* a meter. The other copy is damaged, or a cut fell into a store; where it was the newer one, its last call is lost */
    KEEP_NONE     /* no meter: a memory that was never used, or both copies are damaged */
};

/* What the calls below give beside the library's numbers: the memory does not hold what it should. The newer copy was damaged or replaced
 * since the last call, and nothing was done; or what this call stored reads otherwise. keep_open finds what is left, and its counter tells
 * whether the call was made. */
enum { KEEP_LOST = 255 };

/* After a restart, and after KEEP_LOST: finds the newer of the copies that hold a meter, and stores nothing. Where there is none, it makes
 * none: whether to begin with a fresh meter, all totals 0, is the firmware's to decide. */
LOONSTOOL_MUST_USE
enum keep_found keep_open(struct keep *keep);

/* After keep_open, whatever it found: begins with a fresh meter, in both copies. A cut leaves what was found, or the fresh meter. Gives
 * LOONSTOOL_ACCEPTED or KEEP_LOST. */
LOONSTOOL_MUST_USE
uint8_t keep_fresh(struct keep *keep);

/* Stores the meter over the other copy, so that both are whole: after keep_open where a cut or a damage has left one. Gives
 * LOONSTOOL_ACCEPTED or KEEP_LOST. */
LOONSTOOL_MUST_USE
uint8_t keep_mend(struct keep *keep);

/* The calls of the meter (loonstool.h), which give its numbers or KEEP_LOST. */
LOONSTOOL_MUST_USE
uint8_t keep_analysis(struct keep *keep, size_t stream, const uint8_t *bytes, size_t length);

LOONSTOOL_MUST_USE
uint8_t keep_metering(struct keep *keep, size_t stream, uint64_t volume);

LOONSTOOL_MUST_USE
uint8_t keep_day(struct keep *keep, size_t stream, const uint8_t *file, size_t length, const uint64_t *volumes, size_t count,
                 struct loonstool_counts *counts);

LOONSTOOL_MUST_USE
uint8_t keep_totals(const struct keep *keep, size_t stream, struct loonstool_totals *totals);

LOONSTOOL_MUST_USE
uint8_t keep_mean(const struct keep *keep, size_t stream, uint64_t *mean);

LOONSTOOL_MUST_USE
uint8_t keep_mean_inferior(const struct keep *keep, size_t stream, uint64_t *mean);

#ifdef __cplusplus
}
#endif

#endif

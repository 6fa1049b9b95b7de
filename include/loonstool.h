/* Gas metering by ISO 6976:1995: the functions of target/staticlib/libloonstool.a, which `tools/build library` writes. They are
 * a meter of sixteen streams, the properties of an analysis record, its calorific values per kilogram, records read and written, and a
 * day's analyses in one file: its blocks found, and the whole of it metered.
 *
 * Each function takes whatever numbers and bytes it is given, and gives LOONSTOOL_ACCEPTED or the number of its refusal; after a refusal
 * the caller's memory is as it was. Three refuse nothing: loonstool_meter_fresh, and loonstool_meter_check and loonstool_day_block, which
 * give true or false. No call looks at more than 283 bytes of a record, so its time is bounded; that of loonstool_meter_day grows with the
 * number of blocks, and with nothing else.
 *
 * A record, numbers least significant byte first: bytes 0 to 2 the mark "GCR", 3 and 4 the version, 1, 5 the combustion temperature and 6
 * the metering temperature in degrees Celsius, 7 the number of entries n, 1 to 55; then n entries of 5 bytes, the line number (1 byte) and
 * the mole fraction in ppm (4 bytes), line numbers ascending, no fraction 0. The pairs that are permitted, combustion/metering: 15/15,
 * 0/0, 15/0, 25/0, 20/20, 25/20. The fractions add up to 999,900 to 1,000,100. A record with hydrogen at 900,000 or more is of the hydrogen
 * class, in which water is at most 200 and every other line but hydrogen, methane too, at most 50,000. In any other record methane is at
 * least 500,000, nitrogen at most 300,000, ethane and carbon dioxide 150,000 each, water 200, every other line but methane 50,000. The
 * lines are those of table 1 of the standard (1 methane, 2 ethane, 41 hydrogen, 42 water, 52 nitrogen, 54 carbon dioxide; all are named in
 * crates/components/specs/Table.antt).
 *
 * A day file, numbers least significant byte first: bytes 0 to 2 the mark "GDF", 3 and 4 the version, 1; then blocks one after the other,
 * each a length (2 bytes) and that many bytes, 0 to 65,535, which should be a record, and need not be one that is accepted.
 *
 * What a caller has to see to, for every function:
 *   - a pointer to const points to as many elements as its length says, which nothing writes during the call. Where the length is 0,
 *     nothing is read, and the pointer may be NULL;
 *   - a pointer to what is filled points to memory that may be written, as much as the function says. It need not be initialised, but for
 *     a struct loonstool_block. It may be NULL only for a buffer of length 0;
 *   - pointers are aligned as their type asks. Bytes have no alignment;
 *   - what is filled or changed overlaps nothing else that is lent to the same call.
 * The functions keep nothing between calls. They may run at once in several threads; what is only read, as a record, may be shared, what
 * is filled or changed may not.
 *
 * And for a meter, which is memory that the caller lends:
 *   - its words hold a meter: loonstool_meter_fresh made them and the other calls alone changed them, or loonstool_meter_check accepted
 *     them. On other words loonstool_meter_metering, loonstool_meter_day, loonstool_meter_mean and loonstool_meter_mean_inferior promise
 *     nothing and may trap; loonstool_meter_totals stays within the memory that is lent, and promises no more; loonstool_meter_analysis
 *     leaves every other stream, and on a refusal all;
 *   - one call at a time on a meter, but for those that only read it. Several meters may run at once.
 * From loonstool_meter_fresh on, what a stream answers and holds depends on the calls that named it, on what they asked and on their order,
 * and on no other call.
 *
 * Words that were restored go through loonstool_meter_check. It refuses a property above its ceiling or below its floor, which no accepted
 * record's is, an Hi above Hs, a rho that differs by more than 5 units from d times the density of air, a Wobbe index that is not that of
 * Hs and d, a pair that is not permitted, a stream without an analysis that is not 0 everywhere, a volume total above 999,999,999,999 dm3,
 * of each energy, superior and inferior, a rest of 10^9 mJ or more, of the mass a rest of 1 kg or more, and of each of the three
 * an amount that the volume cannot have; and an inferior energy above the superior one. It cannot find a damage after which all of this
 * holds, as it may after a flipped bit of a volume total: that takes a checksum. Words kept by one version of the library go into a later
 * one where LOONSTOOL_STREAMS and LOONSTOOL_STREAM_WORDS are the same; before an update to one with other numbers the totals are read out.
 * An earlier version may refuse words that come of a record which it refuses.
 *
 * Power cuts: a call is several stores, in no order that is promised. A cut between them leaves neither the meter before the call nor the
 * one after it, but, for instance, a volume without its energies, which loonstool_meter_check need not find. So firmware keeps the meter
 * twice in memory that outlasts a cut, each copy with a counter, which says which is newer, and a checksum. It takes the newer copy, makes
 * the call, and stores the outcome over the older copy, which is marked as unfinished before its first word changes and gets its checksum
 * after the last. At every moment one copy is whole, and after a restart the newest whole one is the meter before the call or the one
 * after it; the counter, noted before the call, tells which. c/keep.c does so, and c/try_keep.c cuts its power before every store.
 *
 * The archive is for x86-64 alone: ELF, System V calling convention, SSE2 registers, 128 bytes below the stack pointer in use. Without an
 * operating system SSE has to be switched on, and an interrupt handler leaves those 128 bytes and the xmm registers as they were. It needs
 * memcpy and memset, and no other function.
 */
#ifndef LOONSTOOL_H
#define LOONSTOOL_H

#ifndef __cplusplus
#include <stdbool.h>
#endif
#include <stddef.h>
#include <stdint.h>

#if !defined(__x86_64__) || defined(_WIN32) || SIZE_MAX != UINT64_MAX
#error "libloonstool.a is for x86-64 with the System V calling convention"
#endif

/* At a function whose answer has to be looked at: the compiler warns where it is ignored. */
#ifdef __GNUC__
#define LOONSTOOL_MUST_USE __attribute__((warn_unused_result))
#else
#define LOONSTOOL_MUST_USE
#endif

#ifdef __cplusplus
extern "C" {
#endif

/* The numbers that come back: the first twelve for a record, 13 to 18 from the meter's calls alone, 19 from the writer and where a day
 * file has not as many volumes as blocks, 20 from the writer alone, 21 to 23 for a day file. Where several conditions hold, the number is
 * that of the first in the call's order, in which 9 stands after 10, 11 and 12; 19 is the first in the writer's order, and the last in a
 * day file's. */
enum loonstool_number {
    LOONSTOOL_ACCEPTED = 0,
    LOONSTOOL_RECORD_SHORT = 1,       /* record shorter than 8 bytes */
    LOONSTOOL_MARK_DIFFERS = 2,       /* mark differs */
    LOONSTOOL_VERSION_DIFFERS = 3,    /* version is not 1 */
    LOONSTOOL_PAIR_NOT_PERMITTED = 4, /* pair not permitted */
    LOONSTOOL_COUNT_OUTSIDE = 5,      /* n is 0 or above 55 */
    LOONSTOOL_LENGTH_DIFFERS = 6,     /* length is not 8 + 5n */
    LOONSTOOL_LINE_OUTSIDE = 7,       /* a line number outside 1 to 55, or not above the one before */
    LOONSTOOL_FRACTION_ZERO = 8,      /* a fraction is 0 */
    LOONSTOOL_SUM_OUTSIDE = 9,        /* sum outside its range */
    LOONSTOOL_METHANE_LOW = 10,       /* methane too low */
    LOONSTOOL_FRACTION_ABOVE = 11,    /* a line other than water above its limit */
    LOONSTOOL_WATER_HIGH = 12,        /* water above 200 */
    LOONSTOOL_STREAM_ABOVE = 13,      /* stream above 15 */
    LOONSTOOL_PAIR_DIFFERS = 14,      /* pair is not the stream's */
    LOONSTOOL_VOLUME_ABOVE = 15,      /* volume above 10,000,000 */
    LOONSTOOL_NO_ANALYSIS = 16,       /* stream has no analysis */
    LOONSTOOL_TOTAL_PASSES = 17,      /* volume total would pass 999,999,999,999 */
    LOONSTOOL_TOTAL_ZERO = 18,        /* mean wanted at volume total 0 */
    LOONSTOOL_LISTS_DIFFER = 19,      /* the two lists differ in length */
    LOONSTOOL_BUFFER_SHORT = 20,      /* buffer shorter than 8 + 5n */
    LOONSTOOL_NO_DAY_FILE = 21,       /* file shorter than 5 bytes, or wrong mark or version */
    LOONSTOOL_OFFSET_OUTSIDE = 22,    /* offset below 5 or past the end */
    LOONSTOOL_BLOCK_CUT = 23          /* block cut short by the file's end */
};

/* The lines of the component table, the most entries that a record has, and the bytes of a record with n entries. */
#define LOONSTOOL_LINES 55
#define LOONSTOOL_RECORD_BYTES(n) (8 + 5 * (n))

/* Bytes of stack that a call takes at most, the 128 below the stack pointer included, and beside what memcpy and memset take. */
#define LOONSTOOL_STACK_METER_FRESH 200
#define LOONSTOOL_STACK_METER_CHECK 300
#define LOONSTOOL_STACK_METER_ANALYSIS 400
#define LOONSTOOL_STACK_METER_METERING 200
#define LOONSTOOL_STACK_METER_TOTALS 200
#define LOONSTOOL_STACK_METER_MEAN 200
#define LOONSTOOL_STACK_METER_MEAN_INFERIOR 200
#define LOONSTOOL_STACK_METER_DAY 600
#define LOONSTOOL_STACK_PROPERTIES_OF 400
#define LOONSTOOL_STACK_PER_KILOGRAM 400
#define LOONSTOOL_STACK_READ 1000
#define LOONSTOOL_STACK_WRITE 400
#define LOONSTOOL_STACK_DAY_NEXT 200
#define LOONSTOOL_STACK_DAY_BLOCK 200

/* The streams of a meter, 0 to 15, and the words that each has. */
#define LOONSTOOL_STREAMS 16
#define LOONSTOOL_STREAM_WORDS 16

/* A meter. Its words are for the calls below alone, and to be saved and restored as they are. */
struct loonstool_meter {
    uint64_t words[LOONSTOOL_STREAMS][LOONSTOOL_STREAM_WORDS];
};

/* The totals of a stream. Its energies and its mass are without rounding: the superior energy, of Hs, is 10^9 x superior_mj + superior_rest
 * mJ, the inferior one, of Hi, 10^9 x inferior_mj + inferior_rest mJ, and the mass, of rho, 10^11 x mass_kg + mass_rest, unit 10^-11 kg. */
struct loonstool_totals {
    uint64_t volume;        /* dm3, never above 999,999,999,999 */
    uint64_t superior_mj;   /* whole MJ of the superior energy */
    uint64_t superior_rest; /* mJ, below 1,000,000,000 */
    uint64_t inferior_mj;   /* whole MJ of the inferior energy, which is never above the superior one */
    uint64_t inferior_rest; /* mJ, below 1,000,000,000 */
    uint64_t mass_kg;       /* whole kg of the mass */
    uint64_t mass_rest;     /* unit 10^-11 kg, below 100,000,000,000 */
};

/* Makes a fresh meter: no stream has an analysis, all totals are 0. */
void loonstool_meter_fresh(struct loonstool_meter *m);

/* Whether the words hold a meter, whatever they are. */
LOONSTOOL_MUST_USE
bool loonstool_meter_check(const struct loonstool_meter *m);

/* Puts the properties of a record of `length` bytes in force on a stream. The first record that is accepted fixes the stream's pair of
 * temperatures. Refused by 13, 1 to 8, 10 to 12, 9 and 14, tried in that order; the earlier record then stays in force. */
LOONSTOOL_MUST_USE
uint8_t loonstool_meter_analysis(struct loonstool_meter *m, size_t stream, const uint8_t *bytes, size_t length);

/* Adds a volume in dm3, at most 10,000,000, to the volume total of a stream, volume x Hs of the record in force to its superior energy,
 * volume x Hi to its inferior energy, and volume x rho to its mass. Refused by 13, 15, 16 and 17, tried in that order. */
LOONSTOOL_MUST_USE
uint8_t loonstool_meter_metering(struct loonstool_meter *m, size_t stream, uint64_t volume);

/* The totals of a stream. Refused by 13. */
LOONSTOOL_MUST_USE
uint8_t loonstool_meter_totals(const struct loonstool_meter *m, size_t stream, struct loonstool_totals *totals);

/* The mean superior calorific value of a stream in J/m3: its superior energy / its volume total, to the nearest, halves upward. Refused by
 * 13 and 18, tried in that order. */
LOONSTOOL_MUST_USE
uint8_t loonstool_meter_mean(const struct loonstool_meter *m, size_t stream, uint64_t *mean);

/* The mean inferior calorific value of a stream in J/m3: the same of its inferior energy, and refused by the same numbers. */
LOONSTOOL_MUST_USE
uint8_t loonstool_meter_mean_inferior(const struct loonstool_meter *m, size_t stream, uint64_t *mean);

/* How many of a day file's analyses and how many of its volumes were accepted. */
struct loonstool_counts {
    uint64_t analyses;
    uint64_t volumes;
};

/* Meters a day file of `length` bytes on a stream, from `count` volumes in dm3, one for each block: block after block, first an analysis
 * with the block's bytes as record, then a metering of the block's volume, as loonstool_meter_analysis and loonstool_meter_metering do. A
 * record or a volume that these refuse changes nothing and stops nothing. Refused by 13, 21, 23 (some block of the file is cut short) and
 * 19 (`count` is not the number of blocks), tried in that order, all before anything is booked. */
LOONSTOOL_MUST_USE
uint8_t loonstool_meter_day(struct loonstool_meter *m, size_t stream, const uint8_t *file, size_t length, const uint64_t *volumes,
                            size_t count, struct loonstool_counts *counts);

/* The six properties. None passes the ceiling beside it. */
struct loonstool_properties {
    uint64_t z;   /* compression factor, unit 10^-9, at most 1,000,000,000 */
    uint64_t hs;  /* superior calorific value, unit J/m3, at most 250,000,000 */
    uint64_t hi;  /* inferior calorific value, unit J/m3, at most 250,000,000 */
    uint64_t rho; /* density, unit 10^-8 kg/m3, at most 510,000,000 */
    uint64_t d;   /* relative density, unit 10^-8, at most 390,000,000 */
    uint64_t w;   /* Wobbe index, unit J/m3, at most 470,000,000 */
};

/* The properties of a record of `length` bytes. Refused by 1 to 8, 10 to 12 and 9, tried in that order. */
LOONSTOOL_MUST_USE
uint8_t loonstool_properties_of(const uint8_t *bytes, size_t length, struct loonstool_properties *properties);

/* The calorific values per kilogram. Neither passes the ceiling beside it. */
struct loonstool_per_kilogram {
    uint64_t superior; /* superior calorific value, unit 10 J/kg, at most 15,000,000 */
    uint64_t inferior; /* inferior calorific value, unit 10 J/kg, at most 15,000,000 */
};

/* The calorific values per kilogram of a record of `length` bytes, to the nearest, halves upward. Of the record's two temperatures only the
 * combustion one matters. Refused by 1 to 8, 10 to 12 and 9, tried in that order. */
LOONSTOOL_MUST_USE
uint8_t loonstool_per_kilogram(const uint8_t *bytes, size_t length, struct loonstool_per_kilogram *values);

/* Reads a record of `length` bytes: the pair of temperatures in degrees Celsius, the number of entries, and their line numbers and mole
 * fractions in ppm. It fills all LOONSTOOL_LINES places of both arrays, with 0 past the entries. Refused by 1 to 8, 10 to 12 and 9, tried
 * in that order. */
LOONSTOOL_MUST_USE
uint8_t loonstool_read(const uint8_t *bytes, size_t length, uint8_t *combustion, uint8_t *metering, size_t *count,
                       uint8_t lines[LOONSTOOL_LINES], uint32_t fractions[LOONSTOOL_LINES]);

/* Writes a record of n entries into the first LOONSTOOL_RECORD_BYTES(n) bytes of a buffer, and no others, n being the length of both
 * lists. Refused by 19, 4, 5, 7, 8, 10 to 12, 9 and 20, tried in that order. */
LOONSTOOL_MUST_USE
uint8_t loonstool_write(uint8_t combustion, uint8_t metering, const uint8_t *lines, size_t line_count, const uint32_t *fractions,
                        size_t fraction_count, uint8_t *buffer, size_t buffer_length);

/* The offset of a day file's first block, and what is answered in place of an offset at the file's end. */
#define LOONSTOOL_FIRST_BLOCK 5
#define LOONSTOOL_DAY_END 0

/* The offset after the block at an offset of a day file of `length` bytes, whatever the block holds; or LOONSTOOL_DAY_END where the offset
 * is `length`. Refused by 21, 22 and 23, tried in that order. */
LOONSTOOL_MUST_USE
uint8_t loonstool_day_next(const uint8_t *file, size_t length, size_t offset, size_t *next);

/* A block's bytes without those of its length: a part of the caller's own file, and no copy. */
struct loonstool_block {
    const uint8_t *bytes;
    size_t length;
};

/* The block at an offset of a day file of `length` bytes: true, and it is in *block, where loonstool_day_next gives the offset after it;
 * else false, and *block stays. Before the call block->bytes has to point to block->length bytes that may be read, and not to be NULL, also
 * where block->length is 0: the file, or the block of an earlier call. */
LOONSTOOL_MUST_USE
bool loonstool_day_block(const uint8_t *file, size_t length, size_t offset, struct loonstool_block *block);

#ifdef __cplusplus
}
#endif

#endif

/* An example for firmware: a meter kept over power cuts (keep.h says how).
 *
 * The library's call is made in working memory, and its outcome stored from there: the stores of a call come in no order that is promised,
 * and memory behind a bus cannot be lent to it. So each store to the memory that keeps is one of keep_store, in the order of `save`.
 *
 * The counter goes up by one with each copy that is stored. It does not overflow: with one each microsecond that takes 584,000 years. */
#include "keep.h"

enum { CHECKSUM = KEEP_COPY_WORDS - 1 };

/* In place of a checksum: the copy is being stored. A checksum is below 2^32, so this is none, whatever the other words are; nor is it what
 * memory reads that was erased or cleared. */
#define UNFINISHED UINT64_C(0x756e66696e697368)

union copy {
    uint64_t words[KEEP_COPY_WORDS];
    struct {
        uint64_t counter;
        struct loonstool_meter meter;
        uint64_t checksum;
    } parts;
};

_Static_assert(sizeof(union copy) == KEEP_COPY_WORDS * sizeof(uint64_t), "the parts of a copy are its words");
_Static_assert(sizeof(union copy) * 8 <= 32768, "the checksum finds any three flipped bits");

/* CRC-32 (that of Ethernet) of the counter and the meter, four bits a step, the least significant first. It finds every flipped bit, since
 * its polynomial divides no power of x, and any damage within 32 bits in a row; in up to 32,768 bits also any two and any three flipped
 * bits. */
static uint64_t checksum_of(const union copy *copy)
{
    static const uint32_t steps[16] = {0x00000000, 0x1db71064, 0x3b6e20c8, 0x26d930ac, 0x76dc4190, 0x6b6b51f4, 0x4db26158, 0x5005713c,
                                       0xedb88320, 0xf00f9344, 0xd6d6a3e8, 0xcb61b38c, 0x9b64c2b0, 0x86d3d2d4, 0xa00ae278, 0xbdbdf21c};
    uint32_t crc = UINT32_MAX;
    for (size_t i = 0; i < CHECKSUM; i++)
        for (unsigned shift = 0; shift < 64; shift += 4)
            crc = crc >> 4 ^ steps[(crc ^ copy->words[i] >> shift) & 15];
    return ~crc;
}

static size_t place_of(size_t which, size_t word)
{
    return which * KEEP_COPY_WORDS + word;
}

/* Takes a copy into working memory, and answers whether it holds a meter. */
static bool load(size_t which, union copy *copy)
{
    for (size_t i = 0; i < KEEP_COPY_WORDS; i++)
        copy->words[i] = keep_load(place_of(which, i));
    return copy->parts.checksum == checksum_of(copy) && loonstool_meter_check(&copy->parts.meter);
}

/* Stores a word, unless it is there. */
static void put(size_t which, size_t word, uint64_t value)
{
    if (keep_load(place_of(which, word)) != value)
        keep_store(place_of(which, word), value);
}

/* Whether the memory holds the copy. */
static bool reads_back(size_t which, const union copy *copy)
{
    for (size_t i = 0; i < KEEP_COPY_WORDS; i++)
        if (keep_load(place_of(which, i)) != copy->words[i])
            return false;
    return true;
}

/* Stores the copy over the older one, as the newer. From the first store to the last it holds no meter, for certain: a checksum alone, of
 * words some of which are stored and some not, would be right once in 2^32. What a memory did not take is not the newer copy. */
static uint8_t save(struct keep *keep, union copy *copy)
{
    size_t older = 1 - keep->newer;
    copy->parts.counter = keep->counter + 1;
    copy->parts.checksum = checksum_of(copy);
    put(older, CHECKSUM, UNFINISHED);
    for (size_t i = 0; i < CHECKSUM; i++)
        put(older, i, copy->words[i]);
    put(older, CHECKSUM, copy->parts.checksum);
    if (!reads_back(older, copy))
        return KEEP_LOST;
    *keep = (struct keep){older, copy->parts.counter};
    return LOONSTOOL_ACCEPTED;
}

/* The newer copy into working memory. It is the one that `keep` names, and the other is not newer: a call that is made from an old struct
 * would take back what came after it. */
static bool load_newer(const struct keep *keep, union copy *copy)
{
    if (load(1 - keep->newer, copy) && copy->parts.counter > keep->counter)
        return false;
    return load(keep->newer, copy) && copy->parts.counter == keep->counter;
}

enum keep_found keep_open(struct keep *keep)
{
    union copy copy;
    enum keep_found other = KEEP_WHOLE;
    size_t found = 0;
    *keep = (struct keep){0, 0};
    for (size_t which = 0; which < KEEP_COPIES; which++) {
        if (!load(which, &copy)) {
            if (copy.parts.checksum != UNFINISHED)
                other = KEEP_DAMAGED;
            continue;
        }
        if (found++ == 0 || copy.parts.counter > keep->counter)
            *keep = (struct keep){which, copy.parts.counter};
    }
    return found == 0 ? KEEP_NONE : other;
}

uint8_t keep_fresh(struct keep *keep)
{
    union copy copy;
    uint8_t number = LOONSTOOL_ACCEPTED;
    loonstool_meter_fresh(&copy.parts.meter);
    for (size_t i = 0; i < KEEP_COPIES && number == LOONSTOOL_ACCEPTED; i++)
        number = save(keep, &copy);
    return number;
}

uint8_t keep_mend(struct keep *keep)
{
    union copy copy;
    return load_newer(keep, &copy) ? save(keep, &copy) : KEEP_LOST;
}

/* Stores the copy where the call on it was accepted. */
static uint8_t save_accepted(struct keep *keep, union copy *copy, uint8_t number)
{
    return number == LOONSTOOL_ACCEPTED ? save(keep, copy) : number;
}

uint8_t keep_analysis(struct keep *keep, size_t stream, const uint8_t *bytes, size_t length)
{
    union copy copy;
    if (!load_newer(keep, &copy))
        return KEEP_LOST;
    return save_accepted(keep, &copy, loonstool_meter_analysis(&copy.parts.meter, stream, bytes, length));
}

uint8_t keep_metering(struct keep *keep, size_t stream, uint64_t volume)
{
    union copy copy;
    if (!load_newer(keep, &copy))
        return KEEP_LOST;
    return save_accepted(keep, &copy, loonstool_meter_metering(&copy.parts.meter, stream, volume));
}

uint8_t keep_day(struct keep *keep, size_t stream, const uint8_t *file, size_t length, const uint64_t *volumes, size_t count,
                 struct loonstool_counts *counts)
{
    union copy copy;
    struct loonstool_counts accepted;
    if (!load_newer(keep, &copy))
        return KEEP_LOST;
    uint8_t number = loonstool_meter_day(&copy.parts.meter, stream, file, length, volumes, count, &accepted);
    number = save_accepted(keep, &copy, number);
    if (number == LOONSTOOL_ACCEPTED)
        *counts = accepted;
    return number;
}

uint8_t keep_totals(const struct keep *keep, size_t stream, struct loonstool_totals *totals)
{
    union copy copy;
    return load_newer(keep, &copy) ? loonstool_meter_totals(&copy.parts.meter, stream, totals) : KEEP_LOST;
}

uint8_t keep_mean(const struct keep *keep, size_t stream, uint64_t *mean)
{
    union copy copy;
    return load_newer(keep, &copy) ? loonstool_meter_mean(&copy.parts.meter, stream, mean) : KEEP_LOST;
}

uint8_t keep_mean_inferior(const struct keep *keep, size_t stream, uint64_t *mean)
{
    union copy copy;
    return load_newer(keep, &copy) ? loonstool_meter_mean_inferior(&copy.parts.meter, stream, mean) : KEEP_LOST;
}

/* Cuts the power of c/keep.c, and damages the memory that it keeps.
 *
 * For each call of a list, and for each of its stores, the power fails at that store: none of its bits is stored, or some are, and
 * nothing after it. After the restart the meter has to be the one before the call or the one after it, word for word, as the library makes
 * it on a plain meter, and the counter has to tell which; so too where the power fails a second time, at each store of the call made
 * again, and in a long list of calls most of which are cut. Then each bit of a copy is flipped, and a whole copy erased: that has to be
 * found, and the other copy taken; with both damaged there is none, and no call is made. No call is made from an old struct keep, and none
 * is accepted whose outcome the memory does not take. */
#include <setjmp.h>
#include <stdio.h>
#include <stdlib.h>
#include <string.h>

#include "keep.h"

enum { CALLS = 150, WALK = 4000, SAMPLES = 5000, COPY_BITS = KEEP_COPY_WORDS * 64, MOST_FAILURES = 20 };

#define NEVER SIZE_MAX

/* The memory that keeps; the store at which the power fails, with the bits of it that are stored nevertheless; and a word with a bit that
 * no store changes. */
static uint64_t kept[KEEP_WORDS];
static size_t stores, cut_at = NEVER, stuck_word = NEVER;
static uint64_t stored_bits, stuck_bit;
static jmp_buf power_fails;

static unsigned long calls, refusals, cuts, flips, failures;

uint64_t keep_load(size_t place)
{
    return kept[place];
}

void keep_store(size_t place, uint64_t word)
{
    uint64_t bits = stores == cut_at ? stored_bits : UINT64_MAX;
    if (place == stuck_word)
        bits &= ~stuck_bit;
    kept[place] = (kept[place] & ~bits) | (word & bits);
    if (stores++ == cut_at)
        longjmp(power_fails, 1);
}

static void expect(bool holds, const char *what, size_t at)
{
    if (holds)
        return;
    fprintf(stderr, "try_keep: failed: %s (at %zu)\n", what, at);
    if (++failures < MOST_FAILURES)
        return;
    fprintf(stderr, "try_keep: %lu failures, no more are looked for\n", failures);
    exit(1);
}

/* The next random number (splitmix64), and one below a limit. */
enum { SEED = 16 };

static uint64_t drawn(void)
{
    static uint64_t state = SEED;
    uint64_t x = state += 0x9e3779b97f4a7c15;
    x = (x ^ x >> 30) * 0xbf58476d1ce4e5b9;
    x = (x ^ x >> 27) * 0x94d049bb133111eb;
    return x ^ x >> 31;
}

static uint64_t drawn_below(uint64_t limit)
{
    return drawn() % limit;
}

enum { MOST_BLOCKS = 3, MOST_VOLUMES = MOST_BLOCKS + 1, RECORD_BYTES = LOONSTOOL_RECORD_BYTES(1) };

/* A call: a fresh meter, the second copy stored again, the analysis of a record of `length` bytes, the metering of a volume, or that of a
 * day file of `file_length` bytes with `count` volumes. */
struct call {
    enum { FRESH, MEND, ANALYSIS, METERING, DAY } kind;
    size_t stream, length, file_length, count;
    uint64_t volume, volumes[MOST_VOLUMES];
    uint8_t record[RECORD_BYTES], file[LOONSTOOL_FIRST_BLOCK + MOST_BLOCKS * (2 + RECORD_BYTES)];
};

static const struct call fresh = {.kind = FRESH}, mend = {.kind = MEND};

/* Methane alone, or in one of four hydrogen, some ppm off the whole: most records are accepted, some are refused by 1, 4, 9 and 14. */
static void draw_record(struct call *call)
{
    static const uint8_t pairs[8][2] = {{15, 15}, {15, 15}, {15, 15}, {15, 15}, {15, 15}, {25, 20}, {0, 0}, {25, 15}};
    const uint8_t *pair = pairs[drawn_below(8)];
    uint32_t fraction = (uint32_t)(999890 + drawn_below(221));
    const uint8_t head[] = {'G', 'C', 'R', 1, 0, pair[0], pair[1], 1, fraction % 4 == 0 ? 41 : 1};
    memcpy(call->record, head, sizeof head);
    memcpy(call->record + sizeof head, &fraction, sizeof fraction); /* x86-64 has the least significant byte first too */
    call->length = drawn_below(10) == 0 ? 7 : sizeof call->record;
}

static uint64_t drawn_volume(void)
{
    const uint64_t volumes[] = {0, 1, drawn_below(10000001), drawn_below(10000001), 10000000, 10000001};
    return volumes[drawn_below(sizeof volumes / sizeof *volumes)];
}

/* Up to three records and a volume for each. Some files have another mark, a byte less, or a volume more. */
static void draw_day(struct call *call)
{
    size_t blocks = drawn_below(MOST_BLOCKS + 1);
    memcpy(call->file, drawn_below(20) == 0 ? "GCR\1" : "GDF\1", LOONSTOOL_FIRST_BLOCK);
    call->file_length = LOONSTOOL_FIRST_BLOCK;
    for (size_t i = 0; i < blocks; i++) {
        uint8_t *place = call->file + call->file_length;
        draw_record(call);
        place[0] = (uint8_t)call->length;
        place[1] = 0;
        memcpy(place + 2, call->record, call->length);
        call->file_length += 2 + call->length;
    }
    call->file_length -= drawn_below(10) == 0;
    call->count = blocks + (drawn_below(10) == 0);
    for (size_t i = 0; i < call->count; i++)
        call->volumes[i] = drawn_volume();
}

static struct call draw_call(void)
{
    const uint64_t kind = drawn_below(6);
    struct call call = {.kind = kind < 2 ? ANALYSIS : kind < 5 ? METERING : DAY, .stream = drawn_below(LOONSTOOL_STREAMS + 1)};
    if (call.kind == DAY)
        draw_day(&call);
    call.volume = drawn_volume();
    draw_record(&call);
    return call;
}

/* The counts of a day file on the meter that is kept, and on the one that is not. */
static struct loonstool_counts kept_counts, counts;

/* What is lent for counts, before a call. */
static void mark_counts(void)
{
    memset(&counts, 16, sizeof counts);
    kept_counts = counts;
}

static bool same_counts(void)
{
    return memcmp(&kept_counts, &counts, sizeof counts) == 0;
}

/* The call on the meter that is kept. */
static uint8_t on_kept(struct keep *keep, const struct call *call)
{
    switch (call->kind) {
    case ANALYSIS:
        return keep_analysis(keep, call->stream, call->record, call->length);
    case METERING:
        return keep_metering(keep, call->stream, call->volume);
    case DAY:
        return keep_day(keep, call->stream, call->file, call->file_length, call->volumes, call->count, &kept_counts);
    case MEND:
        return keep_mend(keep);
    default:
        return keep_fresh(keep);
    }
}

/* The call on a meter that is not. */
static uint8_t on_plain(struct loonstool_meter *meter, const struct call *call)
{
    switch (call->kind) {
    case ANALYSIS:
        return loonstool_meter_analysis(meter, call->stream, call->record, call->length);
    case METERING:
        return loonstool_meter_metering(meter, call->stream, call->volume);
    case DAY:
        return loonstool_meter_day(meter, call->stream, call->file, call->file_length, call->volumes, call->count, &counts);
    case FRESH:
        loonstool_meter_fresh(meter);
        return LOONSTOOL_ACCEPTED;
    default:
        return LOONSTOOL_ACCEPTED;
    }
}

static bool same(const struct loonstool_meter *a, const struct loonstool_meter *b)
{
    return memcmp(a, b, sizeof *a) == 0;
}

/* The counter before the last call, which the firmware has noted, and the one that the last restart found. */
static uint64_t noted_counter, found_counter;

/* What a restart finds, and the meter. */
static enum keep_found restart(struct loonstool_meter *meter)
{
    struct keep keep;
    enum keep_found found = keep_open(&keep);
    memcpy(meter, kept + keep.newer * KEEP_COPY_WORDS + 1, sizeof *meter);
    found_counter = keep.counter;
    return found;
}

/* A restart, and the call with the power failing at a store, some of whose bits are stored; how many stores were begun. */
static size_t cut(const struct call *call, size_t at, uint64_t bits)
{
    struct keep keep;
    enum keep_found found = keep_open(&keep);
    expect(found != KEEP_NONE || call->kind == FRESH, "a restart finds a meter", at);
    noted_counter = keep.counter;
    stores = 0;
    cut_at = at;
    stored_bits = bits;
    if (setjmp(power_fails) == 0)
        expect(on_kept(&keep, call) != KEEP_LOST, "the newer copy holds", at);
    cut_at = NEVER;
    cuts += at != NEVER;
    return stores;
}

/* The meter that a restart found is the one before the call, or the one after it where the counter is higher than noted. */
static bool told(const struct loonstool_meter *found, const struct loonstool_meter *before, const struct loonstool_meter *after)
{
    return same(found, found_counter > noted_counter ? after : before);
}

/* The power fails a second time, at each store of the call made again. */
static void try_second_cuts(const struct call *call, const struct loonstool_meter *before, const struct loonstool_meter *after)
{
    uint64_t image[KEEP_WORDS];
    struct loonstool_meter found;
    memcpy(image, kept, sizeof image);
    size_t count = cut(call, NEVER, 0);
    for (size_t at = 0; at <= count; at++) {
        memcpy(kept, image, sizeof image);
        cut(call, at, 0);
        expect(restart(&found) == KEEP_WHOLE, "after two cuts nothing is damaged", at);
        expect(same(&found, at < count ? before : after), "two cuts leave the meter before the call, or after it", at);
        expect(told(&found, before, after), "the counter tells which, after two cuts", at);
    }
}

/* The power fails within a store of a call. */
static void try_cut_within(const struct call *call, const struct loonstool_meter *before, const struct loonstool_meter *after, size_t at)
{
    const uint64_t bits[] = {0xff, UINT32_MAX, ~(uint64_t)UINT32_MAX, 0xffULL << 56, drawn(), drawn(), drawn()};
    uint64_t image[KEEP_WORDS];
    struct loonstool_meter found;
    memcpy(image, kept, sizeof image);
    for (size_t i = 0; i < sizeof bits / sizeof *bits; i++) {
        cut(call, at, bits[i]);
        expect(restart(&found) != KEEP_NONE, "a cut within a store leaves a meter", at);
        expect(told(&found, before, after), "a cut within a store leaves the meter before the call, or after it", at);
        memcpy(kept, image, sizeof image);
    }
}

/* The power fails at each store of a call, of which there are `count`, and after the last. Both copies get the outcome of FRESH, and the
 * first of them decides. */
static void try_cuts(const struct call *call, const struct loonstool_meter *before, const struct loonstool_meter *after, size_t count)
{
    uint64_t image[KEEP_WORDS];
    struct loonstool_meter found;
    bool made = false;
    memcpy(image, kept, sizeof image);
    for (size_t at = 0; at <= count; at++) {
        try_cut_within(call, before, after, at);
        cut(call, at, 0);
        expect(restart(&found) == KEEP_WHOLE, "after a cut nothing is damaged", at);
        expect(told(&found, before, after), "a cut leaves the meter before the call, or after it", at);
        made |= found_counter > noted_counter;
        expect(made == (found_counter > noted_counter), "once the call is made, a later cut does not undo it", at);
        expect(made == (at == count) || call->kind == FRESH, "the last store makes the call", at);
        if (call->kind != FRESH && at < count)
            try_second_cuts(call, before, after);
        memcpy(kept, image, sizeof image);
    }
    expect(made, "a call that no cut falls into is made", count);
}

/* The means, superior and inferior, of a meter that is kept and of one that is not. */
static __typeof__(keep_mean) *const kept_means[2] = {keep_mean, keep_mean_inferior};
static __typeof__(loonstool_meter_mean) *const means[2] = {loonstool_meter_mean, loonstool_meter_mean_inferior};

/* Every stream's readings are those of a meter. */
static void expect_readings(const struct keep *keep, const struct loonstool_meter *meter)
{
    for (size_t stream = 0; stream <= LOONSTOOL_STREAMS; stream++) {
        struct loonstool_totals totals = {0}, kept_totals = {0};
        uint64_t mean[2] = {0, 0}, kept_mean[2] = {0, 0};
        expect(keep_totals(keep, stream, &kept_totals) == loonstool_meter_totals(meter, stream, &totals), "the number of totals", stream);
        expect(memcmp(&kept_totals, &totals, sizeof totals) == 0, "totals", stream);
        for (size_t i = 0; i < 2; i++)
            expect(kept_means[i](keep, stream, &kept_mean[i]) == means[i](meter, stream, &mean[i]), "the number of a mean", stream);
        expect(memcmp(kept_mean, mean, sizeof mean) == 0, "means", stream);
    }
}

/* Makes a call, cut at each store and then whole, on the kept meter and on `newer`; what `newer` was is `older` then. */
static void try_call(const struct call *call, struct loonstool_meter *newer, struct loonstool_meter *older)
{
    uint64_t image[KEEP_WORDS];
    struct keep keep;
    struct loonstool_meter after = *newer, found;
    mark_counts();
    uint8_t number = on_plain(&after, call);
    memcpy(image, kept, sizeof image);
    size_t count = cut(call, NEVER, 0);
    expect(same_counts(), "the counts of a day file", calls);
    memcpy(kept, image, sizeof image);
    calls++;
    if (number == LOONSTOOL_ACCEPTED)
        try_cuts(call, newer, &after, count);

    expect(keep_open(&keep) == KEEP_WHOLE, "nothing is damaged", calls);
    expect(on_kept(&keep, call) == number, "the number of a call", calls);
    expect(restart(&found) == KEEP_WHOLE && same(&found, &after), "the meter after a call", calls);
    expect_readings(&keep, &after);
    if (number != LOONSTOOL_ACCEPTED) {
        refusals++;
        expect(count == 0 && memcmp(kept, image, sizeof image) == 0, "a refused call stores nothing", calls);
        return;
    }
    *older = call->kind == FRESH ? after : *newer;
    *newer = after;
}

static void flip(size_t copy, size_t bit)
{
    kept[copy * KEEP_COPY_WORDS + bit / 64] ^= (uint64_t)1 << bit % 64;
}

/* A day file that leaves every stream as it is. */
static const uint8_t no_blocks[LOONSTOOL_FIRST_BLOCK] = {'G', 'D', 'F', 1, 0};

/* No call is made: nothing is stored, and what is lent for an answer is as it was. */
static void expect_lost(struct keep *keep, const char *what, size_t at)
{
    static const uint8_t methane[] = {'G', 'C', 'R', 1, 0, 15, 15, 1, 1, 0x40, 0x42, 0x0f, 0};
    uint64_t image[KEEP_WORDS], mean = 16;
    struct loonstool_totals totals, untouched;
    memset(&untouched, 16, sizeof untouched);
    totals = untouched;
    memcpy(image, kept, sizeof image);
    expect(keep_analysis(keep, 0, methane, sizeof methane) == KEEP_LOST, what, at);
    expect(keep_metering(keep, 0, 0) == KEEP_LOST, what, at);
    mark_counts();
    expect(keep_day(keep, 0, no_blocks, sizeof no_blocks, NULL, 0, &kept_counts) == KEEP_LOST && same_counts(), what, at);
    expect(keep_mend(keep) == KEEP_LOST, what, at);
    expect(keep_totals(keep, 0, &totals) == KEEP_LOST && memcmp(&totals, &untouched, sizeof totals) == 0, what, at);
    for (size_t i = 0; i < 2; i++)
        expect(kept_means[i](keep, 0, &mean) == KEEP_LOST && mean == 16, what, at);
    expect(memcmp(kept, image, sizeof image) == 0, what, at);
}

/* Each bit of a copy flips, alone and with one of the other copy: the other one is taken, or none. For one bit of each word, calls are
 * made. */
static void try_flips(const struct loonstool_meter *newer, const struct loonstool_meter *older)
{
    struct keep keep;
    struct loonstool_meter found;
    expect(keep_open(&keep) == KEEP_WHOLE, "nothing is damaged", 0);
    size_t other = 1 - keep.newer;
    for (size_t bit = 0; bit < COPY_BITS; bit++) {
        size_t other_bit = drawn_below(COPY_BITS);
        flip(keep.newer, bit);
        expect(restart(&found) == KEEP_DAMAGED && same(&found, older), "a flipped bit of the newer copy", bit);
        flip(other, other_bit);
        if (bit % 64 == bit / 64 % 64)
            expect_lost(&keep, "a call on a damaged copy", bit);
        expect(restart(&found) == KEEP_NONE, "both copies damaged", bit);
        flip(other, other_bit);
        flip(keep.newer, bit);
        flip(other, bit);
        expect(restart(&found) == KEEP_DAMAGED && same(&found, newer), "a flipped bit of the older copy", bit);
        flip(other, bit);
        flips += 3;
    }
}

/* A whole copy is erased, or cleared. */
static void try_erased(const struct loonstool_meter *newer, const struct loonstool_meter *older)
{
    uint64_t image[KEEP_WORDS];
    struct keep keep;
    struct loonstool_meter found;
    expect(keep_open(&keep) == KEEP_WHOLE, "nothing is damaged", 0);
    memcpy(image, kept, sizeof image);
    for (size_t i = 0; i < 4; i++) {
        size_t which = i / 2;
        memset(kept + which * KEEP_COPY_WORDS, i % 2 ? 0 : 0xff, sizeof kept / KEEP_COPIES);
        expect(restart(&found) == KEEP_DAMAGED && same(&found, which == keep.newer ? older : newer), "a copy erased or cleared", i);
        memcpy(kept, image, sizeof image);
    }
}

/* Two or three bits of the newer copy flip, chosen at random. */
static void try_several_flips(const struct loonstool_meter *older)
{
    struct keep keep;
    struct loonstool_meter found;
    expect(keep_open(&keep) == KEEP_WHOLE, "nothing is damaged", 0);
    for (size_t i = 0; i < SAMPLES; i++) {
        size_t a = drawn_below(COPY_BITS), b = drawn_below(COPY_BITS), c = drawn_below(COPY_BITS), count = 2 + i % 2;
        if (a == b || a == c || b == c)
            continue;
        const size_t bits[] = {a, b, c};
        for (size_t k = 0; k < count; k++)
            flip(keep.newer, bits[k]);
        expect(restart(&found) == KEEP_DAMAGED && same(&found, older), "two or three flipped bits of the newer copy", a);
        for (size_t k = 0; k < count; k++)
            flip(keep.newer, bits[k]);
        flips += count;
    }
}

/* The CRC-32 of all words of a copy but the last, a bit at a time. */
static uint64_t crc_of(const uint64_t *copy)
{
    uint32_t crc = UINT32_MAX;
    for (size_t bit = 0; bit < COPY_BITS - 64; bit++) {
        uint32_t low = (crc ^ (uint32_t)(copy[bit / 64] >> bit % 64)) & 1;
        crc = crc >> 1 ^ (low ? 0xedb88320 : 0);
    }
    return ~crc;
}

/* A newer copy with the right checksum, whose words hold no meter, is not taken; nor does a call take another copy than keep_open found, or
 * an older one than there is. */
static void try_wrong_copies(const struct loonstool_meter *newer, const struct loonstool_meter *older)
{
    struct keep keep;
    struct loonstool_meter found;
    expect(keep_open(&keep) == KEEP_WHOLE, "nothing is damaged", 0);
    uint64_t *copy = kept + keep.newer * KEEP_COPY_WORDS, first = copy[1];
    copy[1] = 2;
    expect(copy[KEEP_COPY_WORDS - 1] != crc_of(copy), "the checksum of other words", 0);
    copy[KEEP_COPY_WORDS - 1] = crc_of(copy);
    expect(restart(&found) == KEEP_DAMAGED && same(&found, older), "words that hold no meter", 0);
    copy[1] = first;
    copy[KEEP_COPY_WORDS - 1] = crc_of(copy);
    expect(restart(&found) == KEEP_WHOLE && same(&found, newer), "the checksum is the CRC-32", 0);
    struct keep old = keep;
    keep.newer = 1 - keep.newer;
    expect_lost(&keep, "a call on the older copy", 0);
    uint64_t image[KEEP_WORDS];
    memcpy(image, kept, sizeof image);
    keep = old;
    expect(keep_mend(&keep) == LOONSTOOL_ACCEPTED, "the newer copy stored again", 0);
    expect_lost(&old, "a call from an old struct keep", 0);
    memcpy(kept, image, sizeof image);
}

/* A bit of the copy to be stored sticks: the call is accepted where it sticks at the right value, and not made where it does not. The call
 * is one that leaves the meter as it is, keep_mend and keep_day by turns. */
static void try_stuck(const struct loonstool_meter *newer)
{
    uint64_t image[KEEP_WORDS];
    struct keep keep;
    struct loonstool_meter found;
    unsigned refused = 0;
    memcpy(image, kept, sizeof image);
    for (size_t word = 0; word < KEEP_COPY_WORDS; word++) {
        expect(keep_open(&keep) == KEEP_WHOLE, "nothing is damaged", word);
        stuck_word = (1 - keep.newer) * KEEP_COPY_WORDS + word;
        stuck_bit = (uint64_t)1 << drawn_below(64);
        kept[stuck_word] ^= stuck_bit;
        mark_counts();
        uint8_t number = word % 2 ? keep_mend(&keep) : keep_day(&keep, 0, no_blocks, sizeof no_blocks, NULL, 0, &kept_counts);
        expect(same_counts() == (word % 2 || number == KEEP_LOST), "a bit that sticks, and the counts", word);
        refused += number == KEEP_LOST;
        expect(number == LOONSTOOL_ACCEPTED || number == KEEP_LOST, "a bit that sticks", word);
        expect(restart(&found) == (number == KEEP_LOST ? KEEP_DAMAGED : KEEP_WHOLE) && same(&found, newer), "a bit that sticks", word);
        expect(found_counter == keep.counter, "a bit that sticks, and the counter", word);
        stuck_word = NEVER;
        memcpy(kept, image, sizeof image);
    }
    expect(refused > KEEP_COPY_WORDS / 2, "a bit that sticks is found", refused);
}

/* With a copy damaged, keep_mend makes both whole, and a cut in it leaves the meter. */
static void try_mend(const struct loonstool_meter *newer)
{
    uint64_t image[KEEP_WORDS];
    struct keep keep;
    struct loonstool_meter found;
    expect(keep_open(&keep) == KEEP_WHOLE, "nothing is damaged", 0);
    flip(1 - keep.newer, 64);
    memcpy(image, kept, sizeof image);
    size_t count = cut(&mend, NEVER, 0);
    for (size_t at = 0; at <= count; at++) {
        memcpy(kept, image, sizeof image);
        cut(&mend, at, 0);
        enum keep_found left = restart(&found);
        expect(left == (at == 0 ? KEEP_DAMAGED : KEEP_WHOLE) && same(&found, newer), "a cut of keep_mend", at);
    }
    expect(keep_open(&keep) == KEEP_WHOLE, "both copies after keep_mend", 0);
    for (size_t copy = 0; copy < KEEP_COPIES; copy++) {
        flip(copy, 64);
        expect(restart(&found) == KEEP_DAMAGED && same(&found, newer), "both copies after keep_mend", copy);
        flip(copy, 64);
    }
}

/* With the newer copy damaged, the calls go on from the older one, and after the first that is accepted both are whole. */
static void try_going_on(struct loonstool_meter *newer, struct loonstool_meter *older)
{
    struct keep keep;
    struct call call = {.kind = METERING, .volume = 1};
    expect(keep_open(&keep) == KEEP_WHOLE, "nothing is damaged", 0);
    flip(keep.newer, 64);
    *newer = *older;
    expect(keep_open(&keep) == KEEP_DAMAGED, "the newer copy is damaged", 0);
    uint8_t number = on_plain(newer, &call);
    while (number != LOONSTOOL_ACCEPTED && call.stream < LOONSTOOL_STREAMS) {
        expect(on_kept(&keep, &call) == number, "a refusal with one copy", call.stream);
        call.stream++;
        number = on_plain(newer, &call);
    }
    expect(on_kept(&keep, &call) == LOONSTOOL_ACCEPTED, "going on from the older copy", call.stream);
    try_call(&call, newer, older);
}

/* Calls most of which are cut, one after the other: whatever a cut leaves, the next call begins with it. */
static void try_walk(struct loonstool_meter *meter)
{
    for (size_t i = 0; i < WALK; i++) {
        struct call call = drawn_below(200) == 0 ? fresh : draw_call();
        struct loonstool_meter after = *meter, found;
        uint64_t bits = drawn_below(2) ? drawn() & drawn() : 0;
        uint8_t number = on_plain(&after, &call);
        size_t count = cut(&call, drawn_below(12), bits);
        expect(number == LOONSTOOL_ACCEPTED || count == 0, "a refused call stores nothing", i);
        expect(restart(&found) != KEEP_NONE, "cuts in a row leave a meter", i);
        expect(told(&found, meter, &after), "cuts in a row leave the meter before the last call, or after it", i);
        *meter = found;
    }
}

/* A memory that was never used has no meter, and a cut of the first call leaves none or a fresh one. */
static void try_unused(uint64_t word)
{
    uint64_t image[KEEP_WORDS];
    struct loonstool_meter zero, found;
    loonstool_meter_fresh(&zero);
    for (size_t i = 0; i < KEEP_WORDS; i++)
        image[i] = word;
    memcpy(kept, image, sizeof image);
    size_t count = cut(&fresh, NEVER, 0);
    for (size_t at = 0; at <= count; at++) {
        memcpy(kept, image, sizeof image);
        expect(restart(&found) == KEEP_NONE, "a memory that was never used", at);
        cut(&fresh, at, 0);
        expect(restart(&found) == KEEP_NONE || same(&found, &zero), "a cut of the first call", at);
    }
    expect(restart(&found) == KEEP_WHOLE && same(&found, &zero), "a fresh meter", count);
}

int main(void)
{
    struct loonstool_meter newer, older;
    try_unused(UINT64_MAX);
    try_unused(0xa5a5a5a5a5a5a5a5);
    try_unused(0);
    loonstool_meter_fresh(&newer);
    try_call(&fresh, &newer, &older);
    for (size_t i = 0; i < CALLS; i++) {
        struct call call = draw_call();
        try_call(&call, &newer, &older);
    }
    try_flips(&newer, &older);
    try_erased(&newer, &older);
    try_several_flips(&older);
    try_wrong_copies(&newer, &older);
    try_stuck(&newer);
    try_going_on(&newer, &older);
    try_mend(&newer);
    try_walk(&newer);
    cut(&mend, NEVER, 0);
    try_call(&fresh, &newer, &older);
    try_erased(&newer, &older);
    printf("seed %d: %lu calls, %lu of them refused, %lu cuts, ", SEED, calls, refusals, cuts);
    printf("%lu flipped bits, %lu failed\n", flips, failures);
    return failures != 0;
}

/* Tries the library on bad input: null-length lists and buffers, unaligned bytes, records, day files and buffers a byte short and shorter,
 * streams, volumes and offsets far above their limits, and each number of a record, of the meter's calls and of a day file, after which all
 * that was lent is as it was; then loonstool_meter_check on every kind of damaged words. Between these, gases at the limits of both classes
 * of records, and hydrogen, are answered as they must be. What is lent, to be read or to be filled, ends where a page begins that may not
 * be touched (but for the tests of unaligned bytes, which move it by a byte at a time), so that a read or a write past it ends the program.
 * So does a write to a meter during a call that only reads it. */
#define _DEFAULT_SOURCE
#include <stdio.h>
#include <stdlib.h>
#include <string.h>
#include <sys/mman.h>
#include <unistd.h>

#include "loonstool.h"

_Static_assert(sizeof(struct loonstool_properties) == 6 * 8, "the library fills six numbers of 64 bits");
_Static_assert(sizeof(struct loonstool_per_kilogram) == 2 * 8, "the library fills two numbers of 64 bits");
_Static_assert(sizeof(struct loonstool_totals) == 7 * 8, "the library fills seven numbers of 64 bits");
_Static_assert(sizeof(struct loonstool_counts) == 2 * 8, "the library fills two numbers of 64 bits");
_Static_assert(sizeof(struct loonstool_block) == 2 * 8, "the library fills a pointer and a number of 64 bits");

__extension__ typedef unsigned __int128 wide;

enum { K1_BYTES = LOONSTOOL_RECORD_BYTES(8), K2_BYTES = LOONSTOOL_RECORD_BYTES(1), ROOM = 300, DRAWS = 20000 };

/* Lines of the component table. */
enum { HYDROGEN = 41, WATER = 42 };

/* The words of a stream. */
enum {
    ANALYSED, COMBUSTION, METERING, Z, HS, HI, RHO, D, W,
    VOLUME, SUPERIOR_MJ, SUPERIOR_REST, INFERIOR_MJ, INFERIOR_REST, MASS_KG, MASS_REST,
    WORDS
};

_Static_assert(WORDS == LOONSTOOL_STREAM_WORDS, "each word of a stream has a name");

/* The highest that each word of a stream can be, and the lowest where it has an analysis. */
static const uint64_t highest[WORDS] = {
    1, 25, 20, 1000000000, 250000000, 250000000, 510000000, 390000000, 470000000,
    999999999999, 249999999999, 999999999, 249999999999, 999999999, 5099999999, 99999999999};
static const uint64_t lowest[WORDS] = {1, 0, 0, 724000000, 9030000, 9030000, 7540000, 6250000, 3880000, 0, 0, 0, 0, 0, 0, 0};

/* A register of a stream: the word with its wholes, after which that with its rest stands; the parts of the rest that make a whole, mJ or
 * 10^-11 kg; and the word with the property that a volume is multiplied by. */
struct meter_register {
    size_t whole;
    uint64_t parts;
    size_t property;
};

enum { SUPERIOR, INFERIOR, MASS, REGISTERS };

static const struct meter_register registers[REGISTERS] = {
    {SUPERIOR_MJ, 1000000000, HS}, {INFERIOR_MJ, 1000000000, HI}, {MASS_KG, 100000000000, RHO}};

/* Hs, Hi and rho of methane at 15/15. */
static const uint64_t of_methane[REGISTERS] = {37781616, 34015574, 67985382};

/* Both means, superior and inferior. */
static __typeof__(loonstool_meter_mean) *const means[2] = {loonstool_meter_mean, loonstool_meter_mean_inferior};

enum { PAIRS = 6 };

static const uint8_t pairs[PAIRS][2] = {{15, 15}, {0, 0}, {15, 0}, {25, 0}, {20, 20}, {25, 20}};

/* Z, Hs, Hi, rho, d and W of hydrogen at each pair, and its values per kilogram. */
static const uint64_t of_hydrogen[PAIRS][6] = {
    {999976960, 12102221, 10223131, 8525901, 6957592, 45881288}, {999984000, 12788139, 10777318, 8994037, 6956360, 48485996},
    {999984000, 12766723, 10784457, 8994037, 6956360, 48404798}, {999984000, 12752446, 10788473, 8994037, 6956360, 48350667},
    {999973990, 11889188, 10050456, 8380508, 6957961, 45072454}, {999973990, 11882536, 10052535, 8380508, 6957961, 45047236}};
static const uint64_t hydrogen_per_kilogram[PAIRS][2] = {
    {14194653, 11990674}, {14218463, 11982737}, {14194653, 11990674}, {14178779, 11995139}, {14186716, 11992658}, {14178779, 11995139}};

/* A day file of three blocks: K2, no bytes, and three bytes. Where they begin and how long they are; and the longest block. */
enum { BLOCKS = 3, K2_AT = 7, DAY_BYTES = K2_AT + K2_BYTES + 2 + 2 + 3, LONGEST = 65535, NO_BLOCK = LONGEST + 1 };

static const uint8_t day[DAY_BYTES] = {
    'G', 'D', 'F', 1, 0, K2_BYTES, 0, 'G', 'C', 'R', 1, 0, 15, 15, 1, 1, 0x40, 0x42, 0x0f, 0, 0, 0, 3, 0, 'G', 'C', 'R'};
static const size_t block_at[BLOCKS] = {K2_AT, DAY_BYTES - 5, DAY_BYTES - 3}, block_length[BLOCKS] = {K2_BYTES, 0, 3};

static const struct loonstool_properties k1 = {997709976, 38959473, 35144879, 74087496, 60459367, 50105024};
static const struct loonstool_per_kilogram k1_per_kilogram = {5258576, 4743699};

/* What is lent to the calls, each at the end of a page of its own; for bytes and volumes, the end. */
static uint8_t *lines;
static uint32_t *fractions;
static struct loonstool_properties *properties;
static struct loonstool_per_kilogram *per_kilogram;
static uint8_t *combustion, *metering, *read_lines;
static uint32_t *read_fractions;
static size_t *count;
static uint8_t *bytes_end;
static struct loonstool_meter *meter;
static struct loonstool_totals *totals;
static uint64_t *mean;
static uint64_t *volumes_end;
static struct loonstool_counts *counts;
static size_t *next;
static struct loonstool_block *block;

/* The ends of the pages of a gas's entries, lent to the writer. */
static uint8_t *lines_end;
static uint32_t *fractions_end;

/* The meter as the last accepted call left it. */
static struct loonstool_meter saved;

/* What a call fills: where, and how many bytes. */
struct part {
    void *at;
    size_t size;
};

enum { PARTS = 11 };
static struct part filled[PARTS];

static unsigned checks, failures, meters, damages;

static void expect(int holds, const char *what, size_t at)
{
    checks++;
    if (holds)
        return;
    failures++;
    fprintf(stderr, "try_library: failed: %s (at %zu)\n", what, at);
}

/* The end of a page, before which `size` bytes may be touched; the page after it may not. */
static uint8_t *page_end(size_t size)
{
    size_t page = (size_t)sysconf(_SC_PAGESIZE), length = (size + page - 1) / page * page;
    uint8_t *pages = mmap(NULL, length + page, PROT_READ | PROT_WRITE, MAP_PRIVATE | MAP_ANONYMOUS, -1, 0);
    if (pages == MAP_FAILED || mprotect(pages + length, page, PROT_NONE) != 0) {
        perror("try_library: mmap");
        exit(2);
    }
    return pages + length;
}

/* Whether the page of the meter may be written. */
static void let_write_meter(bool may)
{
    size_t page = (size_t)sysconf(_SC_PAGESIZE);
    uint8_t *end = (uint8_t *)(meter + 1);
    if (mprotect(end - page, page, may ? PROT_READ | PROT_WRITE : PROT_READ) != 0) {
        perror("try_library: mprotect");
        exit(2);
    }
}

/* The last `size` bytes of a page. */
static void *lent(size_t size)
{
    return page_end(size) - size;
}

static struct part at_page_end(size_t size)
{
    return (struct part){lent(size), size};
}

static int all_are(const uint8_t *bytes, size_t length, uint8_t value)
{
    for (size_t i = 0; i < length; i++)
        if (bytes[i] != value)
            return 0;
    return 1;
}

static void mark_filled(void)
{
    for (size_t i = 0; i < PARTS; i++)
        memset(filled[i].at, 0xa5, filled[i].size);
}

static int all_marked(void)
{
    for (size_t i = 0; i < PARTS; i++)
        if (!all_are(filled[i].at, filled[i].size, 0xa5))
            return 0;
    return 1;
}

static uint8_t read_record(const uint8_t *bytes, size_t length)
{
    return loonstool_read(bytes, length, combustion, metering, count, read_lines, read_fractions);
}

static uint8_t write_k1(uint8_t *buffer, size_t length)
{
    return loonstool_write(15, 15, lines, 8, fractions, 8, buffer, length);
}

/* A call of the meter gave its number, and left the meter and what was lent for an answer as they were. */
static void expect_left(uint8_t given, uint8_t number, const char *what, size_t at)
{
    expect(given == number, what, at);
    expect(memcmp(meter, &saved, sizeof saved) == 0 && all_marked(), what, at);
}

/* A record is refused by a number, and what was lent for the answer is as it was. */
static void expect_refused(const uint8_t *bytes, size_t length, uint8_t number, const char *what)
{
    mark_filled();
    expect(loonstool_properties_of(bytes, length, properties) == number, what, length);
    expect(loonstool_per_kilogram(bytes, length, per_kilogram) == number, what, length);
    expect(read_record(bytes, length) == number, what, length);
    expect(all_marked(), what, length);
    for (size_t stream = 0; stream < LOONSTOOL_STREAMS; stream++)
        expect_left(loonstool_meter_analysis(meter, stream, bytes, length), number, what, stream);
}

/* A record is read: its pair, its entries, and 0 past them. */
static void expect_read(const uint8_t *bytes, const uint8_t pair[2], size_t n, const uint8_t *lines, const uint32_t *fractions,
                        const char *what, size_t at)
{
    expect(read_record(bytes, LOONSTOOL_RECORD_BYTES(n)) == LOONSTOOL_ACCEPTED, what, at);
    expect(*combustion == pair[0] && *metering == pair[1] && *count == n, what, at);
    expect(memcmp(read_lines, lines, n) == 0 && memcmp(read_fractions, fractions, n * 4) == 0, what, at);
    expect(all_are(read_lines + n, LOONSTOOL_LINES - n, 0), "0 past the entries", at);
    expect(all_are((uint8_t *)(read_fractions + n), (LOONSTOOL_LINES - n) * 4, 0), "0 past the entries", at);
}

/* The record of K1 is accepted where it stands. */
static void expect_k1(const uint8_t *bytes, const char *what, size_t at)
{
    mark_filled();
    expect(loonstool_properties_of(bytes, K1_BYTES, properties) == LOONSTOOL_ACCEPTED, what, at);
    expect(memcmp(properties, &k1, sizeof k1) == 0, what, at);
    expect(loonstool_per_kilogram(bytes, K1_BYTES, per_kilogram) == LOONSTOOL_ACCEPTED, what, at);
    expect(memcmp(per_kilogram, &k1_per_kilogram, sizeof k1_per_kilogram) == 0, what, at);
    expect_read(bytes, pairs[0], 8, lines, fractions, what, at);
}

/* The writer gives a number for a buffer of `length` bytes, and every byte that it does not fill is as it was. */
static void expect_written(uint8_t *buffer, size_t length, uint8_t number, const uint8_t *k1_bytes, const char *what)
{
    size_t written = number == LOONSTOOL_ACCEPTED ? K1_BYTES : 0;
    memset(buffer, 0x5a, length);
    expect(write_k1(buffer, length) == number, what, length);
    expect(memcmp(buffer, k1_bytes, written) == 0, what, length);
    expect(all_are(buffer + written, length - written, 0x5a), what, length);
}

static void try_null_lengths(void)
{
    uint8_t *buffer = bytes_end - ROOM;
    expect_refused(NULL, 0, LOONSTOOL_RECORD_SHORT, "a record of no bytes, at NULL");
    expect_refused(bytes_end, 0, LOONSTOOL_RECORD_SHORT, "a record of no bytes");
    memset(buffer, 0x5a, ROOM);
    expect(loonstool_write(15, 15, NULL, 0, NULL, 0, buffer, ROOM) == LOONSTOOL_COUNT_OUTSIDE, "no entries", 0);
    expect(loonstool_write(15, 15, lines, 8, NULL, 0, buffer, ROOM) == LOONSTOOL_LISTS_DIFFER, "no fractions", 0);
    expect(loonstool_write(15, 15, NULL, 0, fractions, 8, buffer, ROOM) == LOONSTOOL_LISTS_DIFFER, "no lines", 0);
    expect(write_k1(NULL, 0) == LOONSTOOL_BUFFER_SHORT, "no buffer", 0);
    expect(all_are(buffer, ROOM, 0x5a), "a refused write leaves the buffer", 0);
}

static void try_unaligned(const uint8_t *k1_bytes)
{
    for (size_t at = 0; at < 16; at++) {
        uint8_t *place = bytes_end - K1_BYTES - at;
        memcpy(place, k1_bytes, K1_BYTES);
        expect_k1(place, "a record at any address", at);
        expect_written(place, K1_BYTES, LOONSTOOL_ACCEPTED, k1_bytes, "a buffer at any address");
        expect_written(place, K1_BYTES + at, LOONSTOOL_ACCEPTED, k1_bytes, "a buffer with bytes to spare");
    }
}

static void try_short(const uint8_t *k1_bytes)
{
    for (size_t length = 0; length < K1_BYTES; length++) {
        uint8_t *place = bytes_end - length;
        uint8_t number = length < 8 ? LOONSTOOL_RECORD_SHORT : LOONSTOOL_LENGTH_DIFFERS;
        memcpy(place, k1_bytes, length);
        expect_refused(place, length, number, "a record cut off");
        expect_written(place, length, LOONSTOOL_BUFFER_SHORT, k1_bytes, "a buffer too short");
    }
}

static void try_long(const uint8_t *k1_bytes)
{
    for (size_t more = 1; more <= ROOM; more++) {
        uint8_t *place = bytes_end - K1_BYTES - more;
        memcpy(place, k1_bytes, K1_BYTES);
        memset(place + K1_BYTES, 0x5a, more);
        expect_refused(place, K1_BYTES + more, LOONSTOOL_LENGTH_DIFFERS, "a record with bytes after it");
    }
}

static void put_fraction(uint8_t *at, uint32_t fraction)
{
    for (size_t i = 0; i < 4; i++)
        at[i] = (uint8_t)(fraction >> 8 * i);
}

enum { MOST_ENTRIES = 3 };

/* The entries of a gas, and the number that they get at 15/15. */
struct gas {
    uint8_t number, count, lines[MOST_ENTRIES];
    uint32_t fractions[MOST_ENTRIES];
};

static const struct gas methane = {LOONSTOOL_ACCEPTED, 1, {1}, {1000000}}, hydrogen = {LOONSTOOL_ACCEPTED, 1, {HYDROGEN}, {1000000}};

static const struct gas gases[] = {
    {LOONSTOOL_LINE_OUTSIDE, 2, {1, 56}, {950000, 50000}},
    {LOONSTOOL_FRACTION_ZERO, 2, {1, 2}, {1000000, 0}},
    {LOONSTOOL_SUM_OUTSIDE, 2, {1, 2}, {950101, 50000}},
    {LOONSTOOL_METHANE_LOW, 2, {1, 52}, {499999, 500001}},
    {LOONSTOOL_FRACTION_ABOVE, 2, {1, 3}, {949999, 50001}},
    {LOONSTOOL_WATER_HIGH, 2, {1, WATER}, {999799, 201}},
    /* the sum is outside its range too */
    {LOONSTOOL_METHANE_LOW, 2, {1, 52}, {499999, 500}},
    {LOONSTOOL_FRACTION_ABOVE, 2, {1, 52}, {924700, 400000}},
    {LOONSTOOL_WATER_HIGH, 2, {1, WATER}, {999900, 201}},
    {LOONSTOOL_FRACTION_ABOVE, 2, {1, HYDROGEN}, {500000, 900000}},
    {LOONSTOOL_WATER_HIGH, 2, {HYDROGEN, WATER}, {999900, 201}},
    /* at the limits of the hydrogen class, and past them */
    {LOONSTOOL_ACCEPTED, 3, {1, HYDROGEN, 52}, {50000, 900000, 50000}},
    {LOONSTOOL_METHANE_LOW, 3, {1, HYDROGEN, 52}, {50000, 899999, 50001}},
    {LOONSTOOL_METHANE_LOW, 2, {1, HYDROGEN}, {100001, 899999}},
    {LOONSTOOL_METHANE_LOW, 1, {HYDROGEN}, {899999}},
    {LOONSTOOL_FRACTION_ABOVE, 3, {1, HYDROGEN, 52}, {50001, 900000, 49999}},
    {LOONSTOOL_FRACTION_ABOVE, 2, {1, HYDROGEN}, {100000, 900000}},
    {LOONSTOOL_FRACTION_ABOVE, 3, {HYDROGEN, WATER, 52}, {949798, 201, 50001}},
    {LOONSTOOL_SUM_OUTSIDE, 1, {HYDROGEN}, {900000}},
    {LOONSTOOL_SUM_OUTSIDE, 1, {HYDROGEN}, {999899}},
    {LOONSTOOL_ACCEPTED, 1, {HYDROGEN}, {999900}},
    {LOONSTOOL_ACCEPTED, 1, {HYDROGEN}, {1000100}},
    {LOONSTOOL_SUM_OUTSIDE, 1, {HYDROGEN}, {1000101}},
    {LOONSTOOL_SUM_OUTSIDE, 1, {HYDROGEN}, {UINT32_MAX}},
    /* hydrogen at its limit outside the class, and above it */
    {LOONSTOOL_ACCEPTED, 2, {1, HYDROGEN}, {950000, 50000}},
    {LOONSTOOL_FRACTION_ABOVE, 2, {1, HYDROGEN}, {949999, 50001}},
};

/* The record of a gas for a pair, at the end of a page. */
static uint8_t *record_of(const struct gas *gas, const uint8_t pair[2])
{
    const uint8_t head[8] = {'G', 'C', 'R', 1, 0, pair[0], pair[1], gas->count};
    uint8_t *bytes = bytes_end - LOONSTOOL_RECORD_BYTES(gas->count);
    memcpy(bytes, head, sizeof head);
    for (size_t i = 0; i < gas->count; i++) {
        bytes[8 + 5 * i] = gas->lines[i];
        put_fraction(bytes + 9 + 5 * i, gas->fractions[i]);
    }
    return bytes;
}

static void try_reading(const struct gas *gas, const char *what, size_t at)
{
    const uint8_t *bytes = record_of(gas, pairs[0]);
    const size_t length = LOONSTOOL_RECORD_BYTES(gas->count);
    if (gas->number != LOONSTOOL_ACCEPTED) {
        expect_refused(bytes, length, gas->number, what);
        return;
    }
    expect(loonstool_properties_of(bytes, length, properties) == LOONSTOOL_ACCEPTED, what, at);
    expect(loonstool_per_kilogram(bytes, length, per_kilogram) == LOONSTOOL_ACCEPTED, what, at);
    expect_read(bytes, pairs[0], gas->count, gas->lines, gas->fractions, what, at);
    mark_filled();
}

/* The writer gives a gas its number, and fills the bytes of the record alone, none where it refuses; without a buffer it refuses by 20 what
 * it would write. */
static void try_writing(const struct gas *gas, const char *what, size_t at)
{
    const bool accepted = gas->number == LOONSTOOL_ACCEPTED;
    const size_t n = gas->count, length = LOONSTOOL_RECORD_BYTES(n), written = accepted ? length : 0;
    const uint8_t *lines = memcpy(lines_end - n, gas->lines, n), unlent = accepted ? LOONSTOOL_BUFFER_SHORT : gas->number;
    const uint32_t *fractions = memcpy(fractions_end - n, gas->fractions, n * sizeof *fractions_end);
    uint8_t record[LOONSTOOL_RECORD_BYTES(MOST_ENTRIES)], *buffer = bytes_end - ROOM;
    memcpy(record, record_of(gas, pairs[0]), length);
    memset(buffer, 0x5a, ROOM);
    expect(loonstool_write(15, 15, lines, n, fractions, n, NULL, 0) == unlent, what, at);
    expect(loonstool_write(15, 15, lines, n, fractions, n, buffer, ROOM) == gas->number, what, at);
    expect(memcmp(buffer, record, written) == 0 && all_are(buffer + written, ROOM - written, 0x5a), what, at);
}

static void try_gas(const struct gas *gas, const char *what, size_t at)
{
    try_reading(gas, what, at);
    try_writing(gas, what, at);
}

/* Hydrogen with each other line at its limit in the hydrogen class, and above it. */
static void try_limits_of_class(void)
{
    for (uint8_t line = 1; line <= LOONSTOOL_LINES; line++) {
        const size_t at = line > HYDROGEN;
        const uint32_t limit = line == WATER ? 200 : 50000;
        struct gas gas = {LOONSTOOL_ACCEPTED, 2, {HYDROGEN, HYDROGEN}, {1000000 - limit, 1000000 - limit}};
        if (line == HYDROGEN)
            continue;
        gas.lines[at] = line;
        gas.fractions[at] = limit;
        try_gas(&gas, "hydrogen with a line at its limit", line);
        gas.number = line == WATER ? LOONSTOOL_WATER_HIGH : LOONSTOOL_FRACTION_ABOVE;
        gas.fractions[at]++;
        gas.fractions[!at]--;
        try_gas(&gas, "hydrogen with a line above its limit", line);
    }
}

/* A record of methane and ethane damaged: `length` bytes of it, with the byte at `at` set, and the number that refuses it. */
struct damage {
    uint8_t number, length, at, byte;
};

static const struct damage of_record[] = {
    {LOONSTOOL_RECORD_SHORT, 7, 0, 'G'},
    {LOONSTOOL_MARK_DIFFERS, 18, 1, 'G'},
    {LOONSTOOL_VERSION_DIFFERS, 18, 3, 2},
    {LOONSTOOL_PAIR_NOT_PERMITTED, 18, 6, 20},
    {LOONSTOOL_COUNT_OUTSIDE, 18, 7, 0},
    {LOONSTOOL_LENGTH_DIFFERS, 17, 7, 2},
};

static void try_damage(const struct damage *damage)
{
    const struct gas whole = {LOONSTOOL_ACCEPTED, 2, {1, 2}, {950000, 50000}};
    uint8_t *record = record_of(&whole, pairs[0]);
    record[damage->at] = damage->byte;
    expect_refused(memmove(bytes_end - damage->length, record, damage->length), damage->length, damage->number, "a damaged record");
}

/* Each number that a record may have, those that come before 9 where it holds too, and the limits of both classes. */
static void try_numbers(void)
{
    bool tried[LOONSTOOL_WATER_HIGH + 1] = {false};
    for (size_t i = 0; i < sizeof of_record / sizeof *of_record; i++) {
        tried[of_record[i].number] = true;
        try_damage(&of_record[i]);
    }
    for (size_t i = 0; i < sizeof gases / sizeof *gases; i++) {
        tried[gases[i].number] = true;
        try_gas(&gases[i], "a gas", i);
    }
    for (size_t number = 0; number < sizeof tried; number++)
        expect(tried[number], "each number of a record", number);
    try_limits_of_class();
}

/* Hydrogen at each pair. */
static void try_hydrogen(void)
{
    for (size_t i = 0; i < PAIRS; i++) {
        const uint8_t *bytes = record_of(&hydrogen, pairs[i]);
        expect(loonstool_properties_of(bytes, K2_BYTES, properties) == LOONSTOOL_ACCEPTED, "hydrogen", i);
        expect(memcmp(properties, of_hydrogen[i], sizeof *properties) == 0, "the properties of hydrogen", i);
        expect(loonstool_per_kilogram(bytes, K2_BYTES, per_kilogram) == LOONSTOOL_ACCEPTED, "hydrogen per kilogram", i);
        expect(memcmp(per_kilogram, hydrogen_per_kilogram[i], sizeof *per_kilogram) == 0, "hydrogen per kilogram", i);
    }
}

/* Methane alone at 25/20: the two temperatures are not exchanged. */
static void try_pair(void)
{
    uint8_t *bytes = bytes_end - LOONSTOOL_RECORD_BYTES(1);
    uint8_t *methane = lent(sizeof *methane);
    uint32_t *all = lent(sizeof *all);
    *methane = 1;
    *all = 1000000;
    expect(loonstool_write(25, 20, methane, 1, all, 1, bytes, LOONSTOOL_RECORD_BYTES(1)) == LOONSTOOL_ACCEPTED, "25/20", 0);
    expect(bytes[5] == 25 && bytes[6] == 20, "25/20 in bytes 5 and 6", 0);
    expect(read_record(bytes, LOONSTOOL_RECORD_BYTES(1)) == LOONSTOOL_ACCEPTED, "25/20 read", 0);
    expect(*combustion == 25 && *metering == 20, "25/20 read", 0);
}

/* A call of the meter on a stream was accepted, and left every other stream as it was. */
static void expect_accepted(uint8_t given, size_t stream, const char *what)
{
    expect(given == LOONSTOOL_ACCEPTED, what, stream);
    for (size_t other = 0; other < LOONSTOOL_STREAMS; other++)
        expect(other == stream || memcmp(meter->words[other], saved.words[other], sizeof saved.words[other]) == 0, what, other);
    saved = *meter;
}

/* The record of methane alone, for a pair, at the end of a page. */
static const uint8_t *methane_at(const uint8_t pair[2])
{
    return record_of(&methane, pair);
}

/* Methane alone at each pair: h of the combustion temperature by m, to the nearest. */
static void try_per_kilogram(void)
{
    const uint64_t mass = 160430, heats[PAIRS][2] = {{891560, 802690}, {892970, 802820}, {891560, 802690},
                                                     {890630, 802600}, {891090, 802650}, {890630, 802600}};
    for (size_t i = 0; i < PAIRS; i++) {
        const uint64_t superior = (2000000 * heats[i][0] + mass) / (2 * mass), inferior = (2000000 * heats[i][1] + mass) / (2 * mass);
        expect(loonstool_per_kilogram(methane_at(pairs[i]), K2_BYTES, per_kilogram) == LOONSTOOL_ACCEPTED, "methane per kilogram", i);
        expect(per_kilogram->superior == superior && per_kilogram->inferior == inferior, "methane per kilogram", i);
    }
}

static void make_fresh(void)
{
    memset(meter, 0xa5, sizeof *meter);
    loonstool_meter_fresh(meter);
    expect(all_are((const uint8_t *)meter, sizeof *meter, 0), "the words of a fresh meter", 0);
    saved = *meter;
}

/* Totals and means of a stream that metered volumes of methane and of hydrogen at 15/15; the meter may not be written meanwhile. */
static void expect_readings(size_t stream, uint64_t methane_volume, uint64_t hydrogen_volume)
{
    const wide volume = (wide)methane_volume + hydrogen_volume;
    uint64_t right[1 + 2 * REGISTERS] = {(uint64_t)volume}, right_mean[REGISTERS];
    for (size_t i = 0; i < REGISTERS; i++) {
        const wide amount = (wide)methane_volume * of_methane[i] + (wide)hydrogen_volume * of_hydrogen[0][registers[i].property - Z];
        right[1 + 2 * i] = (uint64_t)(amount / registers[i].parts);
        right[2 + 2 * i] = (uint64_t)(amount % registers[i].parts);
        right_mean[i] = (uint64_t)((2 * amount + volume) / (2 * volume));
    }
    let_write_meter(false);
    expect(loonstool_meter_totals(meter, stream, totals) == LOONSTOOL_ACCEPTED, "totals", stream);
    expect(memcmp(totals, right, sizeof right) == 0, "the totals of methane and hydrogen", stream);
    for (size_t i = 0; i < 2; i++) {
        expect(means[i](meter, stream, mean) == LOONSTOOL_ACCEPTED, "a mean", stream);
        expect(*mean == right_mean[i], "the mean of methane and hydrogen", stream);
    }
    let_write_meter(true);
    mark_filled();
}

/* Both means of a stream are refused by a number. */
static void expect_no_means(size_t stream, uint8_t number, const char *what)
{
    for (size_t i = 0; i < 2; i++)
        expect_left(means[i](meter, stream, mean), number, what, stream);
}

/* The number that the walk gives at an offset of a file, and the length of the block that is there, NO_BLOCK where none is. */
static uint8_t right_walk(const uint8_t *file, size_t length, size_t offset, size_t *of_block)
{
    *of_block = NO_BLOCK;
    if (length < 5 || memcmp(file, "GDF\1\0", 5) != 0)
        return LOONSTOOL_NO_DAY_FILE;
    if (offset < 5 || offset > length)
        return LOONSTOOL_OFFSET_OUTSIDE;
    if (offset == length)
        return LOONSTOOL_ACCEPTED;
    if (length - offset < 2 || length - offset - 2 < file[offset] + 256U * file[offset + 1])
        return LOONSTOOL_BLOCK_CUT;
    *of_block = file[offset] + 256U * file[offset + 1];
    return LOONSTOOL_ACCEPTED;
}

/* Both calls of the walk at an offset; what they do not fill is as it was. */
static void expect_walk(const uint8_t *file, size_t length, size_t offset, const char *what)
{
    static const uint8_t other[16];
    size_t of_block;
    const uint8_t number = right_walk(file, length, offset, &of_block);
    const size_t after = of_block == NO_BLOCK ? LOONSTOOL_DAY_END : offset + 2 + of_block;
    *block = (struct loonstool_block){other, sizeof other};
    expect(loonstool_day_next(file, length, offset, next) == number, what, offset);
    expect(loonstool_day_block(file, length, offset, block) == (of_block != NO_BLOCK), what, offset);
    if (of_block == NO_BLOCK)
        expect(block->bytes == other && block->length == sizeof other, what, offset);
    else
        expect(block->bytes == file + offset + 2 && block->length == of_block, what, offset);
    if (number == LOONSTOOL_ACCEPTED) {
        expect(*next == after, what, offset);
        memset(next, 0xa5, sizeof *next);
    }
    expect(all_marked(), what, offset);
}

/* Every offset of a file, and some far past its end. */
static void expect_walks(const uint8_t *file, size_t length, const char *what)
{
    const size_t far[] = {1 << 16, ((size_t)1 << 16) + 5, ((size_t)1 << 32) + 5, (size_t)1 << 63, SIZE_MAX - 5, SIZE_MAX - 1, SIZE_MAX};
    for (size_t offset = 0; offset <= length + 2; offset++)
        expect_walk(file, length, offset, what);
    for (size_t i = 0; i < sizeof far / sizeof *far; i++)
        expect_walk(file, length, far[i], what);
}

/* The day file cut off at every byte, at every address, with each byte changed, and with the longest block. */
static void try_walk(void)
{
    uint8_t *file = bytes_end - DAY_BYTES, *longest = bytes_end - LONGEST - 2 - LOONSTOOL_FIRST_BLOCK;
    mark_filled();
    expect_walks(NULL, 0, "no file, at NULL");
    for (size_t length = 0; length <= DAY_BYTES; length++)
        expect_walks(memcpy(bytes_end - length, day, length), length, "a day file cut off");
    for (size_t at = 0; at < 16; at++)
        expect_walks(memcpy(file - at, day, DAY_BYTES), DAY_BYTES, "a day file at any address");
    memcpy(file, day, DAY_BYTES);
    for (size_t at = 0; at < DAY_BYTES; at++) {
        for (size_t byte = 0; byte < 256; byte++) {
            file[at] = (uint8_t)byte;
            expect_walks(file, DAY_BYTES, "a byte changed");
        }
        file[at] = day[at];
    }
    memcpy(longest, day, LOONSTOOL_FIRST_BLOCK);
    memset(longest + LOONSTOOL_FIRST_BLOCK, 0xff, LONGEST + 2);
    expect_walk(longest, (size_t)(bytes_end - longest), LOONSTOOL_FIRST_BLOCK, "the longest block");
    expect_walk(longest, (size_t)(bytes_end - longest), (size_t)(bytes_end - longest), "the end after the longest block");
    memmove(longest + 1, longest, LOONSTOOL_FIRST_BLOCK + 2);
    expect_walk(longest + 1, (size_t)(bytes_end - longest) - 1, LOONSTOOL_FIRST_BLOCK, "the longest block a byte short");
}

/* The day file with a number of volumes is refused on a stream by a number. */
static void expect_no_day(size_t stream, size_t count, uint8_t number, const char *what)
{
    const uint8_t *file = memcpy(bytes_end - DAY_BYTES, day, DAY_BYTES);
    const uint64_t *volumes = memset(volumes_end - count, 0, count * sizeof *volumes_end);
    expect_left(loonstool_meter_day(meter, stream, file, DAY_BYTES, volumes, count, counts), number, what, stream);
}

static const uint64_t far_streams[] = {16, 17, 255, 256, 1ULL << 32, (1ULL << 32) + 3, 1ULL << 63, UINT64_MAX};
static const uint64_t far_volumes[] = {10000001, 1ULL << 32, (1ULL << 32) + 1, 1ULL << 63, UINT64_MAX};

enum { FAR_STREAMS = sizeof far_streams / sizeof *far_streams, FAR_VOLUMES = sizeof far_volumes / sizeof *far_volumes };

/* 13, which comes before every other number. */
static void try_far_streams(void)
{
    const uint8_t *k2 = methane_at(pairs[0]);
    for (size_t i = 0; i < FAR_STREAMS; i++) {
        size_t stream = far_streams[i];
        expect_left(loonstool_meter_analysis(meter, stream, k2, K2_BYTES), LOONSTOOL_STREAM_ABOVE, "analysis, a stream above 15", stream);
        expect_left(loonstool_meter_analysis(meter, stream, NULL, 0), LOONSTOOL_STREAM_ABOVE, "no bytes, a stream above 15", stream);
        expect_left(loonstool_meter_metering(meter, stream, 0), LOONSTOOL_STREAM_ABOVE, "metering, a stream above 15", stream);
        expect_left(loonstool_meter_metering(meter, stream, UINT64_MAX), LOONSTOOL_STREAM_ABOVE, "too much, a stream above 15", stream);
        expect_left(loonstool_meter_totals(meter, stream, totals), LOONSTOOL_STREAM_ABOVE, "totals, a stream above 15", stream);
        expect_no_means(stream, LOONSTOOL_STREAM_ABOVE, "a mean, a stream above 15");
        expect_no_day(stream, BLOCKS, LOONSTOOL_STREAM_ABOVE, "a day file, a stream above 15");
        expect_left(loonstool_meter_day(meter, stream, NULL, 0, NULL, 0, counts), LOONSTOOL_STREAM_ABOVE, "no file", stream);
    }
}

/* 15, and 1 for a record of no bytes, on each stream. */
static void try_far_volumes(void)
{
    for (size_t stream = 0; stream < LOONSTOOL_STREAMS; stream++) {
        for (size_t i = 0; i < FAR_VOLUMES; i++)
            expect_left(loonstool_meter_metering(meter, stream, far_volumes[i]), LOONSTOOL_VOLUME_ABOVE, "a volume too high", stream);
        expect_left(loonstool_meter_analysis(meter, stream, NULL, 0), LOONSTOOL_RECORD_SHORT, "an analysis of no bytes, at NULL", stream);
    }
}

/* 21, 23 and 19 on each stream, and a day file of no blocks, which is accepted. */
static void try_refused_days(void)
{
    for (size_t stream = 0; stream < LOONSTOOL_STREAMS; stream++) {
        for (size_t length = 0; length < DAY_BYTES; length++) {
            const uint8_t *file = memcpy(bytes_end - length, day, length);
            const uint64_t *volumes = volumes_end - BLOCKS;
            uint8_t number = length < 5 ? LOONSTOOL_NO_DAY_FILE : LOONSTOOL_BLOCK_CUT;
            for (size_t i = 0; i < BLOCKS; i++)
                if (length == block_at[i] - 2)
                    number = LOONSTOOL_LISTS_DIFFER;
            expect_left(loonstool_meter_day(meter, stream, file, length, volumes, BLOCKS, counts), number, "a day file cut off", length);
        }
        for (size_t count = 0; count <= BLOCKS + 1; count++)
            if (count != BLOCKS)
                expect_no_day(stream, count, LOONSTOOL_LISTS_DIFFER, "another number of volumes than blocks");
        expect_left(loonstool_meter_day(meter, stream, NULL, 0, NULL, 0, counts), LOONSTOOL_NO_DAY_FILE, "no file, at NULL", stream);
        const uint8_t *none = memcpy(bytes_end - LOONSTOOL_FIRST_BLOCK, day, LOONSTOOL_FIRST_BLOCK);
        uint8_t number = loonstool_meter_day(meter, stream, none, LOONSTOOL_FIRST_BLOCK, NULL, 0, counts);
        expect(number == LOONSTOOL_ACCEPTED && counts->analyses == 0 && counts->volumes == 0, "a day file of no blocks", stream);
        memset(counts, 0xa5, sizeof *counts);
        expect_left(number, LOONSTOOL_ACCEPTED, "a day file of no blocks", stream);
    }
}

/* The day file with methane at a pair in its first block is metered as the single calls on a copy of the meter are made; the other two
 * records are refused. */
static void try_day(size_t stream, const uint8_t pair[2], uint64_t first, uint64_t second, uint64_t third)
{
    static struct loonstool_meter singly;
    const uint64_t volumes[BLOCKS] = {first, second, third};
    struct loonstool_counts right = {0, 0};
    uint8_t *file = memcpy(bytes_end - DAY_BYTES, day, DAY_BYTES);
    memcpy(file + K2_AT + 5, pair, 2);
    memcpy(volumes_end - BLOCKS, volumes, sizeof volumes);
    singly = *meter;
    for (size_t i = 0; i < BLOCKS; i++) {
        right.analyses += loonstool_meter_analysis(&singly, stream, file + block_at[i], block_length[i]) == LOONSTOOL_ACCEPTED;
        right.volumes += loonstool_meter_metering(&singly, stream, volumes[i]) == LOONSTOOL_ACCEPTED;
    }
    expect_accepted(loonstool_meter_day(meter, stream, file, DAY_BYTES, volumes_end - BLOCKS, BLOCKS, counts), stream, "a day file");
    expect(memcmp(counts, &right, sizeof right) == 0, "the counts of a day file", stream);
    expect(memcmp(meter, &singly, sizeof singly) == 0, "a day file leaves what the single calls leave", stream);
    mark_filled();
}

/* On a fresh meter, on one with analyses, and with a pair that is not the stream's; with volumes that are refused. */
static void try_days(void)
{
    static const uint8_t not_permitted[2] = {25, 15};
    for (size_t stream = 0; stream < LOONSTOOL_STREAMS; stream++) {
        try_day(stream, not_permitted, 1, 10000001, 0);
        try_day(stream, pairs[stream % PAIRS], 10000001, 0, stream);
        try_day(stream, pairs[(stream + 1) % PAIRS], 1, UINT64_MAX, 10000000);
    }
}

/* The streams of a fresh meter, one after the other: 16 and 18, an analysis, 18 and 14, and the metering of K9 where the pair is K2's. */
static void try_streams(void)
{
    for (size_t stream = 0; stream < LOONSTOOL_STREAMS; stream++) {
        const uint8_t *pair = pairs[stream % PAIRS], *other_pair = pairs[(stream + 1) % PAIRS];
        expect_left(loonstool_meter_metering(meter, stream, 0), LOONSTOOL_NO_ANALYSIS, "no analysis", stream);
        expect_left(loonstool_meter_metering(meter, stream, 10000000), LOONSTOOL_NO_ANALYSIS, "no analysis", stream);
        expect_no_means(stream, LOONSTOOL_TOTAL_ZERO, "a mean without an analysis");
        expect_accepted(loonstool_meter_analysis(meter, stream, methane_at(pair), K2_BYTES), stream, "an analysis");
        expect_no_means(stream, LOONSTOOL_TOTAL_ZERO, "a mean at volume 0");
        expect_left(loonstool_meter_analysis(meter, stream, methane_at(other_pair), K2_BYTES), LOONSTOOL_PAIR_DIFFERS, "a pair", stream);
        expect_accepted(loonstool_meter_metering(meter, stream, pair == pairs[0] ? 1000 : stream), stream, "metering");
        if (pair == pairs[0])
            expect_readings(stream, 1000, 0);
    }
}

/* Accepted calls where every other stream has an analysis and totals. */
static void try_streams_again(void)
{
    for (size_t stream = 0; stream < LOONSTOOL_STREAMS; stream++) {
        expect_accepted(loonstool_meter_analysis(meter, stream, methane_at(pairs[stream % PAIRS]), K2_BYTES), stream, "another analysis");
        expect_accepted(loonstool_meter_metering(meter, stream, 100 * stream), stream, "another metering");
    }
}

/* A stream for each pair goes on with hydrogen, and its totals with what it metered of methane. */
static void try_other_class(void)
{
    for (size_t stream = PAIRS; stream < 2 * PAIRS; stream++) {
        const uint8_t *pair = pairs[stream % PAIRS], *other_pair = pairs[(stream + 1) % PAIRS];
        const uint64_t volume = meter->words[stream][VOLUME];
        expect_accepted(loonstool_meter_analysis(meter, stream, record_of(&hydrogen, pair), K2_BYTES), stream, "hydrogen");
        expect(memcmp(meter->words[stream] + Z, of_hydrogen[stream % PAIRS], sizeof *of_hydrogen) == 0, "hydrogen in force", stream);
        expect_left(loonstool_meter_analysis(meter, stream, record_of(&hydrogen, other_pair), K2_BYTES), LOONSTOOL_PAIR_DIFFERS,
                    "hydrogen, a pair", stream);
        expect_accepted(loonstool_meter_metering(meter, stream, 9999999), stream, "hydrogen metered");
        if (pair == pairs[0])
            expect_readings(stream, volume, 9999999);
    }
}

/* A stream of methane at 15/15 up to 999,999,999,999 dm3, and 17 from there. */
static void try_full_stream(void)
{
    expect_accepted(loonstool_meter_analysis(meter, 0, methane_at(pairs[0]), K2_BYTES), 0, "an analysis");
    uint64_t left = highest[VOLUME] - meter->words[0][VOLUME];
    while (left > 10000000 && loonstool_meter_metering(meter, 0, 10000000) == LOONSTOOL_ACCEPTED)
        left -= 10000000;
    saved = *meter;
    expect(left > 1 && left < 10000000, "a stream that has less than 10,000,000 dm3 left", 0);
    expect_left(loonstool_meter_metering(meter, 0, left + 1), LOONSTOOL_TOTAL_PASSES, "one past the last volume", 0);
    expect_left(loonstool_meter_metering(meter, 0, 10000000), LOONSTOOL_TOTAL_PASSES, "the most past the last volume", 0);
    try_day(0, pairs[0], left - 1, 2, 0);
    expect_accepted(loonstool_meter_metering(meter, 0, 1), 0, "the last volume");
    expect_left(loonstool_meter_metering(meter, 0, 1), LOONSTOOL_TOTAL_PASSES, "a full stream", 0);
    try_day(0, pairs[0], 1, 0, 10000000);
    expect_left(loonstool_meter_metering(meter, 0, 10000001), LOONSTOOL_VOLUME_ABOVE, "15 before 17", 0);
    expect_accepted(loonstool_meter_metering(meter, 0, 0), 0, "nothing more on a full stream");
    expect_readings(0, highest[VOLUME], 0);
}

/* The greatest whole number whose square is at most n. */
static uint64_t root_of(uint64_t n)
{
    uint64_t root = 0;
    for (uint64_t bit = (uint64_t)1 << 31; bit > 0; bit /= 2)
        if ((root + bit) * (root + bit) <= n)
            root += bit;
    return root;
}

/* The Wobbe index of Hs and d, halves upward. */
static uint64_t index_of(uint64_t hs, uint64_t d)
{
    uint64_t root = root_of(d * 10000000000);
    return (hs * 1000000000 + root / 2) / root;
}

/* d times the density of air at a metering temperature, halves upward. */
static uint64_t by_air(uint64_t temperature, uint64_t d)
{
    const wide t = temperature == 0 ? 27315 : temperature == 15 ? 28815 : 29315;
    const wide factor = temperature == 0 ? 99941 : temperature == 15 ? 99958 : 99963;
    const wide divisor = 831451 * t * factor;
    const wide air = ((wide)10132500 * 289626000 * 1000000000 + divisor / 2) / divisor;
    return (uint64_t)((d * air + 500000000) / 1000000000);
}

/* What a register of a stream holds, in the parts of its rest. */
static wide amount_of(const uint64_t *words, const struct meter_register *r)
{
    return (wide)words[r->whole] * r->parts + words[r->whole + 1];
}

/* Whether a register holds between volume x the floor and volume x the ceiling of its property. */
static bool volume_has(const uint64_t *words, const struct meter_register *r)
{
    const wide amount = amount_of(words, r);
    return amount >= (wide)words[VOLUME] * lowest[r->property] && amount <= (wide)words[VOLUME] * highest[r->property];
}

/* Whether the words of a stream can be those of a meter: each lies between its lowest and its highest, Hi is not above Hs, rho differs by
 * at most 5 from d times the density of air, W is the index of Hs and d, each energy and the mass is one that the volume can have, and the
 * inferior energy is not above the superior one; without an analysis all are 0. */
static bool can_be(const uint64_t *words)
{
    uint64_t density = by_air(words[METERING], words[D]);
    bool permitted = false;
    if (words[ANALYSED] == 0)
        return all_are((const uint8_t *)words, WORDS * sizeof *words, 0);
    for (size_t i = 0; i < WORDS; i++)
        if (words[i] < lowest[i] || words[i] > highest[i])
            return false;
    for (size_t i = 0; i < REGISTERS; i++)
        if (!volume_has(words, &registers[i]))
            return false;
    for (size_t i = 0; i < PAIRS; i++)
        permitted |= words[COMBUSTION] == pairs[i][0] && words[METERING] == pairs[i][1];
    return permitted && words[HI] <= words[HS] && words[RHO] <= density + 5 && density <= words[RHO] + 5 &&
           words[W] == index_of(words[HS], words[D]) && amount_of(words, &registers[INFERIOR]) <= amount_of(words, &registers[SUPERIOR]);
}

/* loonstool_meter_check gives what it should on the words as they are, and does not write to them. */
static void expect_check(const char *what, size_t at)
{
    bool right = true;
    for (size_t stream = 0; stream < LOONSTOOL_STREAMS; stream++)
        right &= can_be(meter->words[stream]);
    let_write_meter(false);
    expect(loonstool_meter_check(meter) == right, what, at);
    let_write_meter(true);
    meters += right;
    damages += !right;
}

/* A word of a stream set to what is at a limit, Hs and d times the density of air among them, and each bit of it flipped. */
static void try_word(size_t stream, size_t word)
{
    uint64_t *words = meter->words[stream], was = words[word], hs = words[HS], rho = by_air(words[METERING], words[D]);
    const uint64_t values[] = {0,       1,       2,       15,      20,               25,           1000000000,    UINT64_MAX,
                               hs,      hs + 1,  was - 1, was + 1, lowest[word] - 1, lowest[word], highest[word], highest[word] + 1,
                               rho - 6, rho - 5, rho + 5, rho + 6};
    for (size_t i = 0; i < sizeof values / sizeof *values; i++) {
        words[word] = values[i];
        expect_check("a word at a limit", stream * WORDS + word);
    }
    for (size_t bit = 0; bit < 64; bit++) {
        words[word] = was ^ (uint64_t)1 << bit;
        expect_check("a flipped bit", stream * WORDS + word);
    }
    words[word] = was;
}

/* Amounts around the bounds of a register: the least and the most that a volume can have, and a whole between them, and one part and one
 * whole more and less. */
enum { AROUND = 15 };

static wide around(const struct meter_register *r, uint64_t volume, size_t which)
{
    const wide low = (wide)volume * lowest[r->property], high = (wide)volume * highest[r->property];
    const wide bounds[3] = {low, (low + high) / 2 / r->parts * r->parts, high};
    const wide steps[5] = {0, 1, r->parts, -(wide)1, -(wide)r->parts};
    return bounds[which / 5] + steps[which % 5];
}

/* Sets a register of a stream to one of these amounts, `in_rest` wholes of which stand in the rest. */
static void put_around(uint64_t *words, const struct meter_register *r, size_t which, uint64_t in_rest)
{
    const wide amount = around(r, words[VOLUME], which);
    words[r->whole] = (uint64_t)(amount / r->parts) - in_rest;
    words[r->whole + 1] = (uint64_t)(amount % r->parts) + in_rest * r->parts;
}

/* Both energies of a stream around their bounds, which are the same, each with each. So the inferior one also equals the superior one, and
 * passes it by one mJ, within a MJ and from one to the next. Then the same energies with a MJ in the rest. */
static void try_energies(size_t stream)
{
    uint64_t *words = meter->words[stream];
    for (size_t i = 0; i < AROUND * AROUND * 4; i++) {
        put_around(words, &registers[SUPERIOR], i / 4 / AROUND, i / 2 % 2);
        put_around(words, &registers[INFERIOR], i / 4 % AROUND, i % 2);
        expect_check("energies at their bounds", stream);
    }
    memcpy(words, saved.words[stream], sizeof saved.words[stream]);
}

/* The mass of a stream around its bounds, and the same with a kg in the rest. */
static void try_mass(size_t stream)
{
    uint64_t *words = meter->words[stream];
    for (size_t i = 0; i < AROUND * 2; i++) {
        put_around(words, &registers[MASS], i / 2, i % 2);
        expect_check("the mass at its bounds", stream);
    }
    memcpy(words, saved.words[stream], sizeof saved.words[stream]);
}

/* Hs and d at their limits, with rho and W as they then are, and Hi at its lowest. */
static void try_limits(size_t stream)
{
    uint64_t *words = meter->words[stream];
    const uint64_t hs[] = {lowest[HS] - 1, lowest[HS], highest[HS], highest[HS] + 1};
    const uint64_t d[] = {lowest[D] - 1, lowest[D], highest[D], highest[D] + 1};
    for (size_t i = 0; i < 16; i++) {
        words[HS] = hs[i / 4];
        words[HI] = lowest[HI];
        words[D] = d[i % 4];
        words[RHO] = by_air(words[METERING], words[D]);
        words[W] = index_of(words[HS], words[D]);
        expect_check("Hs and d at their limits", i);
    }
    memcpy(words, saved.words[stream], sizeof saved.words[stream]);
}

static void try_pairs(size_t stream)
{
    uint64_t *words = meter->words[stream];
    for (size_t i = 0; i < 32 * 32; i++) {
        words[COMBUSTION] = i / 32;
        words[METERING] = i % 32;
        expect_check("a pair", i);
    }
    memcpy(words, saved.words[stream], sizeof saved.words[stream]);
}

/* Every kind of damage to the meter as it is. */
static void try_damages(void)
{
    expect_check("words as the calls left them", 0);
    expect(loonstool_meter_check(meter), "words as the calls left them", 0);
    for (size_t stream = 0; stream < LOONSTOOL_STREAMS; stream++) {
        for (size_t word = 0; word < WORDS; word++)
            try_word(stream, word);
        try_energies(stream);
        try_mass(stream);
        try_limits(stream);
        try_pairs(stream);
    }
    expect(memcmp(meter, &saved, sizeof saved) == 0, "the damages were undone", 0);
}

/* Two words at a time, of random streams, set to the highest of some word, or to one more. */
static void try_drawn_damages(void)
{
    uint64_t drawn = 16;
    for (size_t i = 0; i < DRAWS; i++) {
        for (size_t k = 0; k < 2; k++) {
            drawn = drawn * 6364136223846793005 + 1442695040888963407;
            meter->words[drawn >> 60][(drawn >> 32) % WORDS] = highest[(drawn >> 40) % WORDS] + (drawn >> 50) % 2;
        }
        expect_check("two words", i);
        *meter = saved;
    }
}

/* Words that hold no meter: analysis and totals stay within the stream and the memory lent for an answer. */
static void try_other_words(uint8_t byte)
{
    memset(meter, byte, sizeof *meter);
    expect_check("words that are all alike", byte);
    saved = *meter;
    for (size_t stream = 0; stream < LOONSTOOL_STREAMS; stream++) {
        uint8_t number = loonstool_meter_totals(meter, stream, totals);
        expect(number == LOONSTOOL_ACCEPTED && memcmp(meter, &saved, sizeof saved) == 0, "totals of other words", stream);
        number = loonstool_meter_analysis(meter, stream, methane_at(pairs[0]), K2_BYTES);
        expect(number == LOONSTOOL_ACCEPTED || number == LOONSTOOL_PAIR_DIFFERS, "an analysis on other words", stream);
        memcpy(meter->words[stream], saved.words[stream], sizeof saved.words[stream]);
        expect(memcmp(meter, &saved, sizeof saved) == 0, "an analysis on other words touches another stream", stream);
    }
}

static void try_meter(void)
{
    mark_filled();
    make_fresh();
    try_days();
    make_fresh();
    try_far_streams();
    try_far_volumes();
    try_refused_days();
    try_damages();
    try_streams();
    try_far_streams();
    try_far_volumes();
    try_numbers();
    try_refused_days();
    try_streams_again();
    try_days();
    try_other_class();
    try_full_stream();
    try_damages();
    try_drawn_damages();
    expect(meters > 1000 && damages > 1000, "words that hold a meter, and words that do not", meters);
    try_other_words(0xff);
    try_other_words(0x01);
}

static void lend(void)
{
    const uint8_t k1_lines[8] = {1, 2, 3, 4, 5, 6, 52, 54};
    const uint32_t k1_fractions[8] = {924700, 35000, 9800, 2200, 3400, 600, 17500, 6800};
    lines = memcpy(lent(sizeof k1_lines), k1_lines, sizeof k1_lines);
    fractions = memcpy(lent(sizeof k1_fractions), k1_fractions, sizeof k1_fractions);
    bytes_end = page_end(LOONSTOOL_FIRST_BLOCK + 2 + LONGEST);
    volumes_end = (uint64_t *)(void *)page_end((BLOCKS + 1) * sizeof *volumes_end);
    filled[0] = at_page_end(sizeof *properties);
    filled[1] = at_page_end(sizeof *combustion);
    filled[2] = at_page_end(sizeof *metering);
    filled[3] = at_page_end(sizeof *count);
    filled[4] = at_page_end(LOONSTOOL_LINES * sizeof *read_lines);
    filled[5] = at_page_end(LOONSTOOL_LINES * sizeof *read_fractions);
    filled[6] = at_page_end(sizeof *totals);
    filled[7] = at_page_end(sizeof *mean);
    filled[8] = at_page_end(sizeof *per_kilogram);
    filled[9] = at_page_end(sizeof *counts);
    filled[10] = at_page_end(sizeof *next);
    properties = filled[0].at;
    combustion = filled[1].at;
    metering = filled[2].at;
    count = filled[3].at;
    read_lines = filled[4].at;
    read_fractions = filled[5].at;
    totals = filled[6].at;
    mean = filled[7].at;
    per_kilogram = filled[8].at;
    counts = filled[9].at;
    next = filled[10].at;
    block = lent(sizeof *block);
    meter = lent(sizeof *meter);
    lines_end = page_end(MOST_ENTRIES);
    fractions_end = (uint32_t *)(void *)page_end(MOST_ENTRIES * sizeof *fractions_end);
}

int main(void)
{
    uint8_t k1_bytes[K1_BYTES];
    lend();
    make_fresh();
    expect(write_k1(bytes_end - K1_BYTES, K1_BYTES) == LOONSTOOL_ACCEPTED, "K1", 0);
    memcpy(k1_bytes, bytes_end - K1_BYTES, K1_BYTES);
    try_null_lengths();
    try_unaligned(k1_bytes);
    try_short(k1_bytes);
    try_long(k1_bytes);
    try_numbers();
    try_hydrogen();
    try_pair();
    try_per_kilogram();
    try_walk();
    try_meter();
    printf("%u checks, %u failed\n", checks, failures);
    return failures != 0;
}

/* Prints how much stack each function takes at most, on records of 55 entries, one of natural gas and one of the hydrogen class, and on a
 * day file of 1,440 of them, and fails where one takes more than the header says. A call runs on a stack of its own that was filled with a
 * byte before; what is not that byte any more was taken, and so are the BELOW bytes below it. */
#define _GNU_SOURCE
#include <stdio.h>
#include <stdlib.h>
#include <string.h>
#include <ucontext.h>

#include "loonstool.h"

enum { STACK = 65536, BELOW = 128, BYTES = LOONSTOOL_RECORD_BYTES(LOONSTOOL_LINES) };

/* The blocks of the day file, one a minute, and its bytes. */
enum { BLOCKS = 1440, BLOCK_BYTES = 2 + BYTES, DAY_BYTES = LOONSTOOL_FIRST_BLOCK + BLOCKS * BLOCK_BYTES };

static _Alignas(16) uint8_t stack[STACK];
static struct loonstool_properties properties;
static struct loonstool_per_kilogram values;
static uint8_t lines[LOONSTOOL_LINES], read_lines[LOONSTOOL_LINES], bytes[BYTES], combustion, metering;
static uint32_t fractions[LOONSTOOL_LINES], read_fractions[LOONSTOOL_LINES];
static size_t count, next;
static struct loonstool_meter meter;
static struct loonstool_totals totals;
static uint64_t mean;
static uint8_t day[DAY_BYTES] = {'G', 'D', 'F', 1, 0};
static uint64_t volumes[BLOCKS];
static struct loonstool_counts counts;
static struct loonstool_block block = {day, DAY_BYTES};
static uint8_t number;

static void nothing(void)
{
}

static void properties_of(void)
{
    number = loonstool_properties_of(bytes, BYTES, &properties);
}

static void per_kilogram(void)
{
    number = loonstool_per_kilogram(bytes, BYTES, &values);
}

static void read_record(void)
{
    number = loonstool_read(bytes, BYTES, &combustion, &metering, &count, read_lines, read_fractions);
}

static void write_record(void)
{
    number = loonstool_write(15, 15, lines, LOONSTOOL_LINES, fractions, LOONSTOOL_LINES, bytes, BYTES);
}

static void meter_fresh(void)
{
    loonstool_meter_fresh(&meter);
    number = LOONSTOOL_ACCEPTED;
}

static void meter_check(void)
{
    number = !loonstool_meter_check(&meter);
}

static void meter_analysis(void)
{
    number = loonstool_meter_analysis(&meter, 15, bytes, BYTES);
}

static void meter_metering(void)
{
    number = loonstool_meter_metering(&meter, 15, 10000000);
}

static void meter_totals(void)
{
    number = loonstool_meter_totals(&meter, 15, &totals);
}

static void meter_mean(void)
{
    number = loonstool_meter_mean(&meter, 15, &mean);
}

static void meter_mean_inferior(void)
{
    number = loonstool_meter_mean_inferior(&meter, 15, &mean);
}

static void meter_day(void)
{
    number = loonstool_meter_day(&meter, 15, day, DAY_BYTES, volumes, BLOCKS, &counts);
}

static void day_next(void)
{
    number = loonstool_day_next(day, DAY_BYTES, DAY_BYTES - BLOCK_BYTES, &next);
}

static void day_block(void)
{
    number = !loonstool_day_block(day, DAY_BYTES, DAY_BYTES - BLOCK_BYTES, &block);
}

/* The gases, by the line that each has most of: methane, hydrogen. */
enum { GASES = 2 };

static const size_t most_of[GASES] = {1, 41};

/* The record of a gas of every line. */
static void make_record(size_t gas)
{
    for (size_t i = 0; i < LOONSTOOL_LINES; i++) {
        lines[i] = (uint8_t)(i + 1);
        fractions[i] = i + 1 == most_of[gas] ? 1000000 - 54 * 200 : 200;
    }
    write_record();
}

/* The day file of the gases' records by turns, with a volume for each block. */
static void make_day(void)
{
    for (size_t i = 0; i < BLOCKS; i++) {
        uint8_t *place = day + LOONSTOOL_FIRST_BLOCK + i * BLOCK_BYTES;
        make_record(i % GASES);
        place[0] = BYTES & 0xff;
        place[1] = BYTES >> 8;
        memcpy(place + 2, bytes, BYTES);
        volumes[i] = i;
    }
}

static void fail(const char *what)
{
    perror(what);
    exit(2);
}

/* The bytes of stack that a function takes. */
static size_t taken_by(void (*function)(void))
{
    static ucontext_t back, there;
    size_t untouched = 0;
    memset(stack, 0xa5, STACK);
    if (getcontext(&there) != 0)
        fail("stack: getcontext");
    there.uc_stack.ss_sp = stack;
    there.uc_stack.ss_size = STACK;
    there.uc_link = &back;
    makecontext(&there, function, 0);
    if (swapcontext(&back, &there) != 0)
        fail("stack: swapcontext");
    while (untouched < STACK && stack[untouched] == 0xa5)
        untouched++;
    return STACK - untouched;
}

static int above(const char *name, void (*function)(void), size_t most)
{
    size_t taken = 0;
    bool refused = false;
    for (size_t gas = 0; gas < GASES; gas++) {
        make_record(gas);
        size_t of_gas = taken_by(function) - taken_by(nothing) + BELOW;
        taken = of_gas > taken ? of_gas : taken;
        if (number != LOONSTOOL_ACCEPTED)
            fprintf(stderr, "stack: %s gave %d\n", name, number);
        refused |= number != LOONSTOOL_ACCEPTED;
    }
    printf("%s: %zu bytes, %d below the stack pointer among them, at most %zu\n", name, taken, BELOW, most);
    if (taken > most)
        fprintf(stderr, "stack: %s takes more than the header says\n", name);
    return taken > most || refused;
}

int main(void)
{
    int wrong = above("loonstool_write", write_record, LOONSTOOL_STACK_WRITE);
    wrong |= above("loonstool_read", read_record, LOONSTOOL_STACK_READ);
    wrong |= above("loonstool_properties_of", properties_of, LOONSTOOL_STACK_PROPERTIES_OF);
    wrong |= above("loonstool_per_kilogram", per_kilogram, LOONSTOOL_STACK_PER_KILOGRAM);
    wrong |= above("loonstool_meter_fresh", meter_fresh, LOONSTOOL_STACK_METER_FRESH);
    wrong |= above("loonstool_meter_analysis", meter_analysis, LOONSTOOL_STACK_METER_ANALYSIS);
    wrong |= above("loonstool_meter_metering", meter_metering, LOONSTOOL_STACK_METER_METERING);
    wrong |= above("loonstool_meter_totals", meter_totals, LOONSTOOL_STACK_METER_TOTALS);
    wrong |= above("loonstool_meter_mean", meter_mean, LOONSTOOL_STACK_METER_MEAN);
    wrong |= above("loonstool_meter_mean_inferior", meter_mean_inferior, LOONSTOOL_STACK_METER_MEAN_INFERIOR);
    wrong |= above("loonstool_meter_check", meter_check, LOONSTOOL_STACK_METER_CHECK);
    make_day();
    wrong |= above("loonstool_meter_day", meter_day, LOONSTOOL_STACK_METER_DAY);
    wrong |= above("loonstool_day_next", day_next, LOONSTOOL_STACK_DAY_NEXT);
    wrong |= above("loonstool_day_block", day_block, LOONSTOOL_STACK_DAY_BLOCK);
    return wrong;
}

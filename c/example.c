/* Meters methane on a stream and prints its totals and both means; then writes the record of the gas of annex D of ISO 6976:1995, prints
 * its properties and its calorific values per kilogram, and reads it again; then meters a day file.
 *
 *     tools/build library
 *     cc -Iinclude c/example.c target/staticlib/libloonstool.a -o target/example && target/example
 */
#include <inttypes.h>
#include <stdio.h>

#include "loonstool.h"

static int refused(const char *call, uint8_t number)
{
    fprintf(stderr, "example: %s refused %" PRIu8 "\n", call, number);
    return 1;
}

static void print_properties(const struct loonstool_properties *p)
{
    printf("Z %" PRIu64 "\nHs %" PRIu64 "\nHi %" PRIu64 "\n", p->z, p->hs, p->hi);
    printf("rho %" PRIu64 "\nd %" PRIu64 "\nW %" PRIu64 "\n", p->rho, p->d, p->w);
}

static void print_readings(const struct loonstool_totals *t, uint64_t mean, uint64_t mean_inferior)
{
    printf("volume %" PRIu64 " dm3\n", t->volume);
    printf("superior energy %" PRIu64 " MJ %" PRIu64 " mJ\n", t->superior_mj, t->superior_rest);
    printf("inferior energy %" PRIu64 " MJ %" PRIu64 " mJ\n", t->inferior_mj, t->inferior_rest);
    printf("mass %" PRIu64 " kg %" PRIu64 " e-11 kg\n", t->mass_kg, t->mass_rest);
    printf("mean %" PRIu64 " J/m3\nmean inferior %" PRIu64 " J/m3\n", mean, mean_inferior);
}

/* A fresh meter refuses to meter before there is an analysis. With methane at 15/15 in force, it meters 1,000 dm3. */
static int meter_methane(void)
{
    const uint8_t methane[LOONSTOOL_RECORD_BYTES(1)] = {'G', 'C', 'R', 1, 0, 15, 15, 1, 1, 0x40, 0x42, 0x0f, 0};
    static struct loonstool_meter meter;
    struct loonstool_totals totals;
    uint64_t mean, mean_inferior;
    loonstool_meter_fresh(&meter);
    uint8_t number = loonstool_meter_metering(&meter, 0, 1000);
    printf("metering without an analysis: refused %" PRIu8 "\n", number);

    number = loonstool_meter_analysis(&meter, 0, methane, sizeof methane);
    if (number != LOONSTOOL_ACCEPTED)
        return refused("loonstool_meter_analysis", number);
    number = loonstool_meter_metering(&meter, 0, 1000);
    if (number != LOONSTOOL_ACCEPTED)
        return refused("loonstool_meter_metering", number);

    number = loonstool_meter_totals(&meter, 0, &totals);
    if (number != LOONSTOOL_ACCEPTED)
        return refused("loonstool_meter_totals", number);
    number = loonstool_meter_mean(&meter, 0, &mean);
    if (number != LOONSTOOL_ACCEPTED)
        return refused("loonstool_meter_mean", number);
    number = loonstool_meter_mean_inferior(&meter, 0, &mean_inferior);
    if (number != LOONSTOOL_ACCEPTED)
        return refused("loonstool_meter_mean_inferior", number);
    print_readings(&totals, mean, mean_inferior);
    return 0;
}

/* The properties of a record and its calorific values per kilogram. */
static int calculate(const uint8_t *record, size_t length)
{
    struct loonstool_properties properties;
    struct loonstool_per_kilogram values;
    uint8_t number = loonstool_properties_of(record, length, &properties);
    if (number != LOONSTOOL_ACCEPTED)
        return refused("loonstool_properties_of", number);
    print_properties(&properties);
    number = loonstool_per_kilogram(record, length, &values);
    if (number != LOONSTOOL_ACCEPTED)
        return refused("loonstool_per_kilogram", number);
    printf("per kilogram: superior %" PRIu64 ", inferior %" PRIu64 ", unit 10 J/kg\n", values.superior, values.inferior);
    return 0;
}

static int write_and_read(void)
{
    const uint8_t lines[8] = {1, 2, 3, 4, 5, 6, 52, 54};
    const uint32_t fractions[8] = {924700, 35000, 9800, 2200, 3400, 600, 17500, 6800};
    uint8_t record[LOONSTOOL_RECORD_BYTES(8)];
    uint8_t number = loonstool_write(15, 15, lines, 8, fractions, 8, record, sizeof record);
    if (number != LOONSTOOL_ACCEPTED)
        return refused("loonstool_write", number);
    if (calculate(record, sizeof record) != 0)
        return 1;

    uint8_t combustion, metering, read_lines[LOONSTOOL_LINES];
    uint32_t read_fractions[LOONSTOOL_LINES];
    size_t count;
    number = loonstool_read(record, sizeof record, &combustion, &metering, &count, read_lines, read_fractions);
    if (number != LOONSTOOL_ACCEPTED)
        return refused("loonstool_read", number);
    printf("%" PRIu8 "/%" PRIu8 ", %zu entries\n", combustion, metering, count);
    for (size_t i = 0; i < count; i++)
        printf("line %" PRIu8 ": %" PRIu32 " ppm\n", read_lines[i], read_fractions[i]);
    return 0;
}

/* The blocks of a day file, each with the number of its record, 0 where it is accepted. */
static int print_blocks(const uint8_t *file, size_t length)
{
    struct loonstool_block block = {file, length};
    struct loonstool_properties properties;
    for (size_t offset = LOONSTOOL_FIRST_BLOCK, next;; offset = next) {
        uint8_t number = loonstool_day_next(file, length, offset, &next);
        if (number != LOONSTOOL_ACCEPTED)
            return refused("loonstool_day_next", number);
        if (next == LOONSTOOL_DAY_END || !loonstool_day_block(file, length, offset, &block))
            return 0;
        number = loonstool_properties_of(block.bytes, block.length, &properties);
        printf("block at %zu: %zu bytes, number %" PRIu8 "\n", offset, block.length, number);
    }
}

/* A day file of two blocks: methane, and a record of no bytes, which is refused and leaves methane in force. */
static int meter_day(void)
{
    const uint8_t file[] = {'G', 'D', 'F', 1, 0, 13, 0, 'G', 'C', 'R', 1, 0, 15, 15, 1, 1, 0x40, 0x42, 0x0f, 0, 0, 0};
    const uint64_t volumes[] = {600, 400};
    static struct loonstool_meter meter;
    struct loonstool_counts counts;
    struct loonstool_totals totals;
    if (print_blocks(file, sizeof file) != 0)
        return 1;
    loonstool_meter_fresh(&meter);
    uint8_t number = loonstool_meter_day(&meter, 0, file, sizeof file, volumes, 2, &counts);
    if (number != LOONSTOOL_ACCEPTED)
        return refused("loonstool_meter_day", number);
    printf("accepted: %" PRIu64 " of 2 analyses, %" PRIu64 " of 2 volumes\n", counts.analyses, counts.volumes);
    number = loonstool_meter_totals(&meter, 0, &totals);
    if (number != LOONSTOOL_ACCEPTED)
        return refused("loonstool_meter_totals", number);
    printf("volume %" PRIu64 " dm3\n", totals.volume);
    return 0;
}

int main(void)
{
    return meter_methane() || write_and_read() || meter_day();
}

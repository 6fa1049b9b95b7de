/* Ignores the answer of each function that gives one. It is never run: the compiler has to warn of every call. */
#include "loonstool.h"

int main(void)
{
    static struct loonstool_meter meter;
    static struct loonstool_totals totals;
    static struct loonstool_properties properties;
    static struct loonstool_per_kilogram values;
    static struct loonstool_counts counts;
    static uint64_t mean;
    static size_t count, next;
    static uint8_t pair[2], lines[LOONSTOOL_LINES];
    static struct loonstool_block block = {lines, 0};
    static uint32_t fractions[LOONSTOOL_LINES];
    loonstool_meter_check(&meter);
    loonstool_meter_analysis(&meter, 0, NULL, 0);
    loonstool_meter_metering(&meter, 0, 0);
    loonstool_meter_totals(&meter, 0, &totals);
    loonstool_meter_mean(&meter, 0, &mean);
    loonstool_meter_mean_inferior(&meter, 0, &mean);
    loonstool_meter_day(&meter, 0, NULL, 0, NULL, 0, &counts);
    loonstool_properties_of(NULL, 0, &properties);
    loonstool_per_kilogram(NULL, 0, &values);
    loonstool_read(NULL, 0, pair, pair + 1, &count, lines, fractions);
    loonstool_write(15, 15, NULL, 0, NULL, 0, NULL, 0);
    loonstool_day_next(NULL, 0, LOONSTOOL_FIRST_BLOCK, &next);
    loonstool_day_block(NULL, 0, LOONSTOOL_FIRST_BLOCK, &block);
}

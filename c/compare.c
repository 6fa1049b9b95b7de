/* Times the functions of two builds of the library, in one process and in turn, on records that are accepted and refused; prints the
 * median time of each and the median of the ratios. A record of the hydrogen class, which an older build refuses, is not timed against such
 * a build. bin/compare links it: the functions of the other build begin with before_. */
#define _GNU_SOURCE
#include <stdio.h>
#include <stdlib.h>
#include <string.h>
#include <time.h>

#include "loonstool.h"

extern __typeof__(loonstool_properties_of) before_loonstool_properties_of;
extern __typeof__(loonstool_read) before_loonstool_read;
extern __typeof__(loonstool_write) before_loonstool_write;

enum { TURNS = 401, CALLS = 1000, BEFORE = 0, NOW = 1 };

/* a call goes through a pointer that the compiler cannot see through, so that neither side is inlined */
static __typeof__(loonstool_properties_of) *volatile of[2] = {before_loonstool_properties_of, loonstool_properties_of};
static __typeof__(loonstool_read) *volatile read_[2] = {before_loonstool_read, loonstool_read};
static __typeof__(loonstool_write) *volatile write_[2] = {before_loonstool_write, loonstool_write};

static uint8_t record[LOONSTOOL_RECORD_BYTES(LOONSTOOL_LINES)], lines[LOONSTOOL_LINES];
static uint32_t fractions[LOONSTOOL_LINES];
static size_t count;

static uint8_t call_of(int side)
{
    struct loonstool_properties p;
    return of[side](record, LOONSTOOL_RECORD_BYTES(count), &p);
}

static uint8_t call_read(int side)
{
    uint8_t combustion, metering, ls[LOONSTOOL_LINES];
    uint32_t xs[LOONSTOOL_LINES];
    size_t n;
    return read_[side](record, LOONSTOOL_RECORD_BYTES(count), &combustion, &metering, &n, ls, xs);
}

static uint8_t call_write(int side)
{
    uint8_t buffer[sizeof record];
    return write_[side](record[5], record[6], lines, count, fractions, count, buffer, sizeof buffer);
}

static double timed(uint8_t (*call)(int), int side)
{
    struct timespec begin, end;
    clock_gettime(CLOCK_MONOTONIC, &begin);
    for (int i = 0; i < CALLS; i++) {
        call(side);
        __asm__ volatile("" ::: "memory");
    }
    clock_gettime(CLOCK_MONOTONIC, &end);
    return ((end.tv_sec - begin.tv_sec) * 1e9 + (end.tv_nsec - begin.tv_nsec)) / CALLS;
}

static int order(const void *a, const void *b)
{
    double x = *(const double *)a, y = *(const double *)b;
    return (x > y) - (x < y);
}

static void compare(const char *gas, const char *name, uint8_t (*call)(int))
{
    static double time[2][TURNS], ratio[TURNS];
    uint8_t number = call(NOW);
    if (call(BEFORE) != number) {
        printf("%-24s %-16s not compared: the answers differ\n", gas, name);
        return;
    }
    for (int i = 0; i < TURNS; i++) {
        int first = i % 2; /* the two sides begin by turns */
        time[first][i] = timed(call, first);
        time[!first][i] = timed(call, !first);
        ratio[i] = time[NOW][i] / time[BEFORE][i];
    }
    qsort(time[BEFORE], TURNS, sizeof(double), order);
    qsort(time[NOW], TURNS, sizeof(double), order);
    qsort(ratio, TURNS, sizeof(double), order);
    printf("%-24s %-16s %4u %8.2f %8.2f %7.3f   %.3f to %.3f\n", gas, name, number, time[BEFORE][TURNS / 2], time[NOW][TURNS / 2],
           ratio[TURNS / 2], ratio[TURNS / 10], ratio[TURNS * 9 / 10]);
}

static void compare_readers(const char *gas)
{
    compare(gas, "properties_of", call_of);
    compare(gas, "read", call_read);
}

static void compare_calls(const char *gas)
{
    compare_readers(gas);
    compare(gas, "write", call_write);
}

/* the record of the entries at 15/15 */
static void make_record(void)
{
    memcpy(record, "GCR\1\0\17\17", 7);
    record[7] = (uint8_t)count;
    for (size_t i = 0; i < count; i++) {
        record[8 + 5 * i] = lines[i];
        memcpy(record + 9 + 5 * i, fractions + i, 4); /* x86-64 has the least significant byte first too */
    }
}

static void annex_d(void)
{
    static const uint8_t ls[8] = {1, 2, 3, 4, 5, 6, 52, 54};
    static const uint32_t xs[8] = {924700, 35000, 9800, 2200, 3400, 600, 17500, 6800};
    count = 8;
    memcpy(lines, ls, sizeof ls);
    memcpy(fractions, xs, sizeof xs);
    make_record();
}

enum { METHANE = 1, HYDROGEN = 41 };

/* the lines 1 to n, 500 ppm of each, with water at 200, and of one what is left */
static void many_lines(size_t n, size_t most)
{
    count = n;
    for (size_t i = 0; i < n; i++) {
        lines[i] = (uint8_t)(i + 1);
        fractions[i] = i == 41 ? 200 : 500;
    }
    fractions[most - 1] = 1000000 - 500 * (uint32_t)(n - 1) + (n > 41 ? 300 : 0);
    make_record();
}

static void one_line(uint8_t line)
{
    count = 1;
    lines[0] = line;
    fractions[0] = 1000000;
    make_record();
}

int main(void)
{
    printf("%-24s %-16s %4s %8s %8s %7s   10th to 90th\n", "record", "call", "no", "before", "now ns", "ratio");
    annex_d();
    compare_calls("K1, 8 lines");
    one_line(METHANE);
    compare_calls("methane alone");
    many_lines(20, METHANE);
    compare_calls("20 lines");
    many_lines(55, METHANE);
    compare_calls("55 lines");
    one_line(HYDROGEN);
    compare_calls("hydrogen alone");
    many_lines(55, HYDROGEN);
    compare_calls("hydrogen, 55 lines");
    annex_d();
    record[0] = 'g';
    compare_readers("mark differs"); /* the writer takes no mark */
    annex_d();
    record[6] = 7;
    compare_calls("metering temperature 7");
    annex_d();
    lines[0] = 0;
    make_record();
    compare_calls("first line number 0");
    annex_d();
    fractions[0] = 0;
    make_record();
    compare_calls("first fraction 0");
    annex_d();
    fractions[0] -= 400000 - fractions[6]; /* the sum stays */
    fractions[6] = 400000;
    make_record();
    compare_calls("nitrogen 400,000");
    annex_d();
    fractions[0] += 101;
    make_record();
    compare_calls("sum 1,000,101");
}

/* Calls every function of the header on good and on bad input: the two blocks of document 01, "Numbers worked by hand". */
#undef NDEBUG
#include <assert.h>
#include <math.h>
#include <string.h>

#include "caydubeesh.h"

#define FILL (-7777)
#define NO_BLOCK 7777

static const uint8_t file[] = {
    0x02, 0x01, 0x01, 0x28, 0x00, 0x1e, 0x05, 0x64, 0x64, 0x64, 0x90, 0x4e, 0xff, 0xff, 0x18, 0x80, 0x80, 0x0f, 0xc8, 0x01,
    0x00, 0x00, 0x00, 0x00, 0x00, 0x05, 0x80, 0x80, 0x01, 0x00, 0x80, 0x80, 0x01, 0x00, 0x90, 0x4e, 0xff, 0xff, 0x18, 0x80,
    0x80, 0x0f, 0xc8, 0x01, 0x00, 0x00, 0xac, 0x02, 0xff, 0x3f, 0x80, 0x40, 0x00, 0xfe, 0x7f, 0x00, 0xfe, 0x7f, 0x00,
};

static const int64_t printed[2 * CAYDUBEESH_SLOTS] = {
    10000, -204800, 245760, 200, 0, 0, 0, 0, 0, 5, 0, 0, 8192, 0, 8192, 0,
    10000, -204800, 245760, 200, 0, 0, 150, -4096, 4096, 0, 0, 0, 8191, 0, 8191, 0,
};

static int64_t record[CAYDUBEESH_RECORD], columns[CAYDUBEESH_WIDTHS], rows[CAYDUBEESH_WIDTHS], slots[CAYDUBEESH_MOST_SLOTS];
static size_t block;

static void fill(int64_t *slice, size_t length)
{
    for (size_t place = 0; place < length; place++)
        slice[place] = FILL;
}

/* Whether a slice holds the fill from a place on. */
static int is_fill(const int64_t *slice, size_t from, size_t length)
{
    for (size_t place = from; place < length; place++)
        if (slice[place] != FILL)
            return 0;
    return 1;
}

static uint64_t read_file(size_t file_length, size_t slots_length)
{
    fill(record, CAYDUBEESH_RECORD);
    fill(columns, CAYDUBEESH_WIDTHS);
    fill(rows, CAYDUBEESH_WIDTHS);
    fill(slots, CAYDUBEESH_MOST_SLOTS);
    block = NO_BLOCK;
    return caydubeesh_read(file, file_length, record, CAYDUBEESH_RECORD, columns, CAYDUBEESH_WIDTHS, rows, CAYDUBEESH_WIDTHS,
                           slots, slots_length, &block);
}

static void try_read(void)
{
    static const int64_t read[CAYDUBEESH_RECORD] = {2, 1, 1, 40, 0, 0, 0, 30, 5};
    assert(read_file(sizeof file - 1, CAYDUBEESH_MOST_SLOTS) == 1 && block == 0);
    assert(is_fill(record, 0, CAYDUBEESH_RECORD) && is_fill(columns, 0, CAYDUBEESH_WIDTHS));
    assert(is_fill(rows, 0, CAYDUBEESH_WIDTHS) && is_fill(slots, 0, CAYDUBEESH_MOST_SLOTS));
    assert(read_file(sizeof file, 31) == 7 && block == 0 && is_fill(slots, 0, CAYDUBEESH_MOST_SLOTS));
    assert(read_file(sizeof file, CAYDUBEESH_MOST_SLOTS) == 0 && block == 0);
    assert(memcmp(record, read, sizeof read) == 0 && memcmp(slots, printed, sizeof printed) == 0);
    assert(columns[0] == 100 && columns[1] == 100 && is_fill(columns, 2, CAYDUBEESH_WIDTHS));
    assert(rows[0] == 100 && is_fill(rows, 1, CAYDUBEESH_WIDTHS) && is_fill(slots, 32, CAYDUBEESH_MOST_SLOTS));
}

static uint64_t check(size_t record_length, size_t slots_length)
{
    block = NO_BLOCK;
    return caydubeesh_check(record, record_length, columns, 2, rows, 1, slots, slots_length, &block);
}

static void try_check(void)
{
    assert(check(CAYDUBEESH_RECORD, 32) == 0 && block == 0);
    assert(check(CAYDUBEESH_RECORD - 1, 32) == 7 && block == 0);
    assert(check(CAYDUBEESH_RECORD, 31) == 7 && block == 0);
    slots[16] = -1;
    assert(check(CAYDUBEESH_RECORD, 32) == 6 && block == 2);
    slots[16] = 10000;
}

static void try_verdict(void)
{
    int64_t verdict[CAYDUBEESH_VERDICT + 1];
    fill(verdict, CAYDUBEESH_VERDICT + 1);
    assert(caydubeesh_verdict(record, CAYDUBEESH_RECORD, columns, 2, rows, 1, slots, 32, verdict, 3, &block) == 7 && block == 0);
    assert(is_fill(verdict, 0, CAYDUBEESH_VERDICT + 1));
    record[0] = 0;
    assert(caydubeesh_verdict(record, CAYDUBEESH_RECORD, columns, 2, rows, 1, slots, 32, verdict, 3, &block) == 3 && block == 0);
    assert(caydubeesh_verdict(record, CAYDUBEESH_RECORD - 1, columns, 2, rows, 1, slots, 32, verdict, 3, &block) == 7 && block == 0);
    record[0] = 2;
    record[3] = 0;
    assert(caydubeesh_verdict(record, CAYDUBEESH_RECORD, columns, 2, rows, 1, slots, 32, verdict, 3, &block) == 7 && block == 0);
    record[3] = 40;
    assert(is_fill(verdict, 0, CAYDUBEESH_VERDICT + 1));
    assert(caydubeesh_verdict(record, CAYDUBEESH_RECORD, columns, 2, rows, 1, slots, 32, verdict, CAYDUBEESH_VERDICT + 1, &block) == 0 && block == 0);
    assert(verdict[0] == 0 && verdict[1] == 0 && verdict[2] == 0 && verdict[3] == 4 && verdict[4] == FILL);
}

static void try_zone_table(void)
{
    static const int64_t fresh[9] = {0, 0, 0, 0, -150, 0, 0, 146, -4}, salt[9] = {0};
    int64_t lines[CAYDUBEESH_TABLE + 1], marks[2] = {1, 2};
    fill(lines, CAYDUBEESH_TABLE + 1);
    assert(caydubeesh_zone_table(record, CAYDUBEESH_RECORD, columns, 2, rows, 1, slots, 32, marks, 2, lines, CAYDUBEESH_TABLE + 1, &block) == 11);
    assert(block == 0 && is_fill(lines, 0, CAYDUBEESH_TABLE + 1));
    assert(caydubeesh_zone_table(record, CAYDUBEESH_RECORD, columns, 2, rows, 1, slots, 32, marks, 1, lines, CAYDUBEESH_TABLE + 1, &block) == 7);
    assert(block == 0 && is_fill(lines, 0, CAYDUBEESH_TABLE + 1));
    record[0] = 0;
    assert(caydubeesh_zone_table(record, CAYDUBEESH_RECORD, columns, 2, rows, 1, slots, 32, marks, 1, lines, CAYDUBEESH_TABLE - 1, &block) == 3);
    record[0] = 2;
    assert(caydubeesh_zone_table(record, CAYDUBEESH_RECORD, columns, 2, rows, 1, slots, 32, marks, 2, lines, CAYDUBEESH_TABLE - 1, &block) == 7);
    assert(block == 0 && is_fill(lines, 0, CAYDUBEESH_TABLE + 1));
    marks[1] = 1;
    assert(caydubeesh_zone_table(record, CAYDUBEESH_RECORD, columns, 2, rows, 1, slots, 32, marks, 2, lines, CAYDUBEESH_TABLE + 1, &block) == 0);
    assert(block == 0 && memcmp(lines, fresh, sizeof fresh) == 0 && memcmp(lines + 9, salt, sizeof salt) == 0);
    assert(lines[CAYDUBEESH_TABLE] == FILL);
}

static void try_report(void)
{
    double metres[CAYDUBEESH_REPORT + 1] = {0.5, 0.5, 0.5, 0.5, 0.5, 0.5};
    assert(caydubeesh_report(record, CAYDUBEESH_RECORD, columns, 2, rows, 1, slots, 32, SIZE_MAX, metres, CAYDUBEESH_REPORT + 1, &block) == 14);
    assert(block == SIZE_MAX && metres[0] == 0.5 && metres[4] == 0.5);
    record[0] = 0;
    assert(caydubeesh_report(record, CAYDUBEESH_RECORD, columns, 2, rows, 1, slots, 32, 1, metres, CAYDUBEESH_REPORT - 1, &block) == 3 && block == 0);
    record[0] = 2;
    assert(caydubeesh_report(record, CAYDUBEESH_RECORD, columns, 2, rows, 1, slots, 32, 0, metres, CAYDUBEESH_REPORT - 1, &block) == 7 && block == 0);
    assert(metres[0] == 0.5 && metres[4] == 0.5);
    assert(caydubeesh_report(record, CAYDUBEESH_RECORD, columns, 2, rows, 1, slots, 32, 1, metres, CAYDUBEESH_REPORT + 1, &block) == 0 && block == 0);
    assert(metres[0] == 2.0 && metres[1] == 0.0 && metres[2] == -80.0 && metres[3] == 60.0 && metres[4] == 0.0 && metres[5] == 0.5);
}

static void try_weights(void)
{
    double metres[CAYDUBEESH_REPORT] = {0.5, 0.5, 0.5, 0.5, 0.5};
    record[CAYDUBEESH_RECORD_FRESH_WEIGHT] = 1000;
    record[CAYDUBEESH_RECORD_SALT_WEIGHT] = 1023;
    assert(caydubeesh_check(record, CAYDUBEESH_RECORD, columns, 2, rows, 1, slots, 32, &block) == CAYDUBEESH_REFUSED_TERM && block == 0);
    record[CAYDUBEESH_RECORD_DELTA] = 0;
    assert(caydubeesh_report(record, CAYDUBEESH_RECORD, columns, 2, rows, 1, slots, 32, 1, metres, CAYDUBEESH_REPORT, &block) == 0 && block == 0);
    /* floor(-1,000 · 8,192 / 23) ticks */
    assert(metres[0] == 2.0 && metres[1] == 0.0 && metres[2] == -356174.0 / 4096.0 && metres[3] == 60.0 && metres[4] == 0.0);
    record[CAYDUBEESH_RECORD_SALT_WEIGHT] = 1004;
    assert(caydubeesh_check(record, CAYDUBEESH_RECORD, columns, 2, rows, 1, slots, 32, &block) == CAYDUBEESH_REFUSED_TERM && block == 0);
    record[CAYDUBEESH_RECORD_DELTA] = 40;
    record[CAYDUBEESH_RECORD_FRESH_WEIGHT] = record[CAYDUBEESH_RECORD_SALT_WEIGHT] = 0;
}

static void try_metres(void)
{
    int64_t tick = FILL;
    double metres = 0.5;
    assert(caydubeesh_tick(NAN, &tick) == 12 && tick == FILL);
    assert(caydubeesh_tick(3.0 / 8192.0, &tick) == 0 && tick == 2);
    assert(caydubeesh_floor_tick(1.0, &tick) == 12 && tick == 2);
    assert(caydubeesh_floor_tick(-1024.0, &tick) == 0 && tick == -4194304);
    assert(caydubeesh_metres(INT64_MIN, &metres) == 12 && metres == 0.5);
    assert(caydubeesh_metres(-4096, &metres) == 0 && metres == -1.0);
}

static void try_words(void)
{
    assert(strcmp(caydubeesh_words(CAYDUBEESH_REFUSED_SLOT), "a slot is out of range") == 0);
    assert(strcmp(caydubeesh_words(CAYDUBEESH_CODE_DRY_WELL), "a well is dry") == 0);
    assert(strcmp(caydubeesh_words(UINT64_MAX), "no refusal and no code has this number") == 0);
    assert(strcmp(caydubeesh_version(), CAYDUBEESH_VERSION) == 0);
}

int main(void)
{
    try_read();
    try_check();
    try_verdict();
    try_zone_table();
    try_report();
    try_weights();
    try_metres();
    try_words();
    return 0;
}

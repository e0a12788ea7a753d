/* Prints the verdict on the heads of a case file, and, where they are accepted, the water account of the whole grid in litres a day. The status is 0 if
   they are accepted, 1 if they are not, 2 for a file that is refused, and 3 where nothing can be said. */
#include <inttypes.h>
#include <stdio.h>

#include "caydubeesh.h"

static int refused(uint64_t number, size_t block)
{
    printf("refused %" PRIu64 " %zu: %s\n", number, block, caydubeesh_words(number));
    return 2;
}

/* Says what the code means, and where the first block concerned lies. */
static int not_accepted(const int64_t *record, const int64_t *verdict)
{
    int64_t columns = record[CAYDUBEESH_RECORD_COLUMNS], rows = record[CAYDUBEESH_RECORD_ROWS];
    int64_t code = verdict[CAYDUBEESH_VERDICT_CODE], before = verdict[CAYDUBEESH_VERDICT_BLOCK] - 1;
    printf("%s: layer %" PRId64 ", row %" PRId64 ", column %" PRId64 "\n", caydubeesh_words((uint64_t)code),
           before / (columns * rows) + 1, before / columns % rows + 1, before % columns + 1);
    return 1;
}

static void print_lines(const char *fluid, const int64_t *lines)
{
    printf("all %s", fluid);
    for (int line = 0; line < CAYDUBEESH_TABLE / 2; line++)
        printf(" %" PRId64, lines[line]);
    printf("\n");
}

int main(int count, char **arguments)
{
    static uint8_t file[32768]; /* a well-formed file has at most 27,809 bytes; a longer one is refused */
    static int64_t columns[CAYDUBEESH_WIDTHS], rows[CAYDUBEESH_WIDTHS], slots[CAYDUBEESH_MOST_SLOTS], whole[CAYDUBEESH_MOST_BLOCKS];
    int64_t record[CAYDUBEESH_RECORD], verdict[CAYDUBEESH_VERDICT] = {CAYDUBEESH_CODE_NOT_JUDGED}, table[CAYDUBEESH_TABLE];
    size_t block;
    if (count != 2) {
        fprintf(stderr, "usage: balance FILE\n");
        return 3;
    }
    FILE *in = fopen(arguments[1], "rb");
    if (in == NULL) {
        perror(arguments[1]);
        return 3;
    }
    size_t length = fread(file, 1, sizeof file, in);
    fclose(in);

    uint64_t number = caydubeesh_read(file, length, record, CAYDUBEESH_RECORD, columns, CAYDUBEESH_WIDTHS, rows, CAYDUBEESH_WIDTHS,
                                      slots, CAYDUBEESH_MOST_SLOTS, &block);
    if (number != 0)
        return refused(number, block);

    /* What was read has room beyond it. A function looks at what the record needs and at no more. */
    number = caydubeesh_verdict(record, CAYDUBEESH_RECORD, columns, CAYDUBEESH_WIDTHS, rows, CAYDUBEESH_WIDTHS,
                                slots, CAYDUBEESH_MOST_SLOTS, verdict, CAYDUBEESH_VERDICT, &block);
    if (number != 0)
        return refused(number, block);
    printf("verdict %" PRId64 " %" PRId64 " %" PRId64 " %" PRId64 "\n", verdict[0], verdict[1], verdict[2], verdict[3]);
    if (verdict[CAYDUBEESH_VERDICT_CODE] != CAYDUBEESH_CODE_ACCEPTED)
        return not_accepted(record, verdict);

    for (int mark = 0; mark < CAYDUBEESH_MOST_BLOCKS; mark++)
        whole[mark] = 1;
    number = caydubeesh_zone_table(record, CAYDUBEESH_RECORD, columns, CAYDUBEESH_WIDTHS, rows, CAYDUBEESH_WIDTHS,
                                   slots, CAYDUBEESH_MOST_SLOTS, whole, CAYDUBEESH_MOST_BLOCKS, table, CAYDUBEESH_TABLE, &block);
    if (number != 0)
        return refused(number, block);
    print_lines("fresh", table);
    print_lines("salt", table + CAYDUBEESH_TABLE / 2);
    return 0;
}

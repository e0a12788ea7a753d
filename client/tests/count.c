/* Judges one case a given number of times, for client/count: count COLUMNS ROWS LAYERS K TIMES. K 0 gives every block the same K, 1 each block a K of
   its own; nothing else of the case depends on it. The case has a sea along one side, wells, recharge, leakage between layers and heads that rise away
   from the sea. It prints the verdict, and ends with 0 unless the case is refused or not all of it is judged: codes 21 and 22 come before balances. */
#include "caydubeesh.h"
#include <stdio.h>
#include <stdlib.h>

static uint64_t state = 1;

/* A whole number from low to high. */
static int64_t any(int64_t low, int64_t high)
{
    state = state * 6364136223846793005u + 1442695040888963407u;
    return low + (int64_t)((state >> 33) % (uint64_t)(high - low + 1));
}

/* Slots of the block in a column and a layer, of so many layers: each is 30 m thick, and the top layer reaches 3 m above the sea. */
static void fill(int64_t *slots, int64_t column, int64_t layer, int64_t layers, int64_t mixed)
{
    int64_t top = layer == layers - 1;
    int64_t sea = top && column == 0;
    int64_t base = (layer - layers) * 122880;
    int64_t thickness = 122880 + top * 12288;
    int64_t inland = any(1000, 2000) + column * 200;
    int64_t fresh = sea ? 0 : inland;
    int64_t salt = any(-100, 0);
    int64_t well = any(1, 20) == 1 && !sea;
    int64_t pumpage = any(1, 100000);
    int64_t own_k = any(5000, 20000);
    int64_t values[CAYDUBEESH_SLOTS] = {
        mixed ? own_k : 10000, base, thickness, 200, top ? 0 : 500, top && !sea ? 800 : 0,
        well ? pumpage : 0, well ? base + 4096 : 0, well ? base + 8192 : 0,
        sea ? 2 : 0, sea ? -4096 : 0, sea ? 20000 : 0, fresh, salt, fresh, salt};
    for (int64_t i = 0; i < CAYDUBEESH_SLOTS; i++)
        slots[i] = values[i];
}

int main(int argc, char **argv)
{
    static int64_t columns[CAYDUBEESH_WIDTHS], rows[CAYDUBEESH_WIDTHS], slots[CAYDUBEESH_MOST_SLOTS];
    int64_t record[CAYDUBEESH_RECORD] = {0, 0, 0, 40, 0, 0, 1, 30, 1000000};
    int64_t verdict[CAYDUBEESH_VERDICT] = {0};
    uint64_t refusal = 0;
    size_t block = 0;
    if (argc != 6)
        return 2;
    for (int i = 0; i < 3; i++)
        record[i] = atoll(argv[1 + i]);
    for (int i = 0; i < CAYDUBEESH_WIDTHS; i++) {
        columns[i] = any(100, 500);
        rows[i] = any(100, 500);
    }
    for (int64_t i = 0; i < record[0] * record[1] * record[2]; i++)
        fill(slots + i * CAYDUBEESH_SLOTS, i % record[0], i / (record[0] * record[1]), record[2], atoll(argv[4]));
    for (int64_t time = 0; time < atoll(argv[5]); time++)
        refusal |= caydubeesh_verdict(record, CAYDUBEESH_RECORD, columns, CAYDUBEESH_WIDTHS, rows, CAYDUBEESH_WIDTHS, slots, CAYDUBEESH_MOST_SLOTS,
                                      verdict, CAYDUBEESH_VERDICT, &block);
    printf("refusal %d, verdict %d %d %d %d\n", (int)refusal, (int)verdict[0], (int)verdict[1], (int)verdict[2], (int)verdict[3]);
    return refusal != 0 || verdict[0] == CAYDUBEESH_CODE_HEAD_MOVED || verdict[0] == CAYDUBEESH_CODE_DRY_WELL;
}

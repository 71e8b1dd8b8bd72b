/*
 * Scans a file and prints its chunks.
 *
 * cc scan.c $(pkg-config --cflags --libs symphedra) -o scan && ./scan take.wav
 */
#include "common.h"

int main(int argc, char **argv)
{
    uint64_t table[SYMPHEDRA_TABLE_WORDS];
    size_t len;
    if (argc != 2) {
        fprintf(stderr, "usage: %s FILE\n", argv[0]);
        return 2;
    }
    uint8_t *file = read_file(argv[1], &len);
    if (!file) {
        perror(argv[1]);
        return 2;
    }
    uint32_t refusal = symphedra_scan(file, len, table, SYMPHEDRA_TABLE_WORDS);
    print_table(table);
    if (refusal)
        fprintf(stderr, "%s: refusal %u\n", argv[1], (unsigned)refusal);
    free(file);
    return refusal ? 1 : 0;
}

/*
 * Lists a file whatever its format, prints its chunks, then judges the format and the block size.
 *
 * cc triage.c $(pkg-config --cflags --libs symphedra) -o triage && ./triage take.wav
 */
#include "common.h"

int main(int argc, char **argv)
{
    uint64_t table[SYMPHEDRA_TABLE_WORDS];
    size_t len;
    if (argc != 2) {
        fprintf(stderr, "usage: %s FILE\n", argv[0]);
        return 2;
    }
    uint8_t *file = read_file(argv[1], &len);
    if (!file) {
        perror(argv[1]);
        return 2;
    }
    uint32_t refusal = symphedra_list(file, len, table, SYMPHEDRA_TABLE_WORDS);
    print_table(table);
    if (refusal) {
        fprintf(stderr, "%s: not listed, refusal %u\n", argv[1], (unsigned)refusal);
    } else {
        refusal = symphedra_judge(file, len, table, SYMPHEDRA_TABLE_WORDS);
        if (refusal)
            fprintf(stderr, "%s: judged, refusal %u\n", argv[1], (unsigned)refusal);
        else
            printf("judged good\n");
    }
    free(file);
    return refusal ? 1 : 0;
}

/* What both examples need: a file in memory, and a table printed. */
#include <stdio.h>
#include <stdlib.h>
#include <symphedra.h>

/* The whole file in memory, or NULL. A large take is better mapped. */
static uint8_t *read_file(const char *path, size_t *len)
{
    FILE *f = fopen(path, "rb");
    uint8_t *bytes = NULL;
    size_t room = 0, got;
    *len = 0;
    if (!f)
        return NULL;
    do {
        if (*len == room) {
            uint8_t *more = realloc(bytes, room = room ? 2 * room : 65536);
            if (!more)
                break;
            bytes = more;
        }
        got = fread(bytes + *len, 1, room - *len, f);
        *len += got;
    } while (got > 0);
    if (ferror(f) || !feof(f)) {
        free(bytes);
        bytes = NULL;
    }
    fclose(f);
    return bytes;
}

/* The chunks, one a line: name, place, size, and where the size came from if it isn't the chunk's own field. */
static void print_table(const uint64_t *table)
{
    for (uint64_t i = 0; i < table[0]; i++) {
        const uint64_t *chunk = table + 1 + 4 * i;
        for (int byte = 0; byte < 4; byte++)
            putchar((int)(chunk[0] >> (8 * byte) & 255));
        printf(" %llu %llu", (unsigned long long)chunk[1], (unsigned long long)chunk[2]);
        if (chunk[3] == SYMPHEDRA_SOURCE_DATA_SIZE)
            printf(" ds64");
        else if (chunk[3] != SYMPHEDRA_SOURCE_OWN)
            printf(" entry %llu", (unsigned long long)(chunk[3] - SYMPHEDRA_SOURCE_ENTRY));
        putchar('\n');
    }
}

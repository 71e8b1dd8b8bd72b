/*
 * The library beside the hand-written C of baseline.c, on the same inputs.
 *
 * bench counts        under callgrind: one dump for each call, named LIBRARY-OR-BASELINE/CASE
 * bench times FILE    scan beside libsndfile's sf_open, the file writer beside memcpy by size; FILE is made
 *
 * Both sides are called through a table of pointers, and their outputs compared.
 */
#define _POSIX_C_SOURCE 200809L
#include <fcntl.h>
#include <sndfile.h>
#include <stdio.h>
#include <stdlib.h>
#include <string.h>
#include <sys/mman.h>
#include <sys/stat.h>
#include <time.h>
#include <unistd.h>
#include <valgrind/callgrind.h>

#include "symphedra.h"

typedef uint32_t to_words(const uint8_t *, size_t, uint64_t *, size_t);

struct side {
    const char *name;
    to_words *scan, *list, *walk32, *sample_count, *read_bext;
    uint32_t (*judge)(const uint8_t *, size_t, const uint64_t *, size_t);
    uint32_t (*upgrade)(uint8_t *, size_t);
    uint32_t (*read_chna)(const uint8_t *, size_t, uint16_t, uint64_t *, size_t);
    uint32_t (*write_riff)(const uint64_t *, size_t, const uint8_t *, size_t, const uint8_t *,
                           size_t, const uint8_t *, size_t, uint8_t *, size_t, uint64_t *, size_t);
};

#define SIDE(name) \
    { name, symphedra_scan, symphedra_list, symphedra_walk32, symphedra_sample_count, \
      symphedra_read_bext, symphedra_judge, symphedra_upgrade_rf64, symphedra_read_chna, \
      symphedra_write_riff }

static const struct side library = SIDE("library");
#include "baseline.h" /* from here on the names are the baseline's */
static const struct side baseline = SIDE("baseline");

static void fail(const char *what)
{
    fprintf(stderr, "bench: %s\n", what);
    exit(1);
}

static void *room(size_t bytes)
{
    void *p = malloc(bytes);
    if (!p)
        fail("no memory");
    memset(p, 1, bytes);
    return p;
}

/* ---- inputs ---- */

static uint8_t *put(uint8_t *p, uint64_t value, int bytes)
{
    for (int i = 0; i < bytes; i++)
        *p++ = (uint8_t)(value >> (8 * i));
    return p;
}

/* A header and zeros, the pad among them; the payload is at the place returned, less size and pad. */
static uint8_t *put_chunk(uint8_t *p, const char *name, uint32_t field, size_t size)
{
    memcpy(p, name, 4);
    memset(put(p + 4, field, 4), 0, size + (size & 1));
    return p + 8 + size + (size & 1);
}

/* A chunk that starts with those bytes. */
static uint8_t *put_content(uint8_t *p, const char *name, size_t size, const void *bytes, size_t count)
{
    uint8_t *end = put_chunk(p, name, (uint32_t)size, size);
    memcpy(p + 8, bytes, count);
    return end;
}

static const char PCM[] = "\x01\0\x02\0\x80\xBB\0\0\0\xEE\x02\0\x04\0\x10";

#define ONES 0xFFFFFFFFu

enum { FILE_ROOM = 1 << 16 };

/* Form name, form field and WAVE, once the chunks stand, and a ds64's first three numbers. */
static size_t finish_file(uint8_t *file, const uint8_t *end, int wide, size_t audio)
{
    size_t len = (size_t)(end - file);
    memcpy(file, wide ? "RF64" : "RIFF", 4);
    put(file + 4, wide ? ONES : len - 8, 4);
    memcpy(file + 8, "WAVE", 4);
    if (wide)
        put(put(put(file + 20, len - 8, 8), audio, 8), audio / 4, 8);
    return len;
}

/* JUNK or ds64, fmt, fact if wanted, fillers of 0 to 9 bytes, data: that many chunks in all. */
static size_t make_file(uint8_t *file, int wide, int chunks, int fact, size_t audio)
{
    uint8_t *p = put_chunk(file + 12, wide ? "ds64" : "JUNK", 28, 28);
    p = put_content(p, "fmt ", 16, PCM, 16);
    if (fact)
        p = put(put_chunk(p, "fact", 4, 0), audio / 4, 4);
    for (int i = 3 + fact; i < chunks; i++)
        p = put_chunk(p, "LIST", (uint32_t)(i % 10), (size_t)(i % 10));
    p = put_chunk(p, "data", wide ? ONES : (uint32_t)audio, audio);
    return finish_file(file, p, wide, audio);
}

/* The dearest ds64: 64 chunks, of which 61 have their size in the last of 16 entries. */
static size_t make_worst(uint8_t *file)
{
    uint8_t *p = put_chunk(file + 12, "ds64", 28 + 16 * 12, 28 + 16 * 12);
    put(file + 44, 16, 4);
    for (int i = 0; i < 16; i++) {
        memcpy(file + 48 + 12 * i, i < 15 ? "sxml" : "axml", 4);
        put(file + 52 + 12 * i, 6, 8);
    }
    p = put_content(p, "fmt ", 16, PCM, 16);
    for (int i = 0; i < 61; i++)
        p = put_chunk(p, "axml", ONES, 6);
    p = put_chunk(p, "data", 4, 4);
    return finish_file(file, p, 1, 4);
}

static void make_bext(uint8_t *p)
{
    memset(p, 0, 602);
    memcpy(p, "Evening service, second take of the anthem", 42);
    memcpy(p + 256, "Night desk", 10);
    memcpy(p + 288, "ND-2024-0001", 12);
    memcpy(p + 320, "2024-02-29", 10);
    memcpy(p + 330, "18:30:00", 8);
}

enum { FULL_LEN = 602 + 1000 };

/* Texts that fill their places, and a coding history of 1,000 bytes. */
static void make_full_bext(uint8_t *p)
{
    make_bext(p);
    memset(p, 'd', 256);
    memset(p + 256, 'o', 32);
    memset(p + 288, 'r', 32);
    memset(p + 602, 'h', FULL_LEN - 602);
}

enum { CHNA_LEN = 4 + 40 * 1024, CHANNELS = 64 };

static void make_chna(uint8_t *p, unsigned tracks, unsigned entries)
{
    char text[38];
    put(put(p, tracks, 2), entries, 2);
    for (unsigned i = 0; i < entries; i++) {
        uint8_t *entry = p + 4 + 40 * i;
        snprintf(text, sizeof text, "ATU_%08XAT_%08x_01AP_%08X", i + 1, 0x31000 + i, 0x31000 + i);
        memcpy(put(entry, 1 + i % tracks, 2), text, 37);
        entry[39] = 0;
    }
}

/* A broadcast take as desks leave it, of 12 chunks. */
static size_t make_take(uint8_t *file)
{
    static const char history[] = "A=PCM,F=48000,W=16,M=stereo,T=Night desk\r\n";
    static const char ixml[] = "<?xml version=\"1.0\" encoding=\"UTF-8\"?><BWFXML></BWFXML>";
    static const char axml[] = "<?xml version=\"1.0\" encoding=\"UTF-8\"?><ebuCoreMain></ebuCoreMain>";
    const size_t audio = 4 * 4800;
    uint8_t bext[602 + sizeof history - 1], chna[4 + 40 * 2], cue[28] = {1, 0, 0, 0, 1};
    make_bext(bext);
    memcpy(bext + 602, history, sizeof history - 1);
    make_chna(chna, 2, 2);
    memcpy(cue + 12, "data", 4);
    uint8_t *p = put_chunk(file + 12, "JUNK", 28, 28);
    p = put_content(p, "fmt ", 16, PCM, 16);
    p = put(put_chunk(p, "fact", 4, 0), audio / 4, 4);
    p = put_content(p, "bext", sizeof bext, bext, sizeof bext);
    p = put_content(p, "chna", sizeof chna, chna, sizeof chna);
    p = put_content(p, "iXML", 4095, ixml, sizeof ixml - 1);
    p = put_content(p, "axml", 9217, axml, sizeof axml - 1);
    p = put_content(p, "LIST", 26, "INFOISFT\x0E\0\0\0Night desk 2.1", 26);
    p = put_content(p, "cue ", sizeof cue, cue, sizeof cue);
    p = put_content(p, "smpl", 36, "", 0);
    p = put_content(p, "id3 ", 1033, "ID3\x04\0\0\0\0\x07\x7F", 10);
    p = put_chunk(p, "data", (uint32_t)audio, audio);
    return finish_file(file, p, 0, audio);
}

/* ---- instructions ---- */

static uint32_t nothing(const uint8_t *a, size_t b, uint64_t *c, size_t d)
{
    (void)a, (void)b, (void)c, (void)d;
    return 0;
}

/* Counts one call, after one that isn't counted. */
#define COUNT(side, label, prepare, call, wanted)              \
    do {                                                       \
        char name[100];                                        \
        uint32_t number;                                       \
        snprintf(name, sizeof name, "%s/%s", (side), (label)); \
        for (int round = 0; round < 2; round++) {              \
            prepare;                                           \
            CALLGRIND_ZERO_STATS;                              \
            CALLGRIND_TOGGLE_COLLECT;                          \
            number = (call);                                   \
            CALLGRIND_TOGGLE_COLLECT;                          \
        }                                                      \
        CALLGRIND_DUMP_STATS_AT(name);                         \
        if (number != (wanted))                                \
            fail(name);                                        \
    } while (0)

static void agree(const char *label, const void *a, const void *b, size_t bytes)
{
    if (memcmp(a, b, bytes) != 0) {
        fprintf(stderr, "bench: the two differ: ");
        fail(label);
    }
}

/* A function that gives words, on each side; wanted is the number it has to give. */
static void count_words(const char *what, const char *of, to_words *ours, to_words *theirs,
                        const uint8_t *file, size_t len, size_t words, uint32_t wanted)
{
    static uint64_t out[2][SYMPHEDRA_TABLE_WORDS];
    char label[80];
    snprintf(label, sizeof label, "%s, %s", what, of);
    memset(out, 7, sizeof out);
    COUNT("library", label, , ours(file, len, out[0], words), wanted);
    COUNT("baseline", label, , theirs(file, len, out[1], words), wanted);
    agree(label, out[0], out[1], sizeof out[0]);
}

static void count_scan(const char *of, const uint8_t *file, size_t len)
{
    count_words("scan", of, library.scan, baseline.scan, file, len, SYMPHEDRA_TABLE_WORDS, 0);
}

static void count_list(const char *of, const uint8_t *file, size_t len)
{
    count_words("list", of, library.list, baseline.list, file, len, SYMPHEDRA_TABLE_WORDS, 0);
}

/* Over a fresh listing. */
static void count_judge(const char *of, const uint8_t *file, size_t len)
{
    uint64_t table[SYMPHEDRA_TABLE_WORDS];
    char label[80];
    snprintf(label, sizeof label, "judge, %s", of);
    if (library.list(file, len, table, SYMPHEDRA_TABLE_WORDS) != 0)
        fail(label);
    COUNT("library", label, , library.judge(file, len, table, SYMPHEDRA_TABLE_WORDS), 0);
    COUNT("baseline", label, , baseline.judge(file, len, table, SYMPHEDRA_TABLE_WORDS), 0);
}

/* A walk of a 64-bit form stops at data. */
static void count_walk(const char *of, const uint8_t *file, size_t len, uint32_t stop)
{
    count_words("walk32", of, library.walk32, baseline.walk32, file, len, SYMPHEDRA_TABLE_WORDS, stop);
}

static void count_upgrade(const char *of, const uint8_t *file, size_t len)
{
    static uint8_t copy[2][FILE_ROOM];
    char label[80];
    snprintf(label, sizeof label, "upgrade_rf64, %s", of);
    COUNT("library", label, memcpy(copy[0], file, len), library.upgrade(copy[0], len), 0);
    COUNT("baseline", label, memcpy(copy[1], file, len), baseline.upgrade(copy[1], len), 0);
    agree(label, copy[0], copy[1], len);
}

static void count_chna(const char *label, const uint8_t *chna)
{
    uint64_t out[2][3] = {{7, 7, 7}, {7, 7, 7}};
    COUNT("library", label, , library.read_chna(chna, CHNA_LEN, CHANNELS, out[0], 3), 0);
    COUNT("baseline", label, , baseline.read_chna(chna, CHNA_LEN, CHANNELS, out[1], 3), 0);
    agree(label, out[0], out[1], sizeof out[0]);
}

static void counts(void)
{
    static const struct { const char *name; int chunks; } riff[] = {
        {"RIFF, 3 chunks", 3}, {"RIFF, 10 chunks", 10}, {"RIFF, 64 chunks", 64},
    };
    uint8_t *file = room(FILE_ROOM), *chna = room(CHNA_LEN);
    uint64_t words[1];
    to_words *volatile empty = nothing;
    COUNT("empty", "call", , empty(file, 0, words, 0), 0);
    for (size_t i = 0; i < sizeof riff / sizeof riff[0]; i++)
        count_scan(riff[i].name, file, make_file(file, 0, riff[i].chunks, 0, 4));
    count_scan("RF64, 60 chunks", file, make_file(file, 1, 60, 0, 4));
    count_scan("broadcast take, 12 chunks", file, make_take(file));
    count_scan("worst ds64, 64 chunks", file, make_worst(file));
    count_list("RIFF, 64 chunks", file, make_file(file, 0, 64, 0, 4));
    count_list("RF64, 60 chunks", file, make_file(file, 1, 60, 0, 4));
    count_judge("RIFF, 3 chunks", file, make_file(file, 0, 3, 0, 4));
    count_judge("RIFF, 64 chunks", file, make_file(file, 0, 64, 0, 4));
    count_judge("RF64, 60 chunks", file, make_file(file, 1, 60, 0, 4));
    for (size_t i = 0; i < sizeof riff / sizeof riff[0]; i++)
        count_walk(riff[i].name, file, make_file(file, 0, riff[i].chunks, 0, 4), 0);
    count_walk("RF64, 60 chunks", file, make_file(file, 1, 60, 0, 4), SYMPHEDRA_UNKNOWN_SIZE);
    count_words("sample_count", "RIFF, 64 chunks", library.sample_count, baseline.sample_count, file,
                make_file(file, 0, 64, 1, 4), SYMPHEDRA_COUNT_WORDS, 0);
    for (size_t i = 0; i < sizeof riff / sizeof riff[0]; i++)
        count_upgrade(riff[i].name, file, make_file(file, 0, riff[i].chunks, 0, 4));
    make_bext(file);
    count_words("read_bext", "602 bytes", library.read_bext, baseline.read_bext, file, 602,
                SYMPHEDRA_BEXT_WORDS, 0);
    make_full_bext(file);
    count_words("read_bext", "full texts, history of 1,000", library.read_bext, baseline.read_bext, file,
                FULL_LEN, SYMPHEDRA_BEXT_WORDS, 0);
    make_chna(chna, CHANNELS, 1024);
    count_chna("read_chna, 1,024 entries", chna);
    free(file);
    free(chna);
}

/* ---- times ---- */

static double now(void)
{
    struct timespec t;
    clock_gettime(CLOCK_MONOTONIC, &t);
    return (double)t.tv_sec + 1e-9 * (double)t.tv_nsec;
}

static int ascending(const void *a, const void *b)
{
    double x = *(const double *)a, y = *(const double *)b;
    return (x > y) - (x < y);
}

enum { ROUNDS = 9 };

static double median(double *times)
{
    qsort(times, ROUNDS, sizeof times[0], ascending);
    return times[ROUNDS / 2];
}

/* Opens, maps, scans and closes. */
static void scan_path(const char *path, uint64_t *table)
{
    struct stat st;
    int fd = open(path, O_RDONLY);
    if (fd < 0 || fstat(fd, &st) != 0)
        fail("can't open the take");
    uint8_t *map = mmap(NULL, (size_t)st.st_size, PROT_READ, MAP_SHARED, fd, 0);
    if (map == MAP_FAILED)
        fail("can't map the take");
    if (library.scan(map, (size_t)st.st_size, table, SYMPHEDRA_TABLE_WORDS) != 0)
        fail("the take is refused");
    munmap(map, (size_t)st.st_size);
    close(fd);
}

static void beside_sndfile(const char *path)
{
    enum { CALLS = 2000 };
    const size_t audio = 1 << 20;
    uint8_t *file = room(audio + 4096);
    uint64_t table[SYMPHEDRA_TABLE_WORDS];
    double in_memory[ROUNDS], from_disk[ROUNDS], sndfile[ROUNDS];
    size_t len = make_file(file, 0, 10, 0, audio);
    int fd = open(path, O_WRONLY | O_CREAT | O_TRUNC, 0600);
    if (fd < 0 || write(fd, file, len) != (ssize_t)len)
        fail("can't write a take");
    close(fd);
    for (int round = 0; round < ROUNDS; round++) {
        double start = now();
        for (int i = 0; i < CALLS; i++)
            library.scan(file, len, table, SYMPHEDRA_TABLE_WORDS);
        in_memory[round] = (now() - start) / CALLS;
        start = now();
        for (int i = 0; i < CALLS; i++)
            scan_path(path, table);
        from_disk[round] = (now() - start) / CALLS;
        start = now();
        for (int i = 0; i < CALLS; i++) {
            SF_INFO info = {0};
            SNDFILE *f = sf_open(path, SFM_READ, &info);
            if (!f || (size_t)info.frames != audio / 4)
                fail("sf_open sees another file");
            sf_close(f);
        }
        sndfile[round] = (now() - start) / CALLS;
    }
    double memory = median(in_memory), disk = median(from_disk), theirs = median(sndfile);
    printf("a RIFF take of 10 chunks, 1 MiB of audio, microseconds a call\n");
    printf("  %-34s %8.3f\n", "scan of bytes in memory", 1e6 * memory);
    printf("  %-34s %8.3f\n", "open, map, scan, close", 1e6 * disk);
    printf("  %-34s %8.3f   %.2f times ours\n", "sf_open, sf_close", 1e6 * theirs, theirs / disk);
    free(file);
}

enum { WRITE_SIZES = 5, COPIED_A_ROUND = 64 << 20 };

/* The writer beside a memcpy of the audio to the same place, byte 80, and the baseline's writer. */
static void beside_memcpy(void)
{
    static const struct { const char *name; size_t bytes; } sizes[WRITE_SIZES] = {
        {"4 KiB", 4 << 10}, {"64 KiB", 64 << 10}, {"1 MiB", 1 << 20},
        {"16 MiB", 16 << 20}, {"256 MiB", 256 << 20},
    };
    static const uint64_t fmt[9] = {16, 1, 2, 48000, 192000, 4, 16, 0, 0};
    void *(*volatile copy)(void *, const void *, size_t) = memcpy;
    printf("audio written, all memory touched before, microseconds a call\n");
    printf("  %-34s %10s %10s %10s   %s\n", "", "memcpy", "library", "C", "library's speed, memcpy 1");
    for (int i = 0; i < WRITE_SIZES; i++) {
        size_t audio_len = sizes[i].bytes, out_len = audio_len + 80;
        int calls = audio_len < COPIED_A_ROUND ? (int)(COPIED_A_ROUND / audio_len) : 1;
        uint8_t *audio = room(audio_len), *out = room(out_len);
        uint64_t written;
        double plain[ROUNDS], writer[2][ROUNDS];
        const struct side *sides[] = {&library, &baseline};
        for (int round = 0; round < ROUNDS; round++) {
            double start = now();
            for (int call = 0; call < calls; call++)
                copy(out + 80, audio, audio_len);
            plain[round] = (now() - start) / calls;
            for (int s = 0; s < 2; s++) {
                memset(out, 2, out_len);
                start = now();
                for (int call = 0; call < calls; call++)
                    if (sides[s]->write_riff(fmt, 9, NULL, 0, NULL, 0, audio, audio_len, out, out_len,
                                             &written, 1) != 0)
                        fail("the writer refused");
                writer[s][round] = (now() - start) / calls;
                if (written != out_len || memcmp(out + 80, audio, audio_len) != 0)
                    fail("the audio differs");
            }
        }
        double theirs = median(plain), ours = median(writer[0]), c = median(writer[1]);
        printf("  %-34s %10.2f %10.2f %10.2f   %.2f\n", sizes[i].name, 1e6 * theirs, 1e6 * ours, 1e6 * c,
               theirs / ours);
        free(audio);
        free(out);
    }
}

int main(int argc, char **argv)
{
    if (argc == 2 && strcmp(argv[1], "counts") == 0) {
        counts();
    } else if (argc == 3 && strcmp(argv[1], "times") == 0) {
        beside_sndfile(argv[2]);
        beside_memcpy();
    } else {
        fail("usage: bench counts | bench times FILE");
    }
    return 0;
}

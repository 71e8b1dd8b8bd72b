/*
 * Hand-written C with the checks and the output words of symphedra.h: what the proved library's
 * instruction counts are held against. Not part of the product.
 *
 * Scan, listing, judgement, walk, count and upgrade are as strong as we can write them: one pass, one load
 * and one test for an ordinary header, names compared only where the first byte is one of b to f. The
 * judgement compares all rows at once; in a long table, one by one as they are met is dearer. bext looks
 * for zeros by 128 bytes and tests them by 32.
 *
 * With -DBASELINE_AS_SYMPHEDRA it has the library's names, to stand in for it.
 */
#include "baseline.h"

#include <emmintrin.h>
#include <string.h>

#define INLINE static inline __attribute__((always_inline))

#define NAME(a, b, c, d) \
    ((uint32_t)(a) | (uint32_t)(b) << 8 | (uint32_t)(c) << 16 | (uint32_t)(d) << 24)

#define RIFF NAME('R', 'I', 'F', 'F')
#define RF64 NAME('R', 'F', '6', '4')
#define BW64 NAME('B', 'W', '6', '4')
#define WAVE NAME('W', 'A', 'V', 'E')
#define DS64 NAME('d', 's', '6', '4')
#define JUNK NAME('J', 'U', 'N', 'K')
#define FMT  NAME('f', 'm', 't', ' ')
#define DATA NAME('d', 'a', 't', 'a')
#define FACT NAME('f', 'a', 'c', 't')
#define BEXT NAME('b', 'e', 'x', 't')
#define CHNA NAME('c', 'h', 'n', 'a')

#define ONES 0xFFFFFFFFu
#define MAX_FIELD 0xFFFFFFFEu /* the largest size that a 32-bit field can state */

enum { RESERVE = 28, DS64_ENTRIES = 16, DS64_ENTRY = 12 };
enum { CHNA_ENTRIES = 1024, CHNA_ENTRY = 40 };

/* Places in a bext payload. */
enum {
    ORIGINATOR = 256, REFERENCE = 288, DATE = 320, TIME = 330, TIME_REFERENCE = 338,
    VERSION = 346, REST = 348, HISTORY = 602
};

/* ---- numbers, on a machine that is little-endian itself ---- */

#if __BYTE_ORDER__ != __ORDER_LITTLE_ENDIAN__
#error "these loads and stores are little-endian"
#endif

static inline uint16_t le16(const uint8_t *p)
{
    uint16_t v;
    memcpy(&v, p, 2);
    return v;
}

static inline uint32_t le32(const uint8_t *p)
{
    uint32_t v;
    memcpy(&v, p, 4);
    return v;
}

static inline uint64_t le64(const uint8_t *p)
{
    uint64_t v;
    memcpy(&v, p, 8);
    return v;
}

static inline void put16(uint8_t *p, uint16_t v)
{
    memcpy(p, &v, 2);
}

static inline void put32(uint8_t *p, uint32_t v)
{
    memcpy(p, &v, 4);
}

static inline void put64(uint8_t *p, uint64_t v)
{
    memcpy(p, &v, 8);
}

/* memcpy that takes any pointer with length 0. */
static inline void copy(uint8_t *to, const uint8_t *from, size_t n)
{
    if (n)
        memcpy(to, from, n);
}

/* By 32 bytes, then by 8; the last 8 overlap those before them. */
static inline int all_zero(const uint8_t *p, size_t n)
{
    if (n < 8) {
        while (n && *p == 0)
            p++, n--;
        return n == 0;
    }
    const uint8_t *last = p + n - 8;
    for (; n > 32; p += 32, n -= 32)
        if (le64(p) | le64(p + 8) | le64(p + 16) | le64(p + 24))
            return 0;
    for (; p < last; p += 8)
        if (le64(p))
            return 0;
    return le64(last) == 0;
}

/* ---- fmt ---- */

struct fmt {
    uint32_t size, tag, channels, rate, speed, block, bits, valid, mask;
};

#define GUID_LOW  0x0010000000000001u /* 01 00 00 00 00 00 10 00 */
#define GUID_HIGH 0x719B3800AA000080u /* 80 00 00 AA 00 38 9B 71 */

/* What is asked of a record of any size. */
INLINE int fmt_numbers_good(const struct fmt *r)
{
    return r->channels != 0 && r->rate != 0 && ((r->bits - 8) & ~24u) == 0 &&
           r->block == r->channels * (r->bits / 8);
}

INLINE int fmt_read(const uint8_t *p, uint64_t len, struct fmt *r)
{
    if (len != 16 && len != 18 && len != 40)
        return 0;
    r->size = (uint32_t)len;
    r->tag = le16(p);
    r->channels = le16(p + 2);
    r->rate = le32(p + 4);
    r->speed = le32(p + 8);
    r->block = le16(p + 12);
    r->bits = le16(p + 14);
    r->valid = r->mask = 0;
    if (len == 40) {
        r->valid = le16(p + 18);
        r->mask = le32(p + 20);
        if (r->tag != 0xFFFE || le16(p + 16) != 22 || r->valid < 1 || r->valid > r->bits ||
            le64(p + 24) != GUID_LOW || le64(p + 32) != GUID_HIGH)
            return 0;
    } else if (r->tag != 1 || (len == 18 && le16(p + 16) != 0)) {
        return 0;
    }
    return fmt_numbers_good(r);
}

static inline int fmt_from_words(const uint64_t *w, size_t words, struct fmt *r)
{
    if (words != 9)
        return 0;
    if (w[0] > 40 || w[1] > 0xFFFF || w[2] > 0xFFFF || w[3] > ONES || w[4] > ONES ||
        w[5] > 0xFFFF || w[6] > 0xFFFF || w[7] > 0xFFFF || w[8] > ONES)
        return 0;
    r->size = (uint32_t)w[0];
    r->tag = (uint32_t)w[1];
    r->channels = (uint32_t)w[2];
    r->rate = (uint32_t)w[3];
    r->speed = (uint32_t)w[4];
    r->block = (uint32_t)w[5];
    r->bits = (uint32_t)w[6];
    r->valid = (uint32_t)w[7];
    r->mask = (uint32_t)w[8];
    if (r->size == 40 ? r->tag != 0xFFFE || r->valid < 1 || r->valid > r->bits
                      : (r->size != 16 && r->size != 18) || r->tag != 1 || r->valid || r->mask)
        return 0;
    return fmt_numbers_good(r) && (uint64_t)r->rate * r->block == r->speed;
}

static inline void fmt_put(uint8_t *p, const struct fmt *r)
{
    put16(p, (uint16_t)r->tag);
    put16(p + 2, (uint16_t)r->channels);
    put32(p + 4, r->rate);
    put32(p + 8, r->speed);
    put16(p + 12, (uint16_t)r->block);
    put16(p + 14, (uint16_t)r->bits);
    if (r->size == 16)
        return;
    put16(p + 16, r->size == 40 ? 22 : 0);
    if (r->size == 18)
        return;
    put16(p + 18, (uint16_t)r->valid);
    put32(p + 20, r->mask);
    put64(p + 24, GUID_LOW);
    put64(p + 32, GUID_HIGH);
}

/* ---- bext ---- */

static inline __m128i load16(const uint8_t *p)
{
    return _mm_loadu_si128((const __m128i *)p);
}

/* The zeros among 16 bytes, a bit for each, the first lowest. */
static inline unsigned zeros(__m128i bytes)
{
    return (unsigned)_mm_movemask_epi8(_mm_cmpeq_epi8(bytes, _mm_setzero_si128()));
}

/* The least of each four of 64 bytes. */
static inline __m128i least64(const uint8_t *p)
{
    return _mm_min_epu8(_mm_min_epu8(load16(p), load16(p + 16)),
                        _mm_min_epu8(load16(p + 32), load16(p + 48)));
}

/* Whether a zero is among 128 bytes: the least of them is. */
static inline int zero_in_128(const uint8_t *p)
{
    return zeros(_mm_min_epu8(least64(p), least64(p + 64))) != 0;
}

/* Where the first zero stands, or n where none does. The last 128 bytes overlap those before them. */
static inline size_t first_zero(const uint8_t *p, size_t n)
{
    size_t i = 0;
    if (n >= 128) {
        while (i <= n - 128 && !zero_in_128(p + i))
            i += 128;
        if (i > n - 128 && (i == n || !zero_in_128(p + n - 128)))
            return n;
    }
    for (; i + 16 <= n; i += 16) {
        unsigned found = zeros(load16(p + i));
        if (found)
            return i + (size_t)__builtin_ctz(found);
    }
    while (i < n && p[i])
        i++;
    return i;
}

/* A text's length, or -1 where a byte after its first zero isn't zero. */
static inline int64_t text_length(const uint8_t *p, size_t max)
{
    size_t n = first_zero(p, max);
    return all_zero(p + n, max - n) ? (int64_t)n : -1;
}

/* Two digits as a number, or 100 or more. */
static inline unsigned two_digits(const uint8_t *p)
{
    unsigned high = p[0] - (unsigned)'0', low = p[1] - (unsigned)'0';
    return high > 9 || low > 9 ? 100 : high * 10 + low;
}

static inline int separator(uint8_t c)
{
    return c == '-' || c == '_' || c == ':' || c == ' ' || c == '.';
}

static inline int date_good(const uint8_t *p)
{
    unsigned month = two_digits(p + 5), day = two_digits(p + 8);
    return two_digits(p) < 100 && two_digits(p + 2) < 100 && separator(p[4]) &&
           month >= 1 && month <= 12 && separator(p[7]) && day >= 1 && day <= 31;
}

static inline int time_good(const uint8_t *p)
{
    return two_digits(p) <= 24 && separator(p[2]) && two_digits(p + 3) <= 59 &&
           separator(p[5]) && two_digits(p + 6) <= 59;
}

static inline int bext_read(const uint8_t *p, size_t len, uint64_t *out)
{
    if (len < HISTORY)
        return 0;
    int64_t description = text_length(p, 256);
    int64_t originator = text_length(p + ORIGINATOR, 32);
    int64_t reference = text_length(p + REFERENCE, 32);
    if (description < 0 || originator < 0 || reference < 0)
        return 0;
    int date_set = date_good(p + DATE), time_set = time_good(p + TIME);
    if ((!date_set && !all_zero(p + DATE, 10)) || (!time_set && !all_zero(p + TIME, 8)))
        return 0;
    uint16_t version = le16(p + VERSION);
    if (version == 0 && !all_zero(p + REST, 254))
        return 0;
    int64_t history = text_length(p + HISTORY, len - HISTORY);
    if (history < 0)
        return 0;
    out[0] = (uint64_t)description;
    out[1] = (uint64_t)originator;
    out[2] = (uint64_t)reference;
    out[3] = (uint64_t)date_set;
    out[4] = (uint64_t)time_set;
    out[5] = le64(p + TIME_REFERENCE);
    out[6] = version;
    out[7] = (uint64_t)history;
    return 1;
}

/* ---- chna ---- */

static const uint8_t IS_HEX[256] = {
    ['0'] = 1, ['1'] = 1, ['2'] = 1, ['3'] = 1, ['4'] = 1, ['5'] = 1, ['6'] = 1, ['7'] = 1,
    ['8'] = 1, ['9'] = 1, ['a'] = 1, ['b'] = 1, ['c'] = 1, ['d'] = 1, ['e'] = 1, ['f'] = 1,
    ['A'] = 1, ['B'] = 1, ['C'] = 1, ['D'] = 1, ['E'] = 1, ['F'] = 1
};

static inline int hex2(const uint8_t *p)
{
    return IS_HEX[p[0]] & IS_HEX[p[1]];
}

static inline int hex8(const uint8_t *p)
{
    return hex2(p) & hex2(p + 2) & hex2(p + 4) & hex2(p + 6);
}

static inline int entry_good(const uint8_t *e, uint16_t channels)
{
    uint16_t index = le16(e);
    if (index < 1 || index > channels)
        return 0;
    if (le32(e + 2) != NAME('A', 'T', 'U', '_') || !hex8(e + 6))
        return 0;
    const uint8_t *track = e + 14, *pack = e + 28;
    if (track[0] != 'A' || track[2] != '_' || !hex8(track + 3) || track[11] != '_')
        return 0;
    if (track[1] == 'T' ? !hex2(track + 12)
                        : track[1] != 'C' || track[12] != '0' || track[13] != '0')
        return 0;
    if (pack[0] == 0)
        return all_zero(pack, 11);
    return pack[0] == 'A' && pack[1] == 'P' && pack[2] == '_' && hex8(pack + 3);
}

/* The two counts of the entries, or 0 where one is broken. */
static inline int entries_count(const uint8_t *p, size_t n, uint16_t channels,
                                uint32_t *tracks, uint32_t *uids)
{
    uint64_t seen[1024];
    uint32_t used = 0, different = 0;
    memset(seen, 0, ((size_t)channels / 64 + 1) * sizeof seen[0]);
    for (; n; n--, p += CHNA_ENTRY) {
        if (p[0] == 0 && all_zero(p, CHNA_ENTRY))
            continue;
        if (!entry_good(p, channels))
            return 0;
        uint16_t index = le16(p);
        uint64_t bit = (uint64_t)1 << (index & 63);
        used++;
        different += (seen[index >> 6] & bit) == 0;
        seen[index >> 6] |= bit;
    }
    *tracks = different;
    *uids = used;
    return 1;
}

static inline int chna_good(uint16_t tracks, uint16_t uids, const uint8_t *entries, size_t len,
                            uint16_t channels)
{
    uint32_t different, used;
    return len % CHNA_ENTRY == 0 && len / CHNA_ENTRY <= CHNA_ENTRIES &&
           entries_count(entries, len / CHNA_ENTRY, channels, &different, &used) &&
           tracks == different && uids == used;
}

static inline int chna_payload_good(const uint8_t *p, size_t len, uint16_t channels)
{
    return len >= 4 && chna_good(le16(p), le16(p + 2), p + 4, len - 4, channels);
}

/* Entries already judged good: copied, the pads zeroed (an unused entry's is zero already). */
static inline void entries_put(uint8_t *out, const uint8_t *entries, size_t len)
{
    copy(out, entries, len);
    for (size_t i = CHNA_ENTRY - 1; i < len; i += CHNA_ENTRY)
        out[i] = 0;
}

/* ---- the chunks ---- */

/*
 * A place is a payload's, an even number; the header is the 8 bytes ahead of it. One test finds the
 * chunks that another whole header follows: the next place is at most near. near is the end, or nearer
 * in a file so long that an all-ones field would pass.
 */
struct walk {
    uint64_t at, next, near;
    uint32_t more; /* chunks that there may be, this one too */
};

INLINE uint64_t next_place(uint64_t at, uint64_t size)
{
    return (at + size + 9) & ~(uint64_t)1;
}

INLINE uint64_t near_end(uint64_t at, uint64_t len)
{
    return len - at > ONES ? at + ONES : len;
}

/* A chunk that fails the test: it passes the end, or is the last, or is only long. */
INLINE uint32_t at_the_end(struct walk *w, uint64_t len)
{
    if (w->next > len + 8)
        return SYMPHEDRA_PAST_END;
    if (w->next > len)
        w->more = 1;
    else if (w->near != len)
        w->near = near_end(w->at, len);
    return SYMPHEDRA_OK;
}

/* Why no chunk is read at the next place. */
INLINE uint32_t stop(uint64_t next, uint64_t len)
{
    if (next == len + 8)
        return SYMPHEDRA_OK;
    return next > len ? SYMPHEDRA_CUT_HEADER : SYMPHEDRA_TOO_MANY;
}

/* The fourth word is put ahead of this: it is 0 but for a size that ds64 gave. */
INLINE uint64_t *put_row(uint64_t *row, uint64_t name, uint64_t at, uint64_t size)
{
    row[0] = name;
    row[1] = at;
    row[2] = size;
    return row + 4;
}

INLINE size_t bytes_between(const uint64_t *from, const uint64_t *to)
{
    return (size_t)((const uint8_t *)to - (const uint8_t *)from);
}

enum { ROW_BYTES = 4 * sizeof(uint64_t) };

/* ---- the listing, its judgement, and both in turn ---- */

enum { MET_FMT = 1, MET_DATA = 2, MET_FACT = 4, MET_BEXT = 8, MET_CHNA = 16, BROKEN = 32 };

/* What a listing finds beside its rows, and the block that is judged; a place of 0 means absent. */
struct found {
    uint32_t form, met, block;
    uint64_t fmt, fmt_size, data, data_size, fact;
    uint64_t *end; /* of the rows */
};

INLINE int ds64_good(const uint8_t *f, uint64_t len)
{
    if (len < 20 + RESERVE || le32(f + 12) != DS64)
        return 0;
    uint64_t size = le32(f + 16);
    uint32_t entries = le32(f + 44);
    return size != ONES && size + (size & 1) <= len - 20 && entries <= DS64_ENTRIES &&
           size >= RESERVE + DS64_ENTRY * entries;
}

/* Checks 1 to 5. */
INLINE uint32_t read_head(const uint8_t *f, uint64_t len, uint32_t *form)
{
    if (len < 12)
        return SYMPHEDRA_TOO_SHORT;
    uint64_t head = le64(f), size = head >> 32;
    *form = (uint32_t)head;
    if ((*form != RIFF && *form != RF64 && *form != BW64) || le32(f + 8) != WAVE)
        return SYMPHEDRA_NOT_WAVE;
    if (*form == RIFF) {
        if (size == ONES)
            return SYMPHEDRA_UNFINISHED;
    } else {
        if (!ds64_good(f, len))
            return SYMPHEDRA_BAD_DS64;
        if (size == ONES)
            size = le64(f + 20);
    }
    return size == len - 8 ? SYMPHEDRA_OK : SYMPHEDRA_BAD_FORM_SIZE;
}

/* 4 bytes ahead of the true size of a chunk whose own field is all ones, or NULL. */
static __attribute__((noinline)) const uint8_t *true_entry(const uint8_t *f, uint64_t name)
{
    if (le32(f) == RIFF)
        return NULL;
    if (name == DATA)
        return f + 28 - 4;
    const uint8_t *entry = f + 20 + RESERVE, *end = entry + (size_t)DS64_ENTRY * le32(f + 44);
    for (; entry != end; entry += DS64_ENTRY)
        if (le32(entry) == (uint32_t)name)
            return entry;
    return NULL;
}

/* Where a size came from: ds64's data size is 1, its first entry 2. */
INLINE uint64_t source(const uint8_t *f, const uint8_t *entry)
{
    const uint8_t *first = f + 20 + RESERVE;
    return entry < first ? 1 : 2 + (uint32_t)(entry - first) / DS64_ENTRY;
}

/* A chunk that fails the test; its true size is found out first. row: its row, or NULL. */
INLINE uint32_t list_at_the_end(const uint8_t *f, uint64_t len, struct walk *w, uint64_t name,
                                uint64_t *size, uint64_t *row)
{
    if (*size == ONES) {
        const uint8_t *entry = true_entry(f, name);
        if (!entry)
            return SYMPHEDRA_UNKNOWN_SIZE;
        *size = le64(entry + 4);
        if (row)
            row[3] = source(f, entry);
        if (*size > len)
            return SYMPHEDRA_PAST_END;
        /* next_place, in words that leave gcc the shorter code for the ordinary chunk */
        w->next = w->at + ((*size + 1) & ~(uint64_t)1) + 8;
    }
    return at_the_end(w, len);
}

INLINE uint32_t once(uint32_t met, uint32_t kind)
{
    return met & kind ? met | BROKEN : met | kind;
}

/* A chunk with a name from b to f; 0 for ds64, which is out of place. */
INLINE int note(struct found *s, uint64_t name, uint64_t at, uint64_t size)
{
    if (name == FMT) {
        s->met = once(s->met, MET_FMT);
        s->fmt = at;
        s->fmt_size = size;
    } else if (name == DATA) {
        s->met |= (s->met & (MET_FMT | MET_DATA)) == MET_FMT ? MET_DATA : BROKEN;
        s->data = at;
        s->data_size = size;
    } else if (name == FACT) {
        s->met = size < 4 ? BROKEN : once(s->met, MET_FACT);
        s->fact = at;
    } else if (name == BEXT) {
        s->met = once(s->met, MET_BEXT);
    } else if (name == CHNA) {
        s->met = once(s->met, MET_CHNA);
    }
    return name != DS64;
}

/* Checks 11 and 12. */
INLINE uint32_t judge(const uint8_t *f, struct found *s)
{
    struct fmt fmt;
    if (!fmt_read(f + s->fmt, s->fmt_size, &fmt))
        return SYMPHEDRA_BAD_FMT;
    s->block = fmt.block;
    return s->data_size % fmt.block == 0 ? SYMPHEDRA_OK : SYMPHEDRA_RAGGED_AUDIO;
}

/* Checks 1 to 10. rows: room for 64, or NULL where they aren't wanted. */
INLINE uint32_t list(const uint8_t *f, uint64_t len, uint64_t *rows, struct found *s)
{
    struct walk w = {.next = 20, .more = SYMPHEDRA_CHUNK_LIMIT};
    uint32_t refusal = read_head(f, len, &s->form);
    if (refusal)
        return refusal;
    s->met = 0;
    s->fmt = s->fmt_size = s->data = s->data_size = s->fact = 0;
    if (s->form != RIFF) {
        w.next = next_place(20, le32(f + 16));
        w.more--;
        if (rows) {
            rows[3] = 0;
            rows = put_row(rows, DS64, 20, le32(f + 16));
        }
    }
    if (w.next > len)
        return w.next == len + 8 ? SYMPHEDRA_BAD_CHUNK_SET : SYMPHEDRA_CUT_HEADER;
    w.near = near_end(w.next, len);
    do {
        w.at = w.next;
        uint64_t header = le64(f + w.at - 8), name = header & ONES, size = header >> 32;
        w.next = next_place(w.at, size);
        if (rows)
            rows[3] = 0;
        if (w.next > w.near) {
            refusal = list_at_the_end(f, len, &w, name, &size, rows);
            if (refusal)
                return name == DS64 ? SYMPHEDRA_BAD_DS64 : refusal;
        }
        if (rows)
            rows = put_row(rows, name, w.at, size);
        if ((uint8_t)(name - 'b') <= 'f' - 'b' && !note(s, name, w.at, size))
            return SYMPHEDRA_BAD_DS64;
    } while (--w.more);
    s->end = rows;
    refusal = stop(w.next, len);
    if (refusal)
        return refusal;
    return (s->met & (MET_DATA | BROKEN)) == MET_DATA ? SYMPHEDRA_OK : SYMPHEDRA_BAD_CHUNK_SET;
}

INLINE uint32_t scan(const uint8_t *f, uint64_t len, uint64_t *rows, struct found *s)
{
    uint32_t refusal = list(f, len, rows, s);
    return refusal ? refusal : judge(f, s);
}

/* A table once its rows are known. */
INLINE uint32_t table_out(uint32_t refusal, const uint64_t *rows, const struct found *s, uint64_t *table)
{
    if (refusal) {
        table[0] = 0;
        return refusal;
    }
    size_t bytes = bytes_between(rows, s->end);
    table[0] = bytes / ROW_BYTES;
    memcpy(table + 1, rows, bytes);
    return SYMPHEDRA_OK;
}

uint32_t symphedra_scan(const uint8_t *file, size_t len, uint64_t *table, size_t words)
{
    uint64_t rows[4 * SYMPHEDRA_CHUNK_LIMIT];
    struct found s;
    if (words < SYMPHEDRA_TABLE_WORDS)
        return SYMPHEDRA_SHORT_OUTPUT;
    return table_out(scan(file, len, rows, &s), rows, &s, table);
}

uint32_t symphedra_list(const uint8_t *file, size_t len, uint64_t *table, size_t words)
{
    uint64_t rows[4 * SYMPHEDRA_CHUNK_LIMIT];
    struct found s;
    if (words < SYMPHEDRA_TABLE_WORDS)
        return SYMPHEDRA_SHORT_OUTPUT;
    return table_out(list(file, len, rows, &s), rows, &s, table);
}

uint32_t symphedra_judge(const uint8_t *file, size_t len, const uint64_t *table, size_t words)
{
    uint64_t rows[4 * SYMPHEDRA_CHUNK_LIMIT];
    struct found s;
    if (list(file, len, rows, &s))
        return SYMPHEDRA_STALE_LISTING;
    size_t bytes = bytes_between(rows, s.end);
    if (words <= bytes / sizeof rows[0] || table[0] != bytes / ROW_BYTES ||
        memcmp(table + 1, rows, bytes) != 0)
        return SYMPHEDRA_STALE_LISTING;
    return judge(file, &s);
}

uint32_t symphedra_walk32(const uint8_t *file, size_t len, uint64_t *table, size_t words)
{
    struct walk w = {.next = 20, .more = SYMPHEDRA_CHUNK_LIMIT};
    uint64_t *row = table + 1;
    uint32_t refusal;
    if (words < SYMPHEDRA_TABLE_WORDS)
        return SYMPHEDRA_SHORT_OUTPUT;
    table[0] = 0;
    if (len < 12)
        return SYMPHEDRA_TOO_SHORT;
    if (le32(file + 8) != WAVE)
        return SYMPHEDRA_NOT_WAVE;
    uint32_t field = le32(file + 4);
    if (field != ONES && field != len - 8)
        return SYMPHEDRA_BAD_FORM_SIZE;
    if (len < 20)
        return len == 12 ? SYMPHEDRA_OK : SYMPHEDRA_CUT_HEADER;
    w.near = near_end(w.next, len);
    do {
        w.at = w.next;
        uint64_t header = le64(file + w.at - 8), size = header >> 32;
        w.next = next_place(w.at, size);
        if (w.next > w.near) {
            refusal = size == ONES ? SYMPHEDRA_UNKNOWN_SIZE : at_the_end(&w, len);
            if (refusal)
                goto out;
        }
        row[3] = 0;
        row = put_row(row, header & ONES, w.at, size);
    } while (--w.more);
    refusal = stop(w.next, len);
out:
    table[0] = bytes_between(table, row) / ROW_BYTES;
    return refusal;
}

uint32_t symphedra_sample_count(const uint8_t *file, size_t len, uint64_t *out, size_t words)
{
    struct found s;
    if (words < SYMPHEDRA_COUNT_WORDS)
        return SYMPHEDRA_SHORT_OUTPUT;
    uint32_t refusal = scan(file, len, NULL, &s);
    out[0] = out[1] = 0;
    if (refusal || s.fact == 0)
        return refusal;
    uint32_t count = le32(file + s.fact);
    out[0] = 1;
    out[1] = s.form == RF64 && count == ONES ? le64(file + 36) : count;
    return SYMPHEDRA_OK;
}

/* ---- the upgrade ---- */

INLINE uint32_t upgrade(uint8_t *f, size_t len, uint32_t target)
{
    struct found s;
    uint32_t refusal = scan(f, len, NULL, &s);
    if (refusal)
        return refusal;
    if (s.form != RIFF)
        return SYMPHEDRA_ALREADY_64;
    if (le32(f + 12) != JUNK || le32(f + 16) < RESERVE)
        return SYMPHEDRA_NO_RESERVE;
    uint64_t third = 0;
    if (target == RF64)
        third = s.fact ? le32(f + s.fact) : s.data_size / s.block;
    put64(f + 20, (uint64_t)len - 8);
    put64(f + 28, s.data_size);
    put64(f + 36, third);
    put32(f + 44, 0);
    put32(f + 12, DS64);
    if (target == RF64 && s.fact)
        put32(f + s.fact, ONES);
    put32(f + s.data - 4, ONES);
    put64(f, target | (uint64_t)ONES << 32);
    return SYMPHEDRA_OK;
}

uint32_t symphedra_upgrade_rf64(uint8_t *file, size_t len)
{
    return upgrade(file, len, RF64);
}

uint32_t symphedra_upgrade_bw64(uint8_t *file, size_t len)
{
    return upgrade(file, len, BW64);
}

/* ---- the record readers ---- */

uint32_t symphedra_read_fmt(const uint8_t *payload, size_t len, uint64_t *record, size_t words)
{
    struct fmt r;
    if (words < SYMPHEDRA_FMT_WORDS)
        return SYMPHEDRA_SHORT_OUTPUT;
    if (!fmt_read(payload, len, &r)) {
        memset(record, 0, SYMPHEDRA_FMT_WORDS * sizeof record[0]);
        return SYMPHEDRA_BAD_FMT;
    }
    record[0] = r.size;
    record[1] = r.tag;
    record[2] = r.channels;
    record[3] = r.rate;
    record[4] = r.speed;
    record[5] = r.block;
    record[6] = r.bits;
    record[7] = r.valid;
    record[8] = r.mask;
    return SYMPHEDRA_OK;
}

uint32_t symphedra_read_bext(const uint8_t *payload, size_t len, uint64_t *out, size_t words)
{
    if (words < SYMPHEDRA_BEXT_WORDS)
        return SYMPHEDRA_SHORT_OUTPUT;
    if (bext_read(payload, len, out))
        return SYMPHEDRA_OK;
    memset(out, 0, SYMPHEDRA_BEXT_WORDS * sizeof out[0]);
    return SYMPHEDRA_BAD_BEXT;
}

uint32_t symphedra_read_chna(const uint8_t *payload, size_t len, uint16_t channels,
                             uint64_t *out, size_t words)
{
    if (words < SYMPHEDRA_CHNA_WORDS)
        return SYMPHEDRA_SHORT_OUTPUT;
    if (!chna_payload_good(payload, len, channels)) {
        memset(out, 0, SYMPHEDRA_CHNA_WORDS * sizeof out[0]);
        return SYMPHEDRA_BAD_CHNA;
    }
    out[0] = le16(payload);
    out[1] = le16(payload + 2);
    out[2] = (len - 4) / CHNA_ENTRY;
    return SYMPHEDRA_OK;
}

/* ---- the writers ---- */

static inline uint8_t *put_header(uint8_t *p, uint32_t name, uint32_t size)
{
    put32(p, name);
    put32(p + 4, size);
    return p + 8;
}

static inline uint8_t *put_run(uint8_t *p, const uint8_t *from, size_t len)
{
    copy(p, from, len);
    p += len;
    if (len & 1)
        *p++ = 0;
    return p;
}

static inline uint32_t write_file(uint32_t form, const uint64_t *fmt, size_t fmt_words,
                                  const uint8_t *bext, size_t bext_len,
                                  const uint8_t *chna, size_t chna_len,
                                  const uint8_t *audio, size_t audio_len,
                                  uint8_t *out, size_t out_len,
                                  uint64_t *written, size_t written_words)
{
    struct fmt r;
    uint64_t words[SYMPHEDRA_BEXT_WORDS];
    if (written_words)
        written[0] = 0;
    if (!fmt_from_words(fmt, fmt_words, &r) || r.size != 16)
        return SYMPHEDRA_BAD_RECORD;
    if (bext_len && !bext_read(bext, bext_len, words))
        return SYMPHEDRA_BAD_RECORD;
    if (chna_len && !chna_payload_good(chna, chna_len, (uint16_t)r.channels))
        return SYMPHEDRA_BAD_RECORD;
    if (audio_len % r.block != 0)
        return SYMPHEDRA_BAD_RECORD;

    if (bext_len > MAX_FIELD)
        return SYMPHEDRA_TOO_LARGE;
    uint64_t total = 12 + 8 + RESERVE + 8 + 16 + 8;
    if (bext_len)
        total += 8 + (uint64_t)bext_len + (bext_len & 1);
    if (chna_len)
        total += 8 + chna_len;
    int fits = audio_len <= UINT64_MAX - 1 - total;
    total += audio_len + (audio_len & 1);
    if (form == RIFF && (!fits || total - 8 > MAX_FIELD))
        return SYMPHEDRA_TOO_LARGE;
    if (!fits || out_len < total || written_words < 1)
        return SYMPHEDRA_SHORT_OUTPUT;

    uint8_t *p = put_header(out, form, form == RIFF ? (uint32_t)(total - 8) : ONES);
    put32(p, WAVE);
    p = put_header(p + 4, form == RIFF ? JUNK : DS64, RESERVE);
    memset(p, 0, RESERVE);
    if (form != RIFF) {
        put64(p, total - 8);
        put64(p + 8, audio_len);
        put64(p + 16, form == RF64 ? audio_len / r.block : 0);
    }
    p = put_header(p + RESERVE, FMT, 16);
    fmt_put(p, &r);
    p += 16;
    if (bext_len) {
        p = put_header(p, BEXT, (uint32_t)bext_len);
        p = put_run(p, bext, bext_len);
    }
    if (chna_len) {
        p = put_header(p, CHNA, (uint32_t)chna_len);
        memcpy(p, chna, 4);
        entries_put(p + 4, chna + 4, chna_len - 4);
        p += chna_len;
    }
    p = put_header(p, DATA, form == RIFF ? (uint32_t)audio_len : ONES);
    put_run(p, audio, audio_len);
    written[0] = total;
    return SYMPHEDRA_OK;
}

uint32_t symphedra_write_riff(const uint64_t *fmt, size_t fmt_words,
                              const uint8_t *bext, size_t bext_len,
                              const uint8_t *chna, size_t chna_len,
                              const uint8_t *audio, size_t audio_len,
                              uint8_t *out, size_t out_len,
                              uint64_t *written, size_t written_words)
{
    return write_file(RIFF, fmt, fmt_words, bext, bext_len, chna, chna_len, audio, audio_len,
                      out, out_len, written, written_words);
}

uint32_t symphedra_write_rf64(const uint64_t *fmt, size_t fmt_words,
                              const uint8_t *bext, size_t bext_len,
                              const uint8_t *chna, size_t chna_len,
                              const uint8_t *audio, size_t audio_len,
                              uint8_t *out, size_t out_len,
                              uint64_t *written, size_t written_words)
{
    return write_file(RF64, fmt, fmt_words, bext, bext_len, chna, chna_len, audio, audio_len,
                      out, out_len, written, written_words);
}

uint32_t symphedra_write_bw64(const uint64_t *fmt, size_t fmt_words,
                              const uint8_t *bext, size_t bext_len,
                              const uint8_t *chna, size_t chna_len,
                              const uint8_t *audio, size_t audio_len,
                              uint8_t *out, size_t out_len,
                              uint64_t *written, size_t written_words)
{
    return write_file(BW64, fmt, fmt_words, bext, bext_len, chna, chna_len, audio, audio_len,
                      out, out_len, written, written_words);
}

uint32_t symphedra_write_fmt(const uint64_t *record, size_t record_words,
                             uint8_t *out, size_t out_len,
                             uint64_t *written, size_t written_words)
{
    struct fmt r;
    if (written_words)
        written[0] = 0;
    if (!fmt_from_words(record, record_words, &r))
        return SYMPHEDRA_BAD_RECORD;
    if (out_len < r.size || written_words < 1)
        return SYMPHEDRA_SHORT_OUTPUT;
    fmt_put(out, &r);
    written[0] = r.size;
    return SYMPHEDRA_OK;
}

static inline int text_good(const uint8_t *p, size_t len, size_t max)
{
    return len <= max && (len == 0 || !memchr(p, 0, len));
}

static inline void put_text(uint8_t *p, const uint8_t *text, size_t len, size_t max)
{
    copy(p, text, len);
    memset(p + len, 0, max - len);
}

uint32_t symphedra_write_bext(const uint8_t *description, size_t description_len,
                              const uint8_t *originator, size_t originator_len,
                              const uint8_t *reference, size_t reference_len,
                              const uint8_t *date, size_t date_len,
                              const uint8_t *time, size_t time_len,
                              uint64_t time_reference, uint16_t version,
                              const uint8_t *rest, size_t rest_len,
                              const uint8_t *history, size_t history_len,
                              uint8_t *out, size_t out_len,
                              uint64_t *written, size_t written_words)
{
    if (written_words)
        written[0] = 0;
    if (!text_good(description, description_len, 256) || !text_good(originator, originator_len, 32) ||
        !text_good(reference, reference_len, 32) || text_length(history, history_len) < 0)
        return SYMPHEDRA_BAD_RECORD;
    if (date_len != 0 && (date_len != 10 || !date_good(date)))
        return SYMPHEDRA_BAD_RECORD;
    if (time_len != 0 && (time_len != 8 || !time_good(time)))
        return SYMPHEDRA_BAD_RECORD;
    if (rest_len != 0 && rest_len != 254)
        return SYMPHEDRA_BAD_RECORD;
    if (version == 0 && !all_zero(rest, rest_len))
        return SYMPHEDRA_BAD_RECORD;
    if (out_len < HISTORY || out_len - HISTORY < history_len || written_words < 1)
        return SYMPHEDRA_SHORT_OUTPUT;
    put_text(out, description, description_len, 256);
    put_text(out + ORIGINATOR, originator, originator_len, 32);
    put_text(out + REFERENCE, reference, reference_len, 32);
    put_text(out + DATE, date, date_len, 10);
    put_text(out + TIME, time, time_len, 8);
    put64(out + TIME_REFERENCE, time_reference);
    put16(out + VERSION, version);
    put_text(out + REST, rest, rest_len, 254);
    copy(out + HISTORY, history, history_len);
    written[0] = HISTORY + (uint64_t)history_len;
    return SYMPHEDRA_OK;
}

uint32_t symphedra_write_chna(uint16_t tracks, uint16_t uids,
                              const uint8_t *entries, size_t entries_len, uint16_t channels,
                              uint8_t *out, size_t out_len,
                              uint64_t *written, size_t written_words)
{
    if (written_words)
        written[0] = 0;
    if (!chna_good(tracks, uids, entries, entries_len, channels))
        return SYMPHEDRA_BAD_RECORD;
    if (out_len < 4 + entries_len || written_words < 1)
        return SYMPHEDRA_SHORT_OUTPUT;
    put16(out, tracks);
    put16(out + 2, uids);
    entries_put(out + 4, entries, entries_len);
    written[0] = 4 + entries_len;
    return SYMPHEDRA_OK;
}

/* ---- two that are not measured, and would change what gcc inlines in those that are ---- */

#ifdef BASELINE_AS_SYMPHEDRA

uint32_t symphedra_bext_parts(const uint8_t *payload, size_t len, uint64_t *out, size_t words)
{
    if (words < SYMPHEDRA_BEXT_PARTS_WORDS)
        return SYMPHEDRA_SHORT_OUTPUT;
    memset(out, 0, SYMPHEDRA_BEXT_PARTS_WORDS * sizeof out[0]);
    if (len < HISTORY)
        return SYMPHEDRA_OK;
    const uint64_t parts[SYMPHEDRA_BEXT_PARTS_WORDS] = {
        0, first_zero(payload, 256),
        ORIGINATOR, first_zero(payload + ORIGINATOR, 32),
        REFERENCE, first_zero(payload + REFERENCE, 32),
        DATE, all_zero(payload + DATE, 10) ? 0 : 10,
        TIME, all_zero(payload + TIME, 8) ? 0 : 8,
        REST, 254,
        HISTORY, len - HISTORY
    };
    memcpy(out, parts, sizeof parts);
    return SYMPHEDRA_OK;
}

uint32_t symphedra_chna_entry(const uint8_t *payload, size_t len, size_t i, uint64_t *out, size_t words)
{
    if (words < SYMPHEDRA_CHNA_ENTRY_WORDS)
        return SYMPHEDRA_SHORT_OUTPUT;
    memset(out, 0, SYMPHEDRA_CHNA_ENTRY_WORDS * sizeof out[0]);
    if (len < 4 || i >= (len - 4) / CHNA_ENTRY)
        return SYMPHEDRA_OK;
    size_t at = 4 + CHNA_ENTRY * i;
    if (all_zero(payload + at, CHNA_ENTRY))
        return SYMPHEDRA_OK;
    out[0] = 1;
    out[1] = le16(payload + at);
    out[2] = at + 2;
    out[3] = at + 14;
    out[4] = at + 28;
    return SYMPHEDRA_OK;
}

#endif

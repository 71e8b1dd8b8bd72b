/*
 * symphedra: RIFF, RF64 and BW64 recordings, scanned, listed, judged, walked, upgraded and written.
 *
 * Any bytes at all may be given to any function. It ends, touches nothing outside what it was
 * lent, and returns 0 or one of the refusal numbers below. The library keeps no state, allocates
 * nothing and may be called from any thread.
 *
 * A byte run is a pointer and a length in bytes, a run of words a pointer and a count of uint64_t.
 * A run of length 0 may come with any pointer. Runs must not overlap. Word pointers are aligned as
 * C asks of uint64_t.
 *
 * Scan, listing, walk, count and readers: an output with too few words gives SYMPHEDRA_SHORT_OUTPUT
 * ahead of everything else and changes nothing. Words past those that a function is said to set stay
 * as they were.
 */
#ifndef SYMPHEDRA_H
#define SYMPHEDRA_H

#include <stddef.h>
#include <stdint.h>

#ifdef __cplusplus
extern "C" {
#endif

/* Refusal numbers. In the words of the format's rules, L is the length lent and S the form size. */
#define SYMPHEDRA_OK              0u /* no refusal */
#define SYMPHEDRA_TOO_SHORT       1u /* L is below 12 */
#define SYMPHEDRA_NOT_WAVE        2u /* form name unknown (not in the walk), or WAVE absent */
#define SYMPHEDRA_UNFINISHED      3u /* RIFF with an all-ones form field (not in the walk) */
#define SYMPHEDRA_BAD_DS64        4u /* ds64 absent, broken or out of place (not in the walk) */
#define SYMPHEDRA_BAD_FORM_SIZE   5u /* 8 + S is not L, or S is below 4 */
#define SYMPHEDRA_CUT_HEADER      6u /* 1 to 7 bytes left where a header is due */
#define SYMPHEDRA_UNKNOWN_SIZE    7u /* all-ones size with no true size known */
#define SYMPHEDRA_PAST_END        8u /* payload or its pad passes the end */
#define SYMPHEDRA_TOO_MANY        9u /* a 65th header */
#define SYMPHEDRA_BAD_CHUNK_SET  10u /* fmt or data missing, out of order or doubled; short fact */
#define SYMPHEDRA_BAD_FMT        11u /* fmt rule broken */
#define SYMPHEDRA_RAGGED_AUDIO   12u /* audio not whole blocks */
#define SYMPHEDRA_BAD_BEXT       13u /* bext rule broken */
#define SYMPHEDRA_BAD_CHNA       14u /* chna rule broken */
#define SYMPHEDRA_SHORT_OUTPUT   15u /* output too short */
#define SYMPHEDRA_BAD_RECORD     16u /* writer: bad format record, bext, chna or ragged audio */
#define SYMPHEDRA_TOO_LARGE      17u /* writer: RIFF form size, or bext, above 4,294,967,294 */
#define SYMPHEDRA_ALREADY_64     18u /* upgrade: already a 64-bit form */
#define SYMPHEDRA_NO_RESERVE     19u /* upgrade: first chunk isn't JUNK of 28 or more */
#define SYMPHEDRA_STALE_LISTING  24u /* judgement: not a fresh listing of the file, or it has none */

/*
 * Where a size came from, the fourth word of a table's row. A size field that isn't all ones is the
 * true size, whatever ds64 says.
 */
#define SYMPHEDRA_SOURCE_OWN        0u /* the chunk's own size field */
#define SYMPHEDRA_SOURCE_DATA_SIZE  1u /* the data size of ds64 */
#define SYMPHEDRA_SOURCE_ENTRY      2u /* the first entry of ds64; entry p, from 0, is this + p */

/* Words of each output. */
#define SYMPHEDRA_CHUNK_LIMIT       64u  /* chunks of a table */
#define SYMPHEDRA_TABLE_WORDS      257u  /* 1 + 4 x 64 */
#define SYMPHEDRA_COUNT_WORDS        2u
#define SYMPHEDRA_FMT_WORDS          9u
#define SYMPHEDRA_BEXT_WORDS         8u
#define SYMPHEDRA_BEXT_PARTS_WORDS  14u  /* 2 x 7 */
#define SYMPHEDRA_CHNA_WORDS         3u
#define SYMPHEDRA_CHNA_ENTRY_WORDS   5u

/*
 * The table of a whole file. table: at least 257 words. On return table[0] is the number of chunks,
 * and chunk i has the four words at 1 + 4 i: its name (4 bytes as a little-endian number), payload
 * place, true size, and where the size came from: SYMPHEDRA_SOURCE_OWN, SYMPHEDRA_SOURCE_DATA_SIZE,
 * or SYMPHEDRA_SOURCE_ENTRY + p for the ds64 entry at position p, the first one of the chunk's name.
 * A refused scan sets table[0] to 0 and no other word.
 * It is the listing and its judgement in turn: a scan says 0, with symphedra_list's table, exactly
 * where both do. Returns 0, 15, or 1 to 12.
 */
uint32_t symphedra_scan(const uint8_t *file, size_t len, uint64_t *table, size_t words);

/*
 * The listing of a file whatever its format: the scan's table, by checks 1 to 10 alone. fmt and the
 * block size aren't judged. table is as for symphedra_scan, and a refused listing sets table[0] to 0
 * and no other word.
 * Returns 0, 15, or 1 to 10.
 */
uint32_t symphedra_list(const uint8_t *file, size_t len, uint64_t *table, size_t words);

/*
 * The judgement of fmt and block size, over a file and a listing of it. table: any words; they are a
 * listing of the file where table[0] and all four words of each of so many rows are what
 * symphedra_list gives now. Words past the last row aren't looked at. Too few words for the rows, or
 * a number above 64, is no listing.
 * Returns 0, or the first that applies: 24 where the table isn't a fresh listing of the file, and for
 * every table where the file has no listing; 11; 12. Never 15. It changes nothing.
 */
uint32_t symphedra_judge(const uint8_t *file, size_t len, const uint64_t *table, size_t words);

/*
 * The plain 32-bit walk, which knows nothing of ds64. The table is as for symphedra_scan, the fourth
 * word of each row being SYMPHEDRA_SOURCE_OWN, and keeps the chunks ahead of the stop; the returned
 * number is the stop, or 0 where the walk met the end.
 * Returns 0, 15, or 1, 2, 5 (nothing shown), 6, 7, 8, 9.
 */
uint32_t symphedra_walk32(const uint8_t *file, size_t len, uint64_t *table, size_t words);

/*
 * The sample count that a file states. out: 2 words. 1 and the count; or 0 and 0 for none, which is
 * a file without fact, and for a refused scan.
 * Returns 0, 15, or the scan's refusal.
 */
uint32_t symphedra_sample_count(const uint8_t *file, size_t len, uint64_t *out, size_t words);

/*
 * The upgrade of a RIFF file, in place, to RF64 or BW64. A refusal changes no byte.
 * Returns 0, the scan's refusal, 18 or 19.
 */
uint32_t symphedra_upgrade_rf64(uint8_t *file, size_t len);
uint32_t symphedra_upgrade_bw64(uint8_t *file, size_t len);

/*
 * A fmt payload as a format record, 9 words: payload size (16, 18 or 40), tag, channels, rate,
 * bytes a second, block, bits, valid bits, channel mask (the last two 0 unless the size is 40).
 * A refusal sets the 9 words to 0. Returns 0, 15 or 11.
 */
uint32_t symphedra_read_fmt(const uint8_t *payload, size_t len, uint64_t *record, size_t words);

/*
 * A bext payload, 8 words: lengths of the description, originator and reference texts; 1 or 0 for
 * date set, time set; time reference; version; length of the coding history's text alone, without
 * the zeros that may follow it.
 * A refusal sets the 8 words to 0. Returns 0, 15 or 13.
 */
uint32_t symphedra_read_bext(const uint8_t *payload, size_t len, uint64_t *out, size_t words);

/*
 * The parts of a bext payload, 14 words: place and length of each of these seven, in this order.
 *
 *     0    description text, without the zeros after it
 *     256  originator text, likewise
 *     288  reference text, likewise
 *     320  date: 10 bytes, or length 0 for not set, which is all zero
 *     330  time: 8 bytes, or length 0 likewise
 *     348  the 254 bytes after Version
 *     602  coding history up to the payload's end, with the zeros that may follow its text
 *
 * It judges nothing. A payload of fewer than 602 bytes has no parts: all 14 words are 0.
 * Of a payload that symphedra_read_bext accepts, the parts can be handed to symphedra_write_bext,
 * with the time reference and the version: it writes the same payload. Returns 0 or 15.
 */
uint32_t symphedra_bext_parts(const uint8_t *payload, size_t len, uint64_t *out, size_t words);

/*
 * A chna payload in a file of that many channels, 3 words: track count, UID count, number of
 * entries. A refusal sets the 3 words to 0. Returns 0, 15 or 14.
 */
uint32_t symphedra_read_chna(const uint8_t *payload, size_t len, uint16_t channels,
                             uint64_t *out, size_t words);

/*
 * Entry i of a chna payload, counted from 0, is the 40 bytes at 4 + 40 i:
 *
 *     0   track index
 *     2   UID, 12 bytes
 *     14  track reference, 14 bytes
 *     28  pack reference, 11 bytes, zeros for none; then the pad
 *
 * 5 words: 1, the track index, and where in the payload UID, track reference and pack reference
 * start. They are 0 for an entry that is not used (40 zero bytes), or not there with all 40 bytes.
 * It judges nothing. Of a payload that symphedra_read_chna accepts, the entries can be handed to
 * symphedra_write_chna as they lie there, from byte 4 to the end, with the two counts: it writes the
 * same payload but for the pads. Returns 0 or 15.
 */
uint32_t symphedra_chna_entry(const uint8_t *payload, size_t len, size_t i,
                              uint64_t *out, size_t words);

/*
 * The file writer, one function a form. fmt: exactly 9 words as symphedra_read_fmt gives them, of
 * payload size 16, bytes a second being rate x block. bext, chna: payloads, length 0 means absent.
 * audio: whole blocks. written: 1 word, the number of bytes written, 0 after every refusal.
 * Output bytes past what is written stay as they were, and all of them after a refusal.
 * Without bext and chna a file has 80 bytes plus audio and pad.
 * Returns 0, 16, 17, or 15 (also where there is no word for written).
 */
uint32_t symphedra_write_riff(const uint64_t *fmt, size_t fmt_words,
                              const uint8_t *bext, size_t bext_len,
                              const uint8_t *chna, size_t chna_len,
                              const uint8_t *audio, size_t audio_len,
                              uint8_t *out, size_t out_len,
                              uint64_t *written, size_t written_words);
uint32_t symphedra_write_rf64(const uint64_t *fmt, size_t fmt_words,
                              const uint8_t *bext, size_t bext_len,
                              const uint8_t *chna, size_t chna_len,
                              const uint8_t *audio, size_t audio_len,
                              uint8_t *out, size_t out_len,
                              uint64_t *written, size_t written_words);
uint32_t symphedra_write_bw64(const uint64_t *fmt, size_t fmt_words,
                              const uint8_t *bext, size_t bext_len,
                              const uint8_t *chna, size_t chna_len,
                              const uint8_t *audio, size_t audio_len,
                              uint8_t *out, size_t out_len,
                              uint64_t *written, size_t written_words);

/*
 * The writers of single records: a payload without header or pad. written and the output are as
 * for the file writer. Each returns 0, 16 or 15.
 */

/*
 * A fmt payload of 16, 18 or 40 bytes from exactly 9 words as symphedra_read_fmt gives them. 16 for
 * a record that could not have been read, a word too large for its field, bytes a second other than
 * rate x block, and valid bits or mask that are not 0 with a size of 16 or 18.
 */
uint32_t symphedra_write_fmt(const uint64_t *record, size_t record_words,
                             uint8_t *out, size_t out_len,
                             uint64_t *written, size_t written_words);

/*
 * A bext payload of 602 bytes and the history. The three texts are given without their zeros: at most
 * 256, 32 and 32 bytes, no zero byte in any. The history is of any length and may end in zeros, which
 * are kept; no other byte follows its first zero. date is 10 bytes, or 0 for not set; time 8 or 0. rest
 * is the 254 bytes after Version, or 0 bytes for all zero; with version 0 they must be zero.
 */
uint32_t symphedra_write_bext(const uint8_t *description, size_t description_len,
                              const uint8_t *originator, size_t originator_len,
                              const uint8_t *reference, size_t reference_len,
                              const uint8_t *date, size_t date_len,
                              const uint8_t *time, size_t time_len,
                              uint64_t time_reference, uint16_t version,
                              const uint8_t *rest, size_t rest_len,
                              const uint8_t *history, size_t history_len,
                              uint8_t *out, size_t out_len,
                              uint64_t *written, size_t written_words);

/*
 * A chna payload of 4 bytes and the entries, which are 40 bytes each as in the file, at most 1,024.
 * tracks and uids must be the true counts. The pad of a used entry is written as zero.
 */
uint32_t symphedra_write_chna(uint16_t tracks, uint16_t uids,
                              const uint8_t *entries, size_t entries_len, uint16_t channels,
                              uint8_t *out, size_t out_len,
                              uint64_t *written, size_t written_words);

#ifdef __cplusplus
}
#endif

#endif

/*
 * Reading and restating Pulseq .seq files of the editions 1.3 and 1.4: the library's functions for
 * C.
 *
 * Each function answers for every input, allocates nothing, keeps nothing between calls, and reads
 * and writes only the slices that it is lent.
 *
 * Stack. Reading, restating and looking up take up to 1.6 MB of the caller's stack, whatever the
 * file: a thread that calls them needs as much.
 *
 * Slices. Each is a pointer and a length; a length counts elements, not bytes. A pointer must not
 * be null, and must be aligned for its type, even where the length is 0. The slices that are
 * written (rows, samples, out, answer) must overlap neither each other nor those that are read.
 *
 * Answers. Each function writes its numbers into `answer`, in the order that its comment names. If
 * `answer` is shorter, it gets those that fit; if it is longer, the rest of it is zero.
 *
 * Refusals, by number, and which functions answer them when; restate answers 1 to 17 as read does,
 * and where it asks more, that is named:
 *
 *    0 ACCEPTED
 *    1 BIG        read: the file is over 2^24 bytes, or the site text over 4,096
 *    2 LINE       read: a line is over 1,024 bytes, or has a control byte other than tab outside
 *                 a comment
 *    3 VERSION    read: the first line that counts is not [VERSION], or the version is not 1.3.0,
 *                 1.3.1, 1.4.0 or 1.4.1; expand, write, restate: the edition is neither 103 nor 104
 *    4 SECTION    read: a section is unknown, repeated, not of this edition, or after [SIGNATURE]
 *    5 FIELD      read: a wrong count of fields, or a field not of its form or range; expand: a
 *                 stored line is not one decimal or a comment, or num is not 1 to 1,000,000
 *    6 MISSING    read: there is no block, or in 1.4 no [DEFINITIONS]
 *    7 ROOM       read: the rows or samples do not fit into the lent tables; expand likewise
 *    8 SITE       read, 1.3 only, and restate, always: a line of the site text is no definition,
 *                 comment or blank line, repeats a key, or breaks LINE
 *    9 DUPLICATE  read: an ID, type, extension name or definition key is met again in its class
 *   10 RASTER     read: a needed raster is absent or bad; restate likewise, with those that the
 *                 target needs
 *   11 SHAPE      read, expand: stored values do not expand to num_samples samples within
 *                 -100,000 to 100,000; write: no sample, over 1,000,000, or one beyond 100,000
 *   12 REFERENCE  read: an ID that is not 0, or an extension type, meets no row
 *   13 LOOP       read: the chain from an extension entry is over 256 entries
 *   14 USE        read: an event's shapes do not fit it
 *   15 ALIGN      read, 1.4 only: a time is off its raster
 *   16 LONG       read: a block lasts over 10^12 ns
 *   17 OUTLASTS   read, 1.4 only: an event is longer than its block
 *   18 UNSAYABLE  restate: the target has no way to say what the file says
 *   19 OUTPUT     restate, write: the text does not fit into `out`, or is over 2^24 bytes
 */
#ifndef PULSEQ_H
#define PULSEQ_H

#include <stddef.h>
#include <stdint.h>

#ifdef __cplusplus
extern "C" {
#endif

/* Numbers of one row. */
#define PULSEQ_ROW 12

/* The editions, as restate, expand and write take them. */
#define PULSEQ_EDITION_1_3 103
#define PULSEQ_EDITION_1_4 104

/*
 * Reads and checks a file.
 *
 * `file` is the text of the file. `site` is the text of the site's definitions, as lines of a key
 * and a value; it may be empty. A 1.3 file that does not name GradientRasterTime and
 * RadiofrequencyRasterTime needs them there.
 *
 * answer: the refusal's number or 0; the line that it is about, counted from 1, or 0; rows used;
 * samples used. Both counts are 0 on refusal.
 *
 * `rows` gets the rows, 12 numbers each, in the order of the file; there is room for the whole
 * rows that fit. `samples` gets the samples of all shapes, one shape behind the other, counted in
 * steps of 10^-12. Every number of both is written: past the used part, past a row's own numbers,
 * and throughout on refusal, it is zero.
 *
 * The numbers of a row, the kind first; a decimal is two numbers, mantissa and power of ten:
 *    1 block      id, duration in BlockDurationRaster (1.3: delay id), rf, gx, gy, gz, adc, ext, ns
 *    2 RF         id, amplitude (2), magnitude, phase, time shape or 0, delay us, frequency (2),
 *                 phase (2)
 *    3 gradient   id, amplitude (2), shape, time shape or 0, delay us
 *    4 trap       id, amplitude (2), rise us, flat us, fall us, delay us
 *    5 ADC        id, number of samples, dwell ns, delay us, frequency (2), phase (2)
 *    6 delay      id, delay us
 *    7 entry      id, type, ref, next
 *    8 extension  type, then 0 unknown, 1 TRIGGERS, 2 LABELSET, 3 LABELINC
 *    9 trigger    id, type, channel, delay us, duration us
 *   10 label      id, 0 set or 1 increment, value, label: 1 LIN, 2 PAR, 3 SLC, 4 SEG, 5 REP, 6 AVG,
 *                 7 SET, 8 ECO, 9 PHS, 10 NAV, 11 REV, 12 SMS, 13 ONCE
 *   11 shape      id, number of samples, place of the first in `samples`, from 0
 */
void pulseq_read(const uint8_t *file, size_t file_len, const uint8_t *site, size_t site_len,
                 int64_t *rows, size_t rows_len, int64_t *samples, size_t samples_len,
                 uint64_t *answer, size_t answer_len);

/*
 * Reads and checks a file, and writes it anew in the edition 1.3.1 or 1.4.1.
 *
 * `file` and `site` are as in pulseq_read; `target` is 103 for 1.3.1 or 104 for 1.4.1. The rasters
 * that a 1.3 file does not name are the site's. Restating to 1.3.1 needs the site's
 * GradientRasterTime and RadiofrequencyRasterTime, whatever the file names; restating to 1.4.1
 * needs those two, AdcRasterTime and BlockDurationRaster, in a 1.4 file its own.
 *
 * answer: the refusal's number or 0; the line that it is about, counted from 1, or 0; rows used;
 * samples used; the length of the text in bytes. The last three are 0 on refusal. A target other
 * than 103 and 104 is 3 VERSION at line 0, asked before everything else; then come 1 to 17 as in
 * pulseq_read, 18 and 19, the last two at line 0.
 *
 * UNSAYABLE is a file that declares an unknown extension; for 1.3.1 one with an RF or gradient row
 * that names a time shape, an RF or gradient raster of another worth than the site's, a block that
 * is not whole us, or a label row that names ONCE; for 1.4.1 one with a time off its raster, or a
 * block that is not 0 to 10^9 whole BlockDurationRasters.
 *
 * `rows` and `samples` get what was read, as in pulseq_read. `out` gets the text. Every number and
 * byte of the three is written: past the used part, and throughout on refusal, it is zero.
 *
 * The text plays the same as the file: it has the same blocks in the same order with their
 * durations, the same events and samples. IDs stay, but for 1.3.1 the delays are made anew.
 * Comments and the signature are left out; for 1.4.1 the rasters that the file does not name are
 * added to its definitions.
 */
void pulseq_restate(const uint8_t *file, size_t file_len, const uint8_t *site, size_t site_len,
                    uint64_t target, int64_t *rows, size_t rows_len, int64_t *samples,
                    size_t samples_len, uint8_t *out, size_t out_len, uint64_t *answer,
                    size_t answer_len);

/*
 * Expands the stored lines of one shape, such as pulseq_stored finds.
 *
 * `num` is the number of samples that the shape declares, `edition` 103 for 1.3 or 104 for 1.4.
 *
 * answer: 0, or 3 VERSION, 5 FIELD, 11 SHAPE or 7 ROOM, asked in this order; samples used, 0 on
 * refusal.
 *
 * `samples` gets the samples in steps of 10^-12; past them, and throughout on refusal, it is zero.
 */
void pulseq_expand(const uint8_t *stored, size_t stored_len, uint64_t num, uint64_t edition,
                   int64_t *samples, size_t samples_len, uint64_t *answer, size_t answer_len);

/*
 * Writes samples, in steps of 10^-12, as the stored lines of a shape: in 1.3 as run-length
 * differences, in 1.4 as the plain samples, unless the differences are fewer values.
 *
 * answer: 0, or 3 VERSION, 11 SHAPE or 19 OUTPUT, asked in this order; the length of the text in
 * bytes, 0 on refusal.
 *
 * `out` gets the text, with an LF behind each value; past it, and throughout on refusal, it is
 * zero.
 */
void pulseq_write(const int64_t *samples, size_t samples_len, uint64_t edition, uint8_t *out,
                  size_t out_len, uint64_t *answer, size_t answer_len);

/*
 * Finds the value of a definition by its key, which compares byte for byte.
 *
 * answer: 1 if the value is a part of the file's text, 2 if of the site's, 0 if there is none; the
 * place of its first byte in that text, from 0; its length. With 0, both are 0.
 *
 * The file's value is taken if both have one. There is none, whatever the key, if the file or the
 * site is BIG, if the file breaks LINE, VERSION, SECTION, FIELD or DUPLICATE, or if the site text
 * is at fault, here in both editions. An empty key is found nowhere.
 */
void pulseq_definition(const uint8_t *file, size_t file_len, const uint8_t *site, size_t site_len,
                       const uint8_t *key, size_t key_len, uint64_t *answer, size_t answer_len);

/*
 * Finds the stored lines of the shape with an ID: from the line behind num_samples up to the line
 * that ends them.
 *
 * answer: 1 if there is such a shape with a stored line, else 0; the place of the first byte in the
 * file's text, from 0; the length. With 0, both are 0.
 *
 * There is none, whatever the ID, under the faults that pulseq_definition names.
 */
void pulseq_stored(const uint8_t *file, size_t file_len, const uint8_t *site, size_t site_len,
                   int64_t id, uint64_t *answer, size_t answer_len);

#ifdef __cplusplus
}
#endif

#endif

/*
 * Stripes of the Cauchy MDS array code C(k, r, p): make, check, write, rebuild; and files of single columns: export, import.
 *
 * Link with libairsaffron.a (x86-64), which `rt lib` in crates/airsaffron writes to its folder out. It keeps no state, allocates
 * nothing and calls nothing but memcpy and memset.
 *
 * A stripe is k data columns (numbers 0 to k-1) and r parity columns (k to k+r-1) of p-1 strips (rows 0 to p-2) of B bytes. Its
 * image is, with all numbers little-endian:
 *   1. count 4, then p, k, r, B (each of 16 bits);
 *   2. count k, then k revisions (32 bits each);
 *   3. count k, then the data columns, each row by row;
 *   4. count r, then the parity columns, each row by row;
 * where each count has 16 bits. Its length is L = 16 + 4k + (k+r)(p-1)B.
 *
 * The file of one column, number n, is likewise:
 *   1. count 6, then p, k, r, B, n, and the flag 1 for parity or 0 for data (each of 16 bits);
 *   2. for data count 1, then the column's revision (32 bits); for parity count 0;
 *   3. count p-1, then the column's strips, row by row.
 * Its length is 22 + (p-1)B for data and 18 + (p-1)B for parity.
 *
 * ANSWERS. Each call answers three numbers by value. `refusal` is 0 where the call is accepted, else one of the numbers below; then
 * no lent byte has changed, and `first` and `second` are 0, but for STALE and AHEAD, whose `first` says how far the base is behind or
 * ahead. A call says what its `first` and `second` are where it is accepted; what it does not name is 0.
 * No call asks anything of its numbers: any are taken, and bad ones are refused. Where several refusals are due, the first in the
 * order that the call gives is answered.
 *
 * SLICES. A slice is a pointer and the number of its bytes. Every slice belongs to the caller and is lent for the time of the call:
 * the library keeps no pointer and frees nothing. This much is the caller's to see to, for nothing checks it:
 *   - a pointer is not null, also where the length is 0, and that many bytes from it may be read (and written, where it is not const);
 *   - a lent slice does not overlap another that is lent to the same call, nor `shape` the image;
 *   - no other thread writes to a lent slice before the call returns, nor reads one that the call may write to.
 */
#ifndef AIRSAFFRON_H
#define AIRSAFFRON_H

#include <stddef.h>
#include <stdint.h>

#ifdef __cplusplus
extern "C" {
#endif

typedef struct airsaffron_answer {
    uint64_t refusal;
    uint64_t first;
    uint64_t second;
} airsaffron_answer;

/* Numbers of refusal. */
enum {
    AIRSAFFRON_ACCEPTED = 0,
    AIRSAFFRON_CUT = 1,       /* image or column file too short, or no column file at all */
    AIRSAFFRON_TAIL = 2,      /* image too long */
    AIRSAFFRON_COUNT = 3,     /* a section's count is not the due one */
    AIRSAFFRON_PRIME = 4,     /* p not an odd prime from 3 to 61 */
    AIRSAFFRON_SHAPE = 5,     /* k = 0, r = 0 or k+r above p */
    AIRSAFFRON_STRIP = 6,     /* B = 0 or above 512 */
    AIRSAFFRON_WIDTH = 7,     /* data or new strip of wrong length */
    AIRSAFFRON_COLUMN = 8,    /* write: column not below k; pattern, shown column, exported column or n of a column file not below k+r */
    AIRSAFFRON_ROW = 9,       /* row not below p-1 */
    AIRSAFFRON_STALE = 10,    /* base older; first: how many revisions behind, 1 to 2^31 - 1 */
    AIRSAFFRON_AHEAD = 11,    /* base newer; first: how many revisions ahead, 1 to 2^31 - 1 */
    AIRSAFFRON_MANY = 12,     /* more than r columns lost */
    AIRSAFFRON_ROOM = 13,     /* make, import: image not L bytes; scratch below B; export: not the length of the column's file */
    AIRSAFFRON_LONG = 14,     /* report program only, no call here: input above 65,536 bytes */
    AIRSAFFRON_EXPONENT = 15, /* a or b not below p, or a = b */
    AIRSAFFRON_ELEMENT = 16,  /* a word with odd weight or a bit at p or above */
    AIRSAFFRON_UNCLEAR = 17,  /* base exactly 2^31 from the revision: which is newer is not defined */
    AIRSAFFRON_FOREIGN = 18,  /* column files: parameters unlike the first file's, or a flag wrong for n */
    AIRSAFFRON_TWICE = 19     /* column files: a column met again */
};

/* Limits. */
enum {
    AIRSAFFRON_LARGEST_PRIME = 61,
    AIRSAFFRON_LARGEST_STRIP = 512
};

/* Which slice `airsaffron_show` names. */
enum {
    AIRSAFFRON_IN_IMAGE = 1,
    AIRSAFFRON_IN_SCRATCH = 2
};

/*
 * The product of two words modulo x^p = 1. A word is a polynomial by its bits: bit i is the coefficient of x^i. Both have even weight.
 * first: the product. Refusals: PRIME, ELEMENT.
 */
airsaffron_answer airsaffron_product(uint64_t p, uint64_t u, uint64_t v);

/*
 * The only word c of even weight with (x^a + x^b) c = s.
 * first: c. Refusals: PRIME, ELEMENT, EXPONENT.
 */
airsaffron_answer airsaffron_divide(uint64_t p, uint64_t s, uint64_t a, uint64_t b);

/*
 * Fills `image`, of exactly L bytes, with the image of k(p-1)B data bytes in section 3's order, with parity as it has to be and revisions 0.
 * What `image` held before does not matter. Refusals: PRIME, SHAPE, STRIP, WIDTH, ROOM.
 */
airsaffron_answer airsaffron_make(uint64_t p, uint64_t k, uint64_t r, uint64_t b, const uint8_t *data, size_t data_length, uint8_t *image,
                                  size_t image_length);

/*
 * Reads p, k, r, B of an image into `shape`, four numbers; a refusal leaves `shape` as it is.
 * Refusals, "reading" below: CUT below 2 bytes, COUNT of section 1, CUT below 10 bytes, PRIME, SHAPE, STRIP, CUT below L bytes, TAIL above, COUNT of
 * section 2, 3 or 4.
 */
airsaffron_answer airsaffron_read(const uint8_t *image, size_t image_length, uint64_t shape[4]);

/*
 * Sets all parity of an image from its data; other bytes stay.
 * Refusals: reading.
 */
airsaffron_answer airsaffron_refill(uint8_t *image, size_t image_length);

/*
 * Which parity columns are not as the data make them.
 * first: a word whose bit j is set exactly when parity j is wrong. Refusals: reading.
 */
airsaffron_answer airsaffron_check(const uint8_t *image, size_t image_length);

/*
 * Writes a strip of B bytes to row `row` of data column `column`, where `base` is the column's revision: puts it in place, adds its difference to
 * parity, and sets the revision to base + 1 modulo 2^32.
 * first: the new revision; second: how many parity strips the difference was added to. Refusals: reading, COLUMN, ROW, WIDTH, then STALE where
 * base is 1 to 2^31 - 1 behind the revision modulo 2^32, AHEAD where it is as much ahead, UNCLEAR where they lie exactly 2^31 apart. Beside STALE
 * first is how far base is behind: the number of writes to the column that were accepted since base was its revision, where those are below 2^31.
 * Beside AHEAD first is how far base is ahead; beside UNCLEAR it is 0.
 */
airsaffron_answer airsaffron_write(uint8_t *image, size_t image_length, uint64_t column, uint64_t row, uint32_t base, const uint8_t *strip,
                                   size_t strip_length);

/*
 * The same while the columns whose bits are set in `lost` are away, bit n for column n: present columns end as if the write had been made on the
 * complete image, and what lost columns held does not matter. Where `column` itself is lost its old strip is restored first, and only present parity
 * and the revision move. Bytes of lost columns stay. With `lost` 0 it is `airsaffron_write`.
 * first: the new revision; second: how many strips of present parity columns the difference was added to. Refusals: reading, COLUMN for `column` or
 * a bit of `lost`, ROW, WIDTH, MANY, then STALE, AHEAD or UNCLEAR, with first as above.
 */
airsaffron_answer airsaffron_write_away(uint8_t *image, size_t image_length, uint64_t lost, uint64_t column, uint64_t row, uint32_t base,
                                        const uint8_t *strip, size_t strip_length);

/*
 * Rebuilds the columns whose bits are set in `lost`, bit n for column n; what they held does not matter. Other bytes stay.
 * Refusals: reading, COLUMN, MANY.
 */
airsaffron_answer airsaffron_rebuild(uint8_t *image, size_t image_length, uint64_t lost);

/*
 * Where the column is lost, puts the strip that `airsaffron_rebuild` would have there into the first B bytes of `scratch`; otherwise writes nothing.
 * Refusals: reading, COLUMN, ROW, MANY, ROOM for a scratch below B bytes.
 */
airsaffron_answer airsaffron_restore(const uint8_t *image, size_t image_length, uint64_t lost, uint64_t column, uint64_t row, uint8_t *scratch,
                                     size_t scratch_length);

/*
 * Where a strip of B bytes stands: in the image where the column is present, else at the start of the scratch, as `airsaffron_restore` left it there.
 * Writes nothing.
 * first: AIRSAFFRON_IN_IMAGE or AIRSAFFRON_IN_SCRATCH; second: where in that slice the strip starts. Refusals: as for `airsaffron_restore`.
 */
airsaffron_answer airsaffron_show(const uint8_t *image, size_t image_length, uint64_t lost, uint64_t column, uint64_t row, const uint8_t *scratch,
                                  size_t scratch_length);

/*
 * Fills `file`, of exactly the length of that file, with the file of column `column`, data or parity. What `file` held before does not matter.
 * Parity goes as it stands, right or wrong. Refusals: reading, COLUMN, ROOM.
 */
airsaffron_answer airsaffron_export(const uint8_t *image, size_t image_length, uint64_t column, uint8_t *file, size_t file_length);

/*
 * Fills `image`, of exactly L bytes, from the column files in `files`, which stand one after another, in any order, up to its end. Columns without a
 * file and their revisions are filled with zeros. What `image` held before does not matter, and parity goes as the files have it.
 * first: the pattern of the absent columns, bit n for column n, as `airsaffron_rebuild` takes it. Rebuild leaves revisions: that of an absent data
 * column stays 0.
 * Refusals, file by file: CUT below 2 bytes (so for no file at all), COUNT of section 1, CUT below 14 bytes, PRIME, SHAPE, STRIP, COLUMN for n not
 * below k+r, FOREIGN for p, k, r, B unlike the first file's or a flag wrong for n, TWICE for a column met again, CUT where the file ends too soon,
 * COUNT of section 2 or 3; after all files ROOM.
 */
airsaffron_answer airsaffron_import(const uint8_t *files, size_t files_length, uint8_t *image, size_t image_length);

/*
 * How long a slice has to be for `airsaffron_export` of column `column`.
 * first: the length of the column's file. Refusals: reading, COLUMN.
 */
airsaffron_answer airsaffron_file_length(const uint8_t *image, size_t image_length, uint64_t column);

/*
 * How long an image has to be for `airsaffron_import` of these files.
 * first: the length of the image that they make. Refusals: as for `airsaffron_import`, but for ROOM.
 */
airsaffron_answer airsaffron_files_length(const uint8_t *files, size_t files_length);

#ifdef __cplusplus
}
#endif

#endif

/*
 * Migthumo: matrices of order 2, 3 and 4 over double, with proved arithmetic. The functions of libmigthumo.a.
 *
 * A matrix is a flat slice of its columns, one after the other: of order n it is n*n numbers, and the entry at column
 * c and row r is number c*n + r. A vector is n numbers. A matrix moves a vector as matrix times vector, the matrix on
 * the left. A slice is two arguments, a pointer and then its length in elements. The output comes last.
 *
 * Entries are plain numbers, and the library knows no units: who holds scales as whole sixty-fourths holds offsets so
 * too, the last row stays 0, 0, 1, and what comes out is in sixty-fourths.
 *
 * Every function but migthumo_version answers 0, or a refusal (enum migthumo_answer). The causes are tested in the
 * order 5, 3, 4, then each column and row number in the order in which they are handed in (11 and 12 for the first, 267
 * and 268 for the second), then 6, 2, and the first that applies is answered. The output is written in full where 0 is
 * answered, and is unchanged where any other number is.
 *
 * What the caller sees to:
 *  - a length is true of its pointer: so many initialised elements do stand behind it, behind an output's too (any
 *    values);
 *  - a pointer is aligned for its type and not null. A slice of length 0 may be null: that is tested with every
 *    function, and not proved;
 *  - an output overlaps no other slice of the same call, and is not the same slice as one: what is proved takes them
 *    to be apart. So no call may be made in place; the swaps whose names end in _mut are the in-place forms. Inputs
 *    may be the same slice, or overlap each other;
 *  - nothing else writes to a slice, or reads an output, while the call runs;
 *  - floating point works as a program finds it at its start: rounding to nearest, subnormal numbers kept. A program
 *    linked with -ffast-math may change that.
 *
 * What is not asked: any double may be handed in, NaN and infinities too, and any order, column and row number, since
 * all are tested; and any length that is true of its pointer: one that the order doesn't ask for is refused with 3 or
 * 4, without reading or writing an element. No function allocates, blocks, or keeps a pointer; each may be called from
 * many threads at once.
 *
 * Each operation rounds once, to nearest even; nothing is fused or reordered. Transposes, swaps, rows, diagonals and
 * embeddings carry each entry over with all its bits. Which NaN it is that a sum or a product gives is not promised;
 * that a NaN is carried over with its bits is tested, and not proved.
 */
#ifndef MIGTHUMO_H
#define MIGTHUMO_H

#include <stddef.h>
#include <stdint.h>

/* Has GCC and Clang warn where a program drops what a function answers. With other compilers it is nothing. */
#if defined(__GNUC__) || defined(__clang__)
#define MIGTHUMO_MUST_USE __attribute__((__warn_unused_result__))
#else
#define MIGTHUMO_MUST_USE
#endif

#ifdef __cplusplus
extern "C" {
#endif

/* The version of this header, and that of the library that is linked. It is raised whenever a signature or an answer
   changes. A program may compare the two once, at its start; where they differ, take header and archive from one
   checkout. */
#define MIGTHUMO_VERSION 2
uint32_t migthumo_version(void);

/* What a function answers: 0, or why it gave no value. A column number that is not below the order is refused with 11,
   a row number with 12. Such an answer has a place, first or second: where it is the second column or row number that
   is handed in, 256 is added: 267 is 11 + 256, and 268 is 12 + 256. No other answer has a place. 1 is never answered:
   in version 1 it was MIGTHUMO_OUT_OF_RANGE, for any column or row number; now it is one of the last four. */
enum migthumo_answer {
    /* The output is written. */
    MIGTHUMO_GIVEN = 0,
    /* The determinant compares equal to zero: more at migthumo_invert. */
    MIGTHUMO_SINGULAR = 2,
    /* An input slice has the wrong length. */
    MIGTHUMO_INPUT_LENGTH = 3,
    /* The output slice has the wrong length. */
    MIGTHUMO_OUTPUT_LENGTH = 4,
    /* The order is not one that the function takes. */
    MIGTHUMO_ORDER = 5,
    /* An entry is not a whole number of magnitude at most 1024. */
    MIGTHUMO_NOT_WHOLE = 6,
    /* The bytes end inside the component record. These three are of migthumo_read_component alone. */
    MIGTHUMO_RECORD_ENDS = 20,
    /* More than one of the scale flags 0x0008, 0x0040 and 0x0080 is set. */
    MIGTHUMO_SCALE_FLAGS = 21,
    /* The offsets are point numbers: flag 0x0002 is clear. */
    MIGTHUMO_POINT_NUMBERS = 22,
    /* The first column number handed in is not below the order. */
    MIGTHUMO_FIRST_COLUMN = 11,
    /* The first row number handed in is not below the order. A lone row number is a first one. */
    MIGTHUMO_FIRST_ROW = 12,
    /* The second column number handed in is not below the order. */
    MIGTHUMO_SECOND_COLUMN = 267,
    /* The second row number handed in is not below the order. */
    MIGTHUMO_SECOND_ROW = 268
};

/* An answer's number: 11 for either column, 12 for either row, so compare it with MIGTHUMO_FIRST_COLUMN or
   MIGTHUMO_FIRST_ROW, never with those of the second. An answer that has no place is its own number. The argument may
   be read more than once: hand in a variable, not a call. */
#define MIGTHUMO_NUMBER(answer) ((answer) & 255)

/* An answer's place, an int: 1 for the first column or row number, 2 for the second, and 0 where the answer has none.
   The argument may be read more than once: hand in a variable, not a call. */
#define MIGTHUMO_PLACE(answer) \
    (((answer) == 11 || (answer) == 12) ? 1 : (((answer) == 267 || (answer) == 268) ? 2 : 0))

/* Four numbers: a column of a matrix of order 4. */
typedef struct migthumo_vector4 {
    double x, y, z, w;
} migthumo_vector4;

/* A matrix of order 4 as its columns: 16 numbers in a row. The swaps in place take it. */
typedef struct migthumo_matrix4 {
    migthumo_vector4 x, y, z, w;
} migthumo_matrix4;

/* ---- moves of many: the output is as long as what is moved; of none, nothing is written */

/* The matrix, on the left, times every vector. The vectors' length is a multiple of the order. Answers 0, 3, 4 or 5. */
MIGTHUMO_MUST_USE uint32_t migthumo_move_vectors(size_t order, const double *m, size_t m_length,
                                                 const double *vectors, size_t vectors_length,
                                                 double *out, size_t out_length);

/* The matrix, on the left, times every point extended by 1, without the last coordinate: orders 3 and 4. A point is
   order - 1 numbers, and the points' length a multiple of that. Where the last row is 0, .. 0, 1, a point moved is the
   vector moved; with another last row points need not come back, even where migthumo_undoable says that vectors do.
   Answers 0, 3, 4 or 5. */
MIGTHUMO_MUST_USE uint32_t migthumo_move_points(size_t order, const double *m, size_t m_length,
                                                const double *points, size_t points_length,
                                                double *out, size_t out_length);

/* ---- determinant and inverse */

/* The determinant. Output length 1. Answers 0, 3, 4 or 5. */
MIGTHUMO_MUST_USE uint32_t migthumo_determinant(size_t order, const double *m, size_t m_length,
                                                double *out, size_t out_length);

/* The inverse; 2 where the determinant, as migthumo_determinant gives it, compares equal to zero. For whole entries of
   magnitude at most 1024 that is where the signed sum is zero. For entries that are not whole it may come from
   underflow (a diagonal of 1e-200 is refused), and a matrix that is flat as written in decimals, as columns (0.1, 0.3),
   (0.7, 2.1), may get an inverse, since its decimals are rounded when they are read. Output length n*n. Answers 0, 2,
   3, 4 or 5. */
MIGTHUMO_MUST_USE uint32_t migthumo_invert(size_t order, const double *m, size_t m_length,
                                           double *out, size_t out_length);

/* ---- sums, products and scalar forms: output length n*n; each answers 0, 3, 4 or 5 */

/* The product a times b, a on the left. */
MIGTHUMO_MUST_USE uint32_t migthumo_product(size_t order, const double *a, size_t a_length,
                                            const double *b, size_t b_length, double *out, size_t out_length);

/* The sum, entry by entry. */
MIGTHUMO_MUST_USE uint32_t migthumo_add(size_t order, const double *a, size_t a_length,
                                        const double *b, size_t b_length, double *out, size_t out_length);

/* The difference a less b, entry by entry. */
MIGTHUMO_MUST_USE uint32_t migthumo_subtract(size_t order, const double *a, size_t a_length,
                                             const double *b, size_t b_length, double *out, size_t out_length);

/* The scalar, on the left, times each entry. */
MIGTHUMO_MUST_USE uint32_t migthumo_scale(size_t order, double s, const double *m, size_t m_length,
                                          double *out, size_t out_length);

/* The scalar, on the left, divided by each entry. */
MIGTHUMO_MUST_USE uint32_t migthumo_divide(size_t order, double s, const double *m, size_t m_length,
                                           double *out, size_t out_length);

/* Each entry times the scalar, on the right. */
MIGTHUMO_MUST_USE uint32_t migthumo_scale_by(size_t order, const double *m, size_t m_length, double s,
                                             double *out, size_t out_length);

/* Each entry divided by the scalar, on the right. */
MIGTHUMO_MUST_USE uint32_t migthumo_divide_by(size_t order, const double *m, size_t m_length, double s,
                                              double *out, size_t out_length);

/* Every sign turned. */
MIGTHUMO_MUST_USE uint32_t migthumo_negate(size_t order, const double *m, size_t m_length,
                                           double *out, size_t out_length);

/* ---- the exact engine: output length 1; each answers 0, 3, 4, 5 or 6 */

/* The signed sum over all column orders, in whole numbers; 6 unless every entry is a whole number of magnitude at most
   1024 (-0.0 is 0). */
MIGTHUMO_MUST_USE uint32_t migthumo_signed_sum(size_t order, const double *m, size_t m_length,
                                               int64_t *out, size_t out_length);

/* 1 where the magnitude of the signed sum has exactly one bit set (the sum is plus or minus a power of two), else 0; 6
   as for the sum. Where it is 1, this is proved of the matrix (crates/engine/specs/Demand.antt):
    - migthumo_invert answers 0;
    - each entry of the inverse has exactly the value cofactor over signed sum: at column c and row r the cofactor is
      that of column r and row c of the matrix;
    - migthumo_product of matrix and inverse, either way round, compares equal to the identity, entry by entry;
    - whole vectors with entries of magnitude up to 32768 (orders 2 and 3) or 64 (order 4), moved there and back by
      migthumo_move_vectors, compare equal to themselves, whether the matrix goes first or the inverse.
   Where it is 0 none of this is promised: there is no inverse, or its entries may be rounded. */
MIGTHUMO_MUST_USE uint32_t migthumo_undoable(size_t order, const double *m, size_t m_length,
                                             uint8_t *out, size_t out_length);

/* ---- places */

/* Columns as rows. Output length n*n. Answers 0, 3, 4 or 5. */
MIGTHUMO_MUST_USE uint32_t migthumo_transpose(size_t order, const double *m, size_t m_length,
                                              double *out, size_t out_length);

/* Row r; 12 unless it is below the order. Output length n. Answers 0, 3, 4, 5 or 12. */
MIGTHUMO_MUST_USE uint32_t migthumo_row(size_t order, size_t r, const double *m, size_t m_length,
                                        double *out, size_t out_length);

/* The entries whose column is their row. Output length n. Answers 0, 3, 4 or 5. */
MIGTHUMO_MUST_USE uint32_t migthumo_diagonal(size_t order, const double *m, size_t m_length,
                                             double *out, size_t out_length);

/* Rows a and b exchanged; 12 unless a is below the order, then 268 unless b is. Output length n*n. Answers 0, 3, 4,
   5, 12 or 268. */
MIGTHUMO_MUST_USE uint32_t migthumo_swap_rows(size_t order, size_t a, size_t b, const double *m, size_t m_length,
                                              double *out, size_t out_length);

/* Columns a and b exchanged; 11 unless a is below the order, then 267 unless b is. Output length n*n. Answers 0, 3,
   4, 5, 11 or 267. */
MIGTHUMO_MUST_USE uint32_t migthumo_swap_columns(size_t order, size_t a, size_t b, const double *m, size_t m_length,
                                                 double *out, size_t out_length);

/* The entries at two places, each a column and then a row, exchanged. The four numbers are tested in the order in which
   they are handed in, and the first that is not below the order is answered: 11 for first_column, 12 for first_row, 267
   for second_column, 268 for second_row. Output length n*n. Answers 0, 3, 4, 5, 11, 12, 267 or 268. */
MIGTHUMO_MUST_USE uint32_t migthumo_swap_elements(size_t order, size_t first_column, size_t first_row,
                                                  size_t second_column, size_t second_row,
                                                  const double *m, size_t m_length, double *out, size_t out_length);

/* ---- embeddings and rotations */

/* The matrix in the top left corner of the identity of order `to`; 5 unless (order, to) is (2, 3), (2, 4) or (3, 4).
   Output length to*to. Answers 0, 3, 4 or 5. */
MIGTHUMO_MUST_USE uint32_t migthumo_embed(size_t order, size_t to, const double *m, size_t m_length,
                                          double *out, size_t out_length);

/* The rotation of the plane with the sine s and the cosine c: order 2. Output length 4. Answers 0 or 4. */
MIGTHUMO_MUST_USE uint32_t migthumo_from_angle(double s, double c, double *out, size_t out_length);

/* The rotation around the x, y or z axis with the sine s and the cosine c: orders 3 and 4. Output length n*n. Each
   answers 0, 4 or 5. */
MIGTHUMO_MUST_USE uint32_t migthumo_from_angle_x(size_t order, double s, double c, double *out, size_t out_length);
MIGTHUMO_MUST_USE uint32_t migthumo_from_angle_y(size_t order, double s, double c, double *out, size_t out_length);
MIGTHUMO_MUST_USE uint32_t migthumo_from_angle_z(size_t order, double s, double c, double *out, size_t out_length);

/* The rotation around the axis (x, y, z), which is not checked for length, with the sine s and the cosine c: orders 3
   and 4. Output length n*n. Answers 0, 4 or 5. */
MIGTHUMO_MUST_USE uint32_t migthumo_from_axis_angle(size_t order, double x, double y, double z, double s, double c,
                                                    double *out, size_t out_length);

/* ---- order 4 swaps in place: the matrix is changed where 0 is answered, and as it was where any other number is */

/* Rows a and b exchanged; 12 unless a is below 4, then 268 unless b is. Answers 0, 12 or 268. */
MIGTHUMO_MUST_USE uint32_t migthumo_swap_rows_mut(migthumo_matrix4 *m, size_t a, size_t b);

/* Columns a and b exchanged; 11 unless a is below 4, then 267 unless b is. Answers 0, 11 or 267. */
MIGTHUMO_MUST_USE uint32_t migthumo_swap_columns_mut(migthumo_matrix4 *m, size_t a, size_t b);

/* The entries at two places, each a column and then a row, exchanged. The four numbers are tested in the order in which
   they are handed in, and the first that is not below 4 is answered: 11 for first_column, 12 for first_row, 267 for
   second_column, 268 for second_row. Answers 0, 11, 12, 267 or 268. */
MIGTHUMO_MUST_USE uint32_t migthumo_swap_elements_mut(migthumo_matrix4 *m, size_t first_column, size_t first_row,
                                                      size_t second_column, size_t second_row);

/* ---- component records of a font: begun, and not finished; the version was not raised for it */

/* One component of an OpenType glyf composite, read from its record at the place `at` in the bytes, counted from 0. The
   record is the flags and the glyph index, an unsigned word each; two signed offsets dx and dy, words where flag 0x0001
   is set, else single bytes; then no scale, one scale (0x0008), two scales (0x0040), or xscale, scale01, scale10 and
   yscale (0x0080). A word is 16 bits, larger byte first; a scale is F2Dot14, a signed word over 16384.
    - head gets 3 numbers: the flags as they stand, the glyph index, and the place after the record;
    - m gets 9, a matrix of order 3 with the columns (xscale, scale01, 0), (scale10, yscale, 0) and (dx, dy, 1): offsets
      in font units, scales as plain numbers. One scale is both xscale and yscale, two are xscale and yscale; scale01
      and scale10 are 0 with both. No scale is 1, 0, 0, 1. It is proved that each number is exact: none is rounded.
   The matrix moves a point (x, y) of the borrowed glyph as matrix times (x, y, 1): migthumo_move_points does so at
   order 3. The offsets are never scaled by the linear part, whatever flags 0x0800 and 0x1000 say. Where flag 0x0020 is
   set, another component follows, at the place head[2].
   It has two outputs, head and m: both are written in full where 0 is answered, and both are unchanged where any other
   number is. They overlap neither the bytes nor each other. Any bytes may be handed in, however many, none too, and any
   place, since it is tested. The first of these that applies is answered:
   4 unless head_length is 3 and m_length is 9; 20 where the bytes end inside the flags word, so for every place at or
   past their end, however large; 21 where more than one of the scale flags is set; 22 where flag 0x0002 is clear, since
   the offsets are point numbers then; 20 where the bytes end inside the rest of the record. Any other flags word is
   taken, reserved bits too, and bytes after the record are not looked at. Answers 0, 4, 20, 21 or 22. */
MIGTHUMO_MUST_USE uint32_t migthumo_read_component(const uint8_t *bytes, size_t bytes_length, size_t at,
                                                   size_t *head, size_t head_length, double *m, size_t m_length);

#ifdef __cplusplus
}
#endif

#endif

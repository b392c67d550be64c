/*
 * Calls every function of migthumo.h and compares what it answers and what it leaves. From the root of the repository:
 *
 *     tools/staticlib.sh
 *     cc -Wall -Wextra -std=c99 -Iinclude include/test/migthumo_test.c target/staticlib/libmigthumo.a -o target/c_test
 *     target/c_test
 *
 * With no Rattle kit leave out the first line, and name prebuilt/x86_64-linux/libmigthumo.a in the second. It is C++11
 * too (c++ -x c++ -std=c++11). It reads include/test/places.txt, or the file that its argument names, and
 * include/test/records.txt, or the file that a second argument names. Its last line counts the checks; it exits with 1
 * where one of them failed.
 */
#include "migthumo.h"

#include <inttypes.h>
#include <math.h>
#include <stdio.h>
#include <string.h>

/* How many checks were made, and how many failed. */
static unsigned checks, failures;

/* Counts a check, and says what differed. */
static void check(const char *what, int holds)
{
    checks++;
    if (!holds) {
        failures++;
        printf("differs: %s\n", what);
    }
}

/* The function answered this number. */
static void answers(const char *what, uint32_t got, uint32_t want)
{
    check(what, got == want);
    if (got != want)
        printf("  answered %" PRIu32 ", not %" PRIu32 "\n", got, want);
}

/* The numbers compare equal, one by one: 0.0 and -0.0 do. */
static void equal(const char *what, const double *got, const double *want, size_t length)
{
    size_t i = 0;
    while (i < length && got[i] == want[i])
        i++;
    check(what, i == length);
    if (i < length)
        printf("  number %zu is %g, not %g\n", i, got[i], want[i]);
}

/* The numbers have the same bits: the sign of a zero counts, and so does what a NaN carries. */
static void same_bits(const char *what, const double *got, const double *want, size_t length)
{
    check(what, memcmp(got, want, length * sizeof *got) == 0);
}

/* What an output holds before a call. */
#define BEFORE 7.5

/* Fills an output before a call. */
static void fill(double *out, size_t length)
{
    size_t i;
    for (i = 0; i < length; i++)
        out[i] = BEFORE;
}

/* The function answered this refusal and left the output, which `fill` has filled, as it was. */
static void refuses(const char *what, uint32_t got, uint32_t want, const double *out, size_t length)
{
    size_t i = 0;
    answers(what, got, want);
    while (i < length && out[i] == BEFORE)
        i++;
    check(what, i == length);
    if (i < length)
        printf("  number %zu was written\n", i);
}

/* The numbers 1, 2, 3 .. in a row: a matrix whose entries all differ. */
static const double counted[16] = {1, 2, 3, 4, 5, 6, 7, 8, 9, 10, 11, 12, 13, 14, 15, 16};

/* A double of these bits. */
static double of_bits(uint64_t bits)
{
    double number;
    memcpy(&number, &bits, sizeof number);
    return number;
}

/* Vectors and points, one, many and none. */
static void moves(void)
{
    const double turn[4] = {0, 1, -1, 0};
    const double shift[9] = {1, 0, 0, 0, 1, 0, 10, 20, 1};
    const double in_space[16] = {2, 0, 0, 0, 0, 2, 0, 0, 0, 0, 2, 0, 4, 6, 8, 1};
    const double moved[4] = {-2, 1, -4, 3}, shifted[4] = {11, 22, 13, 24}, scaled[6] = {6, 10, 14, 12, 16, 20};
    double out[6] = {0};

    answers("vectors", migthumo_move_vectors(2, turn, 4, counted, 4, out, 4), MIGTHUMO_GIVEN);
    equal("vectors, moved", out, moved, 4);
    answers("points of order 3", migthumo_move_points(3, shift, 9, counted, 4, out, 4), MIGTHUMO_GIVEN);
    equal("points of order 3, moved", out, shifted, 4);
    answers("points of order 4", migthumo_move_points(4, in_space, 16, counted, 6, out, 6), MIGTHUMO_GIVEN);
    equal("points of order 4, moved", out, scaled, 6);

    fill(out, 6);
    answers("no vectors", migthumo_move_vectors(2, turn, 4, counted, 0, out, 0), MIGTHUMO_GIVEN);
    refuses("vectors, order 5", migthumo_move_vectors(5, counted, 16, counted, 5, out, 5), MIGTHUMO_ORDER, out, 6);
    refuses("points, order 2", migthumo_move_points(2, turn, 4, counted, 4, out, 4), MIGTHUMO_ORDER, out, 6);
    refuses("vectors, matrix of 8", migthumo_move_vectors(3, counted, 8, counted, 3, out, 3),
            MIGTHUMO_INPUT_LENGTH, out, 6);
    refuses("vectors, one and a half", migthumo_move_vectors(2, turn, 4, counted, 3, out, 3),
            MIGTHUMO_INPUT_LENGTH, out, 6);
    refuses("vectors, output one short", migthumo_move_vectors(2, turn, 4, counted, 4, out, 3),
            MIGTHUMO_OUTPUT_LENGTH, out, 6);
    refuses("points, output one long", migthumo_move_points(3, shift, 9, counted, 4, out, 5),
            MIGTHUMO_OUTPUT_LENGTH, out, 6);
}

/* Determinants and inverses: cases R1 to R6 and R10 of document 01, 'Reference cases, both sides of each edge'. */
static void inverses(void)
{
    const double r1[4] = {3, 5, 1, 2}, inverse1[4] = {2, -5, -1, 3};
    const double r2[4] = {2, 0, 0, 4}, inverse2[4] = {0.5, -0.0, -0.0, 0.25};
    const double r3[4] = {1, 2, 2, 4}, r4[4] = {-1, 0, 0, 0}, minus_zero[1] = {-0.0};
    const double r5[4] = {NAN, 0, 0, 0};
    const double r6[9] = {0, 1, 0, -1, 0, 0, 10, 20, 1}, inverse6[9] = {0, -1, 0, 1, 0, 0, -20, 10, 1};
    const double r10[16] = {2, 0, 0, 0, 0, 2, 0, 0, 0, 0, 2, 0, 4, 6, 8, 1};
    const double inverse10[16] = {0.5, 0, 0, 0, 0, 0.5, 0, 0, 0, 0, 0.5, 0, -2, -3, -4, 1};
    const double tiny[4] = {1e-200, 0, 0, 1e-200}, decimals[4] = {0.1, 0.3, 0.7, 2.1};
    double out[16] = {0}, one[1] = {0};

    answers("R1", migthumo_invert(2, r1, 4, out, 4), MIGTHUMO_GIVEN);
    equal("R1, inverse", out, inverse1, 4);
    answers("R1, determinant", migthumo_determinant(2, r1, 4, one, 1), MIGTHUMO_GIVEN);
    check("R1, determinant", one[0] == 1);
    answers("R2", migthumo_invert(2, r2, 4, out, 4), MIGTHUMO_GIVEN);
    same_bits("R2, inverse", out, inverse2, 4);
    answers("R4, determinant", migthumo_determinant(2, r4, 4, one, 1), MIGTHUMO_GIVEN);
    same_bits("R4, determinant", one, minus_zero, 1);
    answers("R5", migthumo_invert(2, r5, 4, out, 4), MIGTHUMO_GIVEN);
    check("R5, inverse", isnan(out[0]) && isnan(out[1]) && isnan(out[2]) && isnan(out[3]));
    answers("R6", migthumo_invert(3, r6, 9, out, 9), MIGTHUMO_GIVEN);
    equal("R6, inverse", out, inverse6, 9);
    answers("R10", migthumo_invert(4, r10, 16, out, 16), MIGTHUMO_GIVEN);
    equal("R10, inverse", out, inverse10, 16);
    answers("R10, determinant", migthumo_determinant(4, r10, 16, one, 1), MIGTHUMO_GIVEN);
    check("R10, determinant", one[0] == 8);
    answers("flat as written", migthumo_invert(2, decimals, 4, out, 4), MIGTHUMO_GIVEN);
    answers("flat as written, determinant", migthumo_determinant(2, decimals, 4, one, 1), MIGTHUMO_GIVEN);
    check("flat as written, determinant", one[0] != 0);

    fill(out, 16);
    refuses("diagonal of 1e-200", migthumo_invert(2, tiny, 4, out, 4), MIGTHUMO_SINGULAR, out, 16);
    refuses("R3", migthumo_invert(2, r3, 4, out, 4), MIGTHUMO_SINGULAR, out, 16);
    refuses("R4", migthumo_invert(2, r4, 4, out, 4), MIGTHUMO_SINGULAR, out, 16);
    refuses("inverse, order 1", migthumo_invert(1, r3, 1, out, 1), MIGTHUMO_ORDER, out, 16);
    refuses("inverse, all wrong", migthumo_invert(0, r3, 3, out, 2), MIGTHUMO_ORDER, out, 16);
    refuses("inverse, both lengths wrong", migthumo_invert(2, r3, 3, out, 2), MIGTHUMO_INPUT_LENGTH, out, 16);
    refuses("inverse, output before zero", migthumo_invert(2, r3, 4, out, 9), MIGTHUMO_OUTPUT_LENGTH, out, 16);
    refuses("determinant, output of two", migthumo_determinant(2, r3, 4, out, 2), MIGTHUMO_OUTPUT_LENGTH, out, 16);
}

/* Sums, products and scalar forms. */
static void arithmetic(void)
{
    const double a[4] = {1, 0, 1, 1}, b[4] = {1, 1, 0, 1};
    const double ab[4] = {2, 1, 1, 1}, ba[4] = {1, 1, 1, 2}, sum[4] = {2, 1, 1, 2}, difference[4] = {0, -1, 1, 0};
    const double thrice[4] = {3, 6, 9, 12}, twelfths[4] = {12, 6, 4, 3}, halves[4] = {0.5, 1, 1.5, 2};
    const double turned[4] = {-1, -2, -3, -4}, doubled[4] = {2, 4, 6, 8}, ones[4] = {1, 1, 1, 1};
    const double squared[4] = {1, 0, 2, 1};
    double out[4] = {0};

    answers("product", migthumo_product(2, a, 4, b, 4, out, 4), MIGTHUMO_GIVEN);
    equal("R7", out, ab, 4);
    answers("product, the other way", migthumo_product(2, b, 4, a, 4, out, 4), MIGTHUMO_GIVEN);
    equal("R8", out, ba, 4);
    answers("product, one slice twice", migthumo_product(2, a, 4, a, 4, out, 4), MIGTHUMO_GIVEN);
    check("product, one slice twice", out[2] == 2);
    answers("sum, one slice twice", migthumo_add(2, counted, 4, counted, 4, out, 4), MIGTHUMO_GIVEN);
    equal("sum, one slice twice", out, doubled, 4);
    answers("difference, overlapping", migthumo_subtract(2, counted + 1, 4, counted, 4, out, 4), MIGTHUMO_GIVEN);
    equal("difference, overlapping", out, ones, 4);
    answers("vectors, the matrix itself", migthumo_move_vectors(2, a, 4, a, 4, out, 4), MIGTHUMO_GIVEN);
    equal("vectors, the matrix itself", out, squared, 4);
    answers("sum", migthumo_add(2, a, 4, b, 4, out, 4), MIGTHUMO_GIVEN);
    equal("sum, its numbers", out, sum, 4);
    answers("difference", migthumo_subtract(2, a, 4, b, 4, out, 4), MIGTHUMO_GIVEN);
    equal("difference, its numbers", out, difference, 4);
    answers("scale", migthumo_scale(2, 3, counted, 4, out, 4), MIGTHUMO_GIVEN);
    equal("scale, its numbers", out, thrice, 4);
    answers("scale by", migthumo_scale_by(2, counted, 4, 3, out, 4), MIGTHUMO_GIVEN);
    equal("scale by, its numbers", out, thrice, 4);
    answers("divide", migthumo_divide(2, 12, counted, 4, out, 4), MIGTHUMO_GIVEN);
    equal("divide, its numbers", out, twelfths, 4);
    answers("divide by", migthumo_divide_by(2, counted, 4, 2, out, 4), MIGTHUMO_GIVEN);
    equal("divide by, its numbers", out, halves, 4);
    answers("negate", migthumo_negate(2, counted, 4, out, 4), MIGTHUMO_GIVEN);
    equal("negate, its numbers", out, turned, 4);

    fill(out, 4);
    refuses("product, second one short", migthumo_product(2, a, 4, b, 3, out, 4), MIGTHUMO_INPUT_LENGTH, out, 4);
    refuses("scale, order 1", migthumo_scale(1, 3, counted, 4, out, 4), MIGTHUMO_ORDER, out, 4);
    refuses("scale by, matrix of 3", migthumo_scale_by(2, counted, 3, 3, out, 4), MIGTHUMO_INPUT_LENGTH, out, 4);
    refuses("divide, output short", migthumo_divide(2, 3, counted, 4, out, 3), MIGTHUMO_OUTPUT_LENGTH, out, 4);
    refuses("divide by, order 5", migthumo_divide_by(5, counted, 4, 3, out, 4), MIGTHUMO_ORDER, out, 4);
    refuses("negate, matrix of 5", migthumo_negate(2, counted, 5, out, 4), MIGTHUMO_INPUT_LENGTH, out, 4);
    refuses("sum, order 5", migthumo_add(5, a, 4, b, 4, out, 4), MIGTHUMO_ORDER, out, 4);
    refuses("difference, output short", migthumo_subtract(2, a, 4, b, 4, out, 3), MIGTHUMO_OUTPUT_LENGTH, out, 4);
}

/* The exact engine: case R12 and a sum of order 4. */
static void exact(void)
{
    const double taken[4] = {1024, -0.0, 3, 1024}, large[4] = {1025, 0, 0, 1}, half[4] = {0.5, 0, 0, 1};
    const double three[4] = {3, 0, 0, 1};
    const double cycle[16] = {0, 1, 0, 0, 0, 0, 1, 0, 0, 0, 0, 1, 2, 0, 0, 0};
    int64_t sum[1] = {99};
    uint8_t flag[1] = {99};

    answers("sum of 1025", migthumo_signed_sum(2, large, 4, sum, 1), MIGTHUMO_NOT_WHOLE);
    check("sum of 1025, not written", sum[0] == 99);
    answers("sum of a half", migthumo_signed_sum(2, half, 4, sum, 1), MIGTHUMO_NOT_WHOLE);
    check("sum of a half, not written", sum[0] == 99);
    answers("sum, output of none", migthumo_signed_sum(2, half, 4, sum, 0), MIGTHUMO_OUTPUT_LENGTH);
    check("sum, output of none, not written", sum[0] == 99);
    answers("verdict of a half", migthumo_undoable(2, half, 4, flag, 1), MIGTHUMO_NOT_WHOLE);
    check("verdict of a half, not written", flag[0] == 99);

    answers("R12", migthumo_signed_sum(2, taken, 4, sum, 1), MIGTHUMO_GIVEN);
    check("R12, the sum", sum[0] == 1024 * 1024);
    answers("sum of order 4", migthumo_signed_sum(4, cycle, 16, sum, 1), MIGTHUMO_GIVEN);
    check("sum of order 4, its sign", sum[0] == -2);
    answers("verdict of order 4", migthumo_undoable(4, cycle, 16, flag, 1), MIGTHUMO_GIVEN);
    check("verdict of order 4, yes", flag[0] == 1);
    answers("verdict of three", migthumo_undoable(2, three, 4, flag, 1), MIGTHUMO_GIVEN);
    check("verdict of three, no", flag[0] == 0);
}

/* Rows, diagonals, transposes and swaps by value. */
static void places(void)
{
    const double transposed[9] = {1, 4, 7, 2, 5, 8, 3, 6, 9}, last_row[3] = {3, 6, 9}, diagonal[3] = {1, 5, 9};
    const double rows[9] = {3, 2, 1, 6, 5, 4, 9, 8, 7}, columns[9] = {7, 8, 9, 4, 5, 6, 1, 2, 3};
    const double elements[9] = {1, 6, 3, 4, 5, 2, 7, 8, 9};
    double odd[4], turned[4], out[9] = {0};

    answers("transpose", migthumo_transpose(3, counted, 9, out, 9), MIGTHUMO_GIVEN);
    equal("transpose, its numbers", out, transposed, 9);
    answers("row", migthumo_row(3, 2, counted, 9, out, 3), MIGTHUMO_GIVEN);
    equal("row, its numbers", out, last_row, 3);
    answers("diagonal", migthumo_diagonal(3, counted, 9, out, 3), MIGTHUMO_GIVEN);
    equal("diagonal, its numbers", out, diagonal, 3);
    answers("rows", migthumo_swap_rows(3, 0, 2, counted, 9, out, 9), MIGTHUMO_GIVEN);
    equal("rows, swapped", out, rows, 9);
    answers("columns", migthumo_swap_columns(3, 0, 2, counted, 9, out, 9), MIGTHUMO_GIVEN);
    equal("columns, swapped", out, columns, 9);
    answers("elements", migthumo_swap_elements(3, 0, 1, 1, 2, counted, 9, out, 9), MIGTHUMO_GIVEN);
    equal("elements, swapped", out, elements, 9);
    answers("R11, rows 1 and 1", migthumo_swap_rows(2, 1, 1, counted, 4, out, 4), MIGTHUMO_GIVEN);
    equal("R11, rows 1 and 1", out, counted, 4);

    /* A NaN that signals, with a number of its own, moves with all its bits. */
    odd[0] = 1, odd[1] = of_bits(0x7ff0000000000123u), odd[2] = -0.0, odd[3] = of_bits(0xfff8000000000456u);
    turned[0] = odd[0], turned[1] = odd[2], turned[2] = odd[1], turned[3] = odd[3];
    answers("transpose of NaNs", migthumo_transpose(2, odd, 4, out, 4), MIGTHUMO_GIVEN);
    same_bits("transpose of NaNs, their bits", out, turned, 4);

    fill(out, 9);
    refuses("R11, columns 5 and 5", migthumo_swap_columns(2, 5, 5, counted, 4, out, 4), MIGTHUMO_FIRST_COLUMN, out, 9);
    refuses("rows 0 and 3", migthumo_swap_rows(3, 0, 3, counted, 9, out, 9), MIGTHUMO_SECOND_ROW, out, 9);
    refuses("element at row 3", migthumo_swap_elements(3, 0, 0, 0, 3, counted, 9, out, 9), MIGTHUMO_SECOND_ROW, out, 9);
    refuses("row 3", migthumo_row(3, 3, counted, 9, out, 3), MIGTHUMO_FIRST_ROW, out, 9);
    refuses("row 3, output long", migthumo_row(3, 3, counted, 9, out, 9), MIGTHUMO_OUTPUT_LENGTH, out, 9);
    refuses("diagonal, order 5", migthumo_diagonal(5, counted, 9, out, 3), MIGTHUMO_ORDER, out, 9);
    refuses("transpose, matrix of 8", migthumo_transpose(3, counted, 8, out, 9), MIGTHUMO_INPUT_LENGTH, out, 9);
}

/* Embeddings and rotations. */
static void builders(void)
{
    const double in_three[9] = {1, 2, 0, 3, 4, 0, 0, 0, 1};
    const double in_four[16] = {1, 2, 3, 0, 4, 5, 6, 0, 7, 8, 9, 0, 0, 0, 0, 1};
    const double plane[4] = {0, 1, -1, 0};
    const double around_x[9] = {1, 0, 0, 0, 0, 1, 0, -1, 0}, around_y[9] = {0, 0, -1, 0, 1, 0, 1, 0, 0};
    const double around_z[9] = {0, 1, 0, -1, 0, 0, 0, 0, 1};
    double out[16] = {0}, space[16] = {0};

    answers("2 in 3", migthumo_embed(2, 3, counted, 4, out, 9), MIGTHUMO_GIVEN);
    equal("2 in 3, its numbers", out, in_three, 9);
    answers("3 in 4", migthumo_embed(3, 4, counted, 9, out, 16), MIGTHUMO_GIVEN);
    equal("3 in 4, its numbers", out, in_four, 16);
    answers("2 in 4", migthumo_embed(2, 4, counted, 4, out, 16), MIGTHUMO_GIVEN);
    check("2 in 4, its numbers", out[0] == 1 && out[4] == 3 && out[5] == 4 && out[10] == 1 && out[15] == 1);
    answers("angle", migthumo_from_angle(1, 0, out, 4), MIGTHUMO_GIVEN);
    equal("angle, its numbers", out, plane, 4);
    answers("angle x", migthumo_from_angle_x(3, 1, 0, out, 9), MIGTHUMO_GIVEN);
    equal("angle x, its numbers", out, around_x, 9);
    answers("angle y", migthumo_from_angle_y(3, 1, 0, out, 9), MIGTHUMO_GIVEN);
    equal("angle y, its numbers", out, around_y, 9);
    answers("angle z", migthumo_from_angle_z(3, 1, 0, out, 9), MIGTHUMO_GIVEN);
    equal("angle z, its numbers", out, around_z, 9);
    answers("axis", migthumo_from_axis_angle(3, 0, 0, 1, 1, 0, out, 9), MIGTHUMO_GIVEN);
    equal("R9", out, around_z, 9);
    answers("axis, order 4", migthumo_from_axis_angle(4, 0, 0, 1, 1, 0, out, 16), MIGTHUMO_GIVEN);
    answers("angle z, order 4", migthumo_from_angle_z(4, 1, 0, space, 16), MIGTHUMO_GIVEN);
    equal("axis and angle z, order 4", out, space, 16);

    fill(out, 16);
    refuses("3 in 3", migthumo_embed(3, 3, counted, 9, out, 9), MIGTHUMO_ORDER, out, 16);
    refuses("2 in 5", migthumo_embed(2, 5, counted, 4, out, 16), MIGTHUMO_ORDER, out, 16);
    refuses("2 in 3, matrix of 5", migthumo_embed(2, 3, counted, 5, out, 9), MIGTHUMO_INPUT_LENGTH, out, 16);
    refuses("angle, output of 9", migthumo_from_angle(1, 0, out, 9), MIGTHUMO_OUTPUT_LENGTH, out, 16);
    refuses("angle x, order 2", migthumo_from_angle_x(2, 1, 0, out, 4), MIGTHUMO_ORDER, out, 16);
    refuses("angle y, order 5", migthumo_from_angle_y(5, 1, 0, out, 16), MIGTHUMO_ORDER, out, 16);
    refuses("angle z, output of 4", migthumo_from_angle_z(4, 1, 0, out, 4), MIGTHUMO_OUTPUT_LENGTH, out, 16);
    refuses("axis, output of 4", migthumo_from_axis_angle(3, 0, 0, 1, 1, 0, out, 4), MIGTHUMO_OUTPUT_LENGTH, out, 16);
}

/* The matrix has these numbers, column by column. */
static void holds(const char *what, const migthumo_matrix4 *m, const double *want)
{
    check(what, memcmp(m, want, sizeof *m) == 0);
}

/* Swaps of a matrix of order 4 in place. */
static void in_place(void)
{
    const double rows[16] = {4, 2, 3, 1, 8, 6, 7, 5, 12, 10, 11, 9, 16, 14, 15, 13};
    const double columns[16] = {1, 2, 3, 4, 9, 10, 11, 12, 5, 6, 7, 8, 13, 14, 15, 16};
    const double elements[16] = {1, 15, 3, 4, 5, 6, 7, 8, 9, 10, 11, 12, 13, 14, 2, 16};
    migthumo_matrix4 m;

    check("a record is 16 numbers", sizeof m == sizeof counted);
    memcpy(&m, counted, sizeof m);
    answers("rows in place", migthumo_swap_rows_mut(&m, 0, 3), MIGTHUMO_GIVEN);
    holds("rows in place, swapped", &m, rows);
    memcpy(&m, counted, sizeof m);
    answers("columns in place", migthumo_swap_columns_mut(&m, 1, 2), MIGTHUMO_GIVEN);
    holds("columns in place, swapped", &m, columns);
    memcpy(&m, counted, sizeof m);
    answers("elements in place", migthumo_swap_elements_mut(&m, 0, 1, 3, 2), MIGTHUMO_GIVEN);
    holds("elements in place, swapped", &m, elements);

    memcpy(&m, counted, sizeof m);
    answers("rows 4 and 4", migthumo_swap_rows_mut(&m, 4, 4), MIGTHUMO_FIRST_ROW);
    holds("rows 4 and 4, as it was", &m, counted);
    answers("columns 0 and 4", migthumo_swap_columns_mut(&m, 0, 4), MIGTHUMO_SECOND_COLUMN);
    holds("columns 0 and 4, as it was", &m, counted);
    answers("element at row 4", migthumo_swap_elements_mut(&m, 0, 0, 0, 4), MIGTHUMO_SECOND_ROW);
    holds("element at row 4, as it was", &m, counted);
}

/* The matrix without one column and one row. */
static void without(size_t order, const double *m, size_t column, size_t row, double *out)
{
    size_t c, r, i = 0;
    for (c = 0; c < order; c++)
        for (r = 0; r < order; r++)
            if (c != column && r != row)
                out[i++] = m[c * order + r];
}

/* The signed sum of whole entries, along row 0: the library's own, worked out apart. */
static int64_t signed_sum(size_t order, const double *m)
{
    double rest[9];
    int64_t sum = 0;
    size_t c;
    if (order == 1)
        return (int64_t)m[0];
    for (c = 0; c < order; c++) {
        without(order, m, c, 0, rest);
        sum += (c % 2 ? -1 : 1) * (int64_t)m[c * order] * signed_sum(order - 1, rest);
    }
    return sum;
}

/* What `undoable` = 1 entitles to, for one matrix. */
static void comes_back(const char *what, size_t order, const double *m)
{
    const double limit = order == 4 ? 64 : 32768;
    const double places[7] = {limit, -limit, 1 - limit, 0, limit - 1, -1, 17};
    const size_t length = order * order, many = 7 * order;
    double inverse[16] = {0}, out[16] = {0}, identity[16] = {0}, quotients[16] = {0}, rest[9] = {0};
    double vectors[28] = {0}, there[28] = {0}, back[28] = {0};
    uint8_t flag[1] = {99};
    int64_t sum[1] = {99}, cofactor;
    size_t c, r, i;

    answers(what, migthumo_undoable(order, m, length, flag, 1), MIGTHUMO_GIVEN);
    check(what, flag[0] == 1);
    answers(what, migthumo_signed_sum(order, m, length, sum, 1), MIGTHUMO_GIVEN);
    check(what, sum[0] == signed_sum(order, m));

    answers(what, migthumo_invert(order, m, length, inverse, length), MIGTHUMO_GIVEN);
    for (c = 0; c < order; c++) {
        identity[c * order + c] = 1;
        for (r = 0; r < order; r++) {
            without(order, m, r, c, rest);
            cofactor = ((c + r) % 2 ? -1 : 1) * signed_sum(order - 1, rest);
            quotients[c * order + r] = (double)cofactor / (double)sum[0];
        }
    }
    equal(what, inverse, quotients, length);
    answers(what, migthumo_product(order, m, length, inverse, length, out, length), MIGTHUMO_GIVEN);
    equal(what, out, identity, length);
    answers(what, migthumo_product(order, inverse, length, m, length, out, length), MIGTHUMO_GIVEN);
    equal(what, out, identity, length);

    for (i = 0; i < many; i++)
        vectors[i] = places[(i + i / 7) % 7];
    answers(what, migthumo_move_vectors(order, m, length, vectors, many, there, many), MIGTHUMO_GIVEN);
    answers(what, migthumo_move_vectors(order, inverse, length, there, many, back, many), MIGTHUMO_GIVEN);
    equal(what, back, vectors, many);
    answers(what, migthumo_move_vectors(order, inverse, length, vectors, many, there, many), MIGTHUMO_GIVEN);
    answers(what, migthumo_move_vectors(order, m, length, there, many, back, many), MIGTHUMO_GIVEN);
    equal(what, back, vectors, many);
}

/* Matrices that come back, and one in sixty-fourths. */
static void undone(void)
{
    const double eight[4] = {6, 4, 4, 4}, largest[4] = {1024, 1023, 1023, 1022}, mirrored[4] = {0, 64, 64, 0};
    const double turned[9] = {0, 1, 0, -1, 0, 0, 1000, -1024, 1}, full[9] = {1, 1, 1, 1, 2, 3, 1, 3, 6};
    const double sixty_fourths[9] = {32, 0, 0, 0, 32, 0, 320, 640, 1};
    const double cycle[16] = {0, 1, 0, 0, 0, 0, 1, 0, 0, 0, 0, 1, 2, 0, 0, 0};
    const double slant[16] = {1024, 0, 0, 0, 1023, -512, 0, 0, -1024, 1021, 2, 0, 1024, 7, -1024, 1};
    const double point[2] = {4, 6}, moved[2] = {7 * 64, 13 * 64};
    double out[2] = {0};

    comes_back("a sum of 8", 2, eight);
    comes_back("entries near 1024", 2, largest);
    comes_back("a mirror in sixty-fourths", 2, mirrored);
    comes_back("a quarter turn with an offset", 3, turned);
    comes_back("a full matrix", 3, full);
    comes_back("half the size, in sixty-fourths", 3, sixty_fourths);
    comes_back("a cycle", 4, cycle);
    comes_back("a slant", 4, slant);

    /* Half of 4 and 5 more, half of 6 and 10 more. */
    answers("sixty-fourths", migthumo_move_points(3, sixty_fourths, 9, point, 2, out, 2), MIGTHUMO_GIVEN);
    equal("sixty-fourths, moved", out, moved, 2);
}

/* The functions over slices of doubles: those that take n*n numbers twice, once and never, and the moves. */
enum function {
    PRODUCT, ADD, SUBTRACT,
    DETERMINANT, INVERT, SCALE, DIVIDE, SCALE_BY, DIVIDE_BY, NEGATE, TRANSPOSE, ROW, DIAGONAL, SWAP_ROWS, SWAP_COLUMNS,
    SWAP_ELEMENTS, EMBED,
    FROM_ANGLE, FROM_ANGLE_X, FROM_ANGLE_Y, FROM_ANGLE_Z, FROM_AXIS_ANGLE,
    MOVE_VECTORS, MOVE_POINTS
};

/* What is known of each: how many inputs it has, its orders, and the length of its output, by the order. */
static const struct {
    const char *name;
    unsigned inputs;
    size_t first, last, lengths[5];
} functions[] = {
    {"product", 2, 2, 4, {0, 0, 4, 9, 16}}, {"sum", 2, 2, 4, {0, 0, 4, 9, 16}},
    {"difference", 2, 2, 4, {0, 0, 4, 9, 16}}, {"determinant", 1, 2, 4, {0, 0, 1, 1, 1}},
    {"inverse", 1, 2, 4, {0, 0, 4, 9, 16}}, {"scale", 1, 2, 4, {0, 0, 4, 9, 16}},
    {"divide", 1, 2, 4, {0, 0, 4, 9, 16}}, {"scale by", 1, 2, 4, {0, 0, 4, 9, 16}},
    {"divide by", 1, 2, 4, {0, 0, 4, 9, 16}}, {"negate", 1, 2, 4, {0, 0, 4, 9, 16}},
    {"transpose", 1, 2, 4, {0, 0, 4, 9, 16}}, {"row", 1, 2, 4, {0, 0, 2, 3, 4}},
    {"diagonal", 1, 2, 4, {0, 0, 2, 3, 4}}, {"rows", 1, 2, 4, {0, 0, 4, 9, 16}},
    {"columns", 1, 2, 4, {0, 0, 4, 9, 16}}, {"elements", 1, 2, 4, {0, 0, 4, 9, 16}},
    {"embed", 1, 2, 3, {0, 0, 9, 16, 0}}, {"angle", 0, 2, 2, {0, 0, 4, 0, 0}},
    {"angle x", 0, 3, 4, {0, 0, 0, 9, 16}}, {"angle y", 0, 3, 4, {0, 0, 0, 9, 16}},
    {"angle z", 0, 3, 4, {0, 0, 0, 9, 16}}, {"axis", 0, 3, 4, {0, 0, 0, 9, 16}},
    {"vectors", 2, 2, 4, {0, 0, 4, 6, 8}}, {"points", 2, 3, 4, {0, 0, 0, 4, 6}}
};

/* Calls one of them, with what it takes of this. */
static uint32_t call(enum function f, size_t n, const double *a, size_t a_length, const double *b, size_t b_length,
                     double *out, size_t length)
{
    switch (f) {
    case PRODUCT: return migthumo_product(n, a, a_length, b, b_length, out, length);
    case ADD: return migthumo_add(n, a, a_length, b, b_length, out, length);
    case SUBTRACT: return migthumo_subtract(n, a, a_length, b, b_length, out, length);
    case DETERMINANT: return migthumo_determinant(n, a, a_length, out, length);
    case INVERT: return migthumo_invert(n, a, a_length, out, length);
    case SCALE: return migthumo_scale(n, 3, a, a_length, out, length);
    case DIVIDE: return migthumo_divide(n, 3, a, a_length, out, length);
    case SCALE_BY: return migthumo_scale_by(n, a, a_length, 3, out, length);
    case DIVIDE_BY: return migthumo_divide_by(n, a, a_length, 3, out, length);
    case NEGATE: return migthumo_negate(n, a, a_length, out, length);
    case TRANSPOSE: return migthumo_transpose(n, a, a_length, out, length);
    case ROW: return migthumo_row(n, 1, a, a_length, out, length);
    case DIAGONAL: return migthumo_diagonal(n, a, a_length, out, length);
    case SWAP_ROWS: return migthumo_swap_rows(n, 0, 1, a, a_length, out, length);
    case SWAP_COLUMNS: return migthumo_swap_columns(n, 0, 1, a, a_length, out, length);
    case SWAP_ELEMENTS: return migthumo_swap_elements(n, 0, 0, 1, 1, a, a_length, out, length);
    case EMBED: return migthumo_embed(n, n + 1, a, a_length, out, length);
    case FROM_ANGLE: return migthumo_from_angle(0, 1, out, length);
    case FROM_ANGLE_X: return migthumo_from_angle_x(n, 0, 1, out, length);
    case FROM_ANGLE_Y: return migthumo_from_angle_y(n, 0, 1, out, length);
    case FROM_ANGLE_Z: return migthumo_from_angle_z(n, 0, 1, out, length);
    case FROM_AXIS_ANGLE: return migthumo_from_axis_angle(n, 0, 0, 1, 0, 1, out, length);
    case MOVE_VECTORS: return migthumo_move_vectors(n, a, a_length, b, b_length, out, length);
    case MOVE_POINTS: return migthumo_move_points(n, a, a_length, b, b_length, out, length);
    }
    return 99;
}

/* Every function over doubles, at every order, with each length right, one short, one long, and 0 with null. */
static void lengths(void)
{
    /* Its first 4, 9 and 16 numbers are matrices that have an inverse. */
    static const double m[17] = {1, 2, 3, 5, 7, 11, 13, 17, 19, 23, 29, 31, 37, 41, 43, 47, 53};
    double out[17] = {0};
    unsigned i;
    size_t n, a, b, length;

    for (i = 0; i < sizeof functions / sizeof *functions; i++) {
        const enum function f = (enum function)i;
        const char *name = functions[i].name;
        for (n = functions[i].first; n <= functions[i].last; n++) {
            length = functions[i].lengths[n];
            a = n * n;
            b = f < MOVE_VECTORS ? a : length;
            answers(name, call(f, n, m, a, m, b, out, length), MIGTHUMO_GIVEN);
            fill(out, 17);
            refuses(name, call(f, n, m, a, m, b, out, length - 1), MIGTHUMO_OUTPUT_LENGTH, out, 17);
            refuses(name, call(f, n, m, a, m, b, out, length + 1), MIGTHUMO_OUTPUT_LENGTH, out, 17);
            refuses(name, call(f, n, m, a, m, b, NULL, 0), MIGTHUMO_OUTPUT_LENGTH, out, 17);
            if (functions[i].inputs >= 1) {
                refuses(name, call(f, n, m, a - 1, m, b, out, length), MIGTHUMO_INPUT_LENGTH, out, 17);
                refuses(name, call(f, n, m, a + 1, m, b, out, length), MIGTHUMO_INPUT_LENGTH, out, 17);
                refuses(name, call(f, n, NULL, 0, m, b, out, length), MIGTHUMO_INPUT_LENGTH, out, 17);
                refuses(name, call(f, n, NULL, 0, NULL, 0, NULL, 0), MIGTHUMO_INPUT_LENGTH, out, 17);
            }
            if (functions[i].inputs >= 2) {
                refuses(name, call(f, n, m, a, m, b - 1, out, length), MIGTHUMO_INPUT_LENGTH, out, 17);
                refuses(name, call(f, n, m, a, m, b + 1, out, length), MIGTHUMO_INPUT_LENGTH, out, 17);
            }
            if (functions[i].inputs >= 2 && f < MOVE_VECTORS)
                refuses(name, call(f, n, m, a, NULL, 0, out, length), MIGTHUMO_INPUT_LENGTH, out, 17);
            if (f >= MOVE_VECTORS) {
                refuses(name, call(f, n, m, a, NULL, 0, out, length), MIGTHUMO_OUTPUT_LENGTH, out, 17);
                refuses(name, call(f, n, m, a, NULL, 0, NULL, 0), MIGTHUMO_GIVEN, out, 17);
            }
        }
        fill(out, 17);
        if (f != FROM_ANGLE) {
            refuses(name, call(f, functions[i].first - 1, NULL, 0, NULL, 0, NULL, 0), MIGTHUMO_ORDER, out, 17);
            refuses(name, call(f, functions[i].last + 1, NULL, 0, NULL, 0, NULL, 0), MIGTHUMO_ORDER, out, 17);
        }
    }
}

/* The two functions of the exact engine, likewise. */
static void exact_lengths(void)
{
    int64_t sum[2] = {99, 99};
    uint8_t flag[2] = {99, 99};
    size_t n;

    for (n = 2; n <= 4; n++) {
        answers("sum, output of two", migthumo_signed_sum(n, counted, n * n, sum, 2), MIGTHUMO_OUTPUT_LENGTH);
        answers("sum, output null", migthumo_signed_sum(n, counted, n * n, NULL, 0), MIGTHUMO_OUTPUT_LENGTH);
        answers("sum, matrix short", migthumo_signed_sum(n, counted, n * n - 1, sum, 1), MIGTHUMO_INPUT_LENGTH);
        answers("sum, matrix null", migthumo_signed_sum(n, NULL, 0, sum, 1), MIGTHUMO_INPUT_LENGTH);
        answers("verdict, output of two", migthumo_undoable(n, counted, n * n, flag, 2), MIGTHUMO_OUTPUT_LENGTH);
        answers("verdict, output null", migthumo_undoable(n, counted, n * n, NULL, 0), MIGTHUMO_OUTPUT_LENGTH);
        answers("verdict, matrix short", migthumo_undoable(n, counted, n * n - 1, flag, 1), MIGTHUMO_INPUT_LENGTH);
        answers("verdict, matrix null", migthumo_undoable(n, NULL, 0, flag, 1), MIGTHUMO_INPUT_LENGTH);
    }
    answers("sum, order 5", migthumo_signed_sum(5, NULL, 0, NULL, 0), MIGTHUMO_ORDER);
    answers("verdict, order 1", migthumo_undoable(1, NULL, 0, NULL, 0), MIGTHUMO_ORDER);
    check("sums, not written", sum[0] == 99 && sum[1] == 99);
    check("verdicts, not written", flag[0] == 99 && flag[1] == 99);
}

/* An answer with its number and its place, and with both as the macros give them where a constant is asked for. */
#define ANSWER(answer, number, place) {answer, number, place, MIGTHUMO_NUMBER(answer), MIGTHUMO_PLACE(answer)}

/* Every answer, by its name and by its number, and one that is none. */
static const struct {
    uint32_t answer, number, place, constant_number, constant_place;
} all_answers[] = {
    ANSWER(MIGTHUMO_GIVEN, 0, 0), ANSWER(MIGTHUMO_SINGULAR, 2, 0), ANSWER(MIGTHUMO_INPUT_LENGTH, 3, 0),
    ANSWER(MIGTHUMO_OUTPUT_LENGTH, 4, 0), ANSWER(MIGTHUMO_ORDER, 5, 0), ANSWER(MIGTHUMO_NOT_WHOLE, 6, 0),
    ANSWER(MIGTHUMO_FIRST_COLUMN, 11, 1), ANSWER(MIGTHUMO_FIRST_ROW, 12, 1),
    ANSWER(MIGTHUMO_SECOND_COLUMN, 11, 2), ANSWER(MIGTHUMO_SECOND_ROW, 12, 2),
    ANSWER(0, 0, 0), ANSWER(2, 2, 0), ANSWER(3, 3, 0), ANSWER(4, 4, 0), ANSWER(5, 5, 0), ANSWER(6, 6, 0),
    ANSWER(11, 11, 1), ANSWER(12, 12, 1), ANSWER(267, 11, 2), ANSWER(268, 12, 2), ANSWER(20, 20, 0),
    ANSWER(MIGTHUMO_RECORD_ENDS, 20, 0), ANSWER(MIGTHUMO_SCALE_FLAGS, 21, 0), ANSWER(MIGTHUMO_POINT_NUMBERS, 22, 0),
    ANSWER(21, 21, 0), ANSWER(22, 22, 0), ANSWER(99, 99, 0)
};

/* The number and the place of every answer: as a constant, as what a function answers, as an int and as the enum. */
static void numbers_and_places(void)
{
    size_t i;
    for (i = 0; i < sizeof all_answers / sizeof *all_answers; i++) {
        const uint32_t answer = all_answers[i].answer, number = all_answers[i].number, place = all_answers[i].place;
        const int plain = (int)answer;
        const enum migthumo_answer named = (enum migthumo_answer)answer;
        answers("number, a constant", all_answers[i].constant_number, number);
        answers("place, a constant", all_answers[i].constant_place, place);
        answers("number", MIGTHUMO_NUMBER(answer), number);
        answers("place", MIGTHUMO_PLACE(answer), place);
        check("number of an int", MIGTHUMO_NUMBER(plain) == (int)number);
        check("place of an int", MIGTHUMO_PLACE(plain) == (int)place);
        answers("number of the enum", (uint32_t)MIGTHUMO_NUMBER(named), number);
        answers("place of the enum", MIGTHUMO_PLACE(named), place);
    }
    answers("number, not a name alone", MIGTHUMO_NUMBER(8 | 256 | 3), 11);
    answers("place, not a name alone", MIGTHUMO_PLACE(8 | 256 | 3), 2);
}

/* The entries of the table of places that the library exports, and how many numbers each takes. */
static const struct {
    const char *name;
    enum function function;
    size_t numbers;
} entries[] = {{"row", ROW, 1}, {"swap_rows", SWAP_ROWS, 2}, {"swap_columns", SWAP_COLUMNS, 2},
               {"swap_elements", SWAP_ELEMENTS, 4}};

/* How many there are, how many lines of the table they have together, and the most numbers that one takes. */
enum { ENTRIES = sizeof entries / sizeof *entries, LINES = 2 + 4 + 4 + 16, NUMBERS = 4 };

/* Calls one of them at these numbers, by value. */
static uint32_t call_at(enum function f, size_t n, const size_t *at, const double *m, size_t m_length,
                        double *out, size_t length)
{
    switch (f) {
    case ROW: return migthumo_row(n, at[0], m, m_length, out, length);
    case SWAP_ROWS: return migthumo_swap_rows(n, at[0], at[1], m, m_length, out, length);
    case SWAP_COLUMNS: return migthumo_swap_columns(n, at[0], at[1], m, m_length, out, length);
    case SWAP_ELEMENTS: return migthumo_swap_elements(n, at[0], at[1], at[2], at[3], m, m_length, out, length);
    default: return 99;
    }
}

/* Calls one of the swaps at these numbers, in place. */
static uint32_t call_mut(enum function f, const size_t *at, migthumo_matrix4 *m)
{
    switch (f) {
    case SWAP_ROWS: return migthumo_swap_rows_mut(m, at[0], at[1]);
    case SWAP_COLUMNS: return migthumo_swap_columns_mut(m, at[0], at[1]);
    case SWAP_ELEMENTS: return migthumo_swap_elements_mut(m, at[0], at[1], at[2], at[3]);
    default: return 99;
    }
}

/* Exchanges two numbers. */
static void exchange(double *a, double *b)
{
    const double kept = *a;
    *a = *b;
    *b = kept;
}

/* What an entry writes at numbers that are below the order: the library's own, worked out apart. */
static void write_at(enum function f, size_t n, const size_t *at, const double *m, double *out)
{
    size_t i;
    if (f != ROW)
        memcpy(out, m, n * n * sizeof *m);
    if (f == SWAP_ELEMENTS)
        exchange(&out[at[0] * n + at[1]], &out[at[2] * n + at[3]]);
    for (i = 0; i < n; i++) {
        if (f == ROW)
            out[i] = m[i * n + at[0]];
        if (f == SWAP_ROWS)
            exchange(&out[i * n + at[0]], &out[i * n + at[1]]);
        if (f == SWAP_COLUMNS)
            exchange(&out[at[0] * n + i], &out[at[1] * n + i]);
    }
}

/* One call by value: it answers this, and the output holds what is worked out apart, or what it held before. */
static void by_value(const char *what, enum function f, size_t n, const size_t *at, uint32_t answer)
{
    const size_t length = f == ROW ? n : n * n;
    double out[17], want[17];
    fill(out, 17);
    fill(want, 17);
    if (answer == MIGTHUMO_GIVEN)
        write_at(f, n, at, counted, want);
    answers(what, call_at(f, n, at, counted, n * n, out, length), answer);
    same_bits(what, out, want, 17);

    /* Whatever the numbers are, the order and the lengths come first. */
    fill(out, 17);
    refuses(what, call_at(f, 1, at, counted, n * n, out, length), MIGTHUMO_ORDER, out, 17);
    refuses(what, call_at(f, n, at, counted, n * n - 1, out, length - 1), MIGTHUMO_INPUT_LENGTH, out, 17);
    refuses(what, call_at(f, n, at, counted, n * n, out, length + 1), MIGTHUMO_OUTPUT_LENGTH, out, 17);
}

/* One call in place, likewise. */
static void lent(const char *what, enum function f, const size_t *at, uint32_t answer)
{
    double want[16];
    migthumo_matrix4 m;
    memcpy(&m, counted, sizeof m);
    memcpy(want, counted, sizeof want);
    if (answer == MIGTHUMO_GIVEN)
        write_at(f, 4, at, counted, want);
    answers(what, call_mut(f, at, &m), answer);
    holds(what, &m, want);
}

/* A line of the table, for one order. */
struct line {
    enum function f;
    size_t numbers, order;
    const char *what, *pattern;
    uint32_t answer;
};

/* Calls the entry with every choice of numbers that fits the pattern, once `chosen` of them are chosen. */
static void choose(const struct line *line, size_t *at, size_t chosen)
{
    const size_t n = line->order, below[2] = {0, n - 1}, not_below[3] = {n, n + 1, SIZE_MAX};
    const int b = line->pattern[chosen] == 'b';
    size_t i;
    if (chosen == line->numbers) {
        by_value(line->what, line->f, n, at, line->answer);
        if (n == 4 && line->f != ROW)
            lent(line->what, line->f, at, line->answer);
        return;
    }
    for (i = 0; i < (b ? 2u : 3u); i++) {
        at[chosen] = b ? below[i] : not_below[i];
        choose(line, at, chosen + 1);
    }
}

/* The pattern as a number with a bit for each b, or -1 where it is not one of so many numbers. */
static int pattern_number(const char *pattern, size_t numbers)
{
    size_t i;
    int number = 0;
    for (i = 0; i < numbers && (pattern[i] == 'b' || pattern[i] == 'n'); i++)
        number = 2 * number + (pattern[i] == 'b');
    return i == numbers && pattern[i] == '\0' ? number : -1;
}

/* Which patterns of each entry were run, a bit for each, and how many lines. */
struct run {
    unsigned seen[ENTRIES], lines;
};

/* Runs a line of the table at every order; whether it reads as a line of a known entry that was not run before, with 0
   only where every number is below the order. */
static int run_line(const char *text, struct run *run)
{
    char name[16], pattern[8], what[80];
    struct line line = {ROW, 0, 2, what, pattern, 0};
    size_t at[NUMBERS] = {0}, entry = 0;
    int end = 0, number;

    if (sscanf(text, "%15s %7s %9" SCNu32 " %n", name, pattern, &line.answer, &end) != 3 || text[end] != '\0')
        return 0;
    if (strcmp(name, "truncate_n") == 0 || strcmp(name, "cofactor") == 0)
        return 1;
    while (entry < ENTRIES && strcmp(name, entries[entry].name) != 0)
        entry++;
    if (entry == ENTRIES)
        return 0;
    line.f = entries[entry].function;
    line.numbers = entries[entry].numbers;
    number = pattern_number(pattern, line.numbers);
    if (number < 0 || run->seen[entry] & 1u << number || (line.answer == MIGTHUMO_GIVEN && strchr(pattern, 'n')))
        return 0;
    run->seen[entry] |= 1u << number;
    run->lines++;
    for (; line.order <= 4; line.order++) {
        snprintf(what, sizeof what, "%s %s at order %u", name, pattern, (unsigned)line.order);
        choose(&line, at, 0);
    }
    return 1;
}

/* Runs every line of the table of places but those of entries that are not exported. */
static void table_of_places(const char *path)
{
    struct run run = {{0}, 0};
    char line[256];
    FILE *table = fopen(path, "r");

    check("the table of places can be opened", table != NULL);
    if (table == NULL) {
        printf("  %s\n", path);
        return;
    }
    while (fgets(line, sizeof line, table) != NULL) {
        const int good = line[0] == '#' || run_line(line, &run);
        check("a line of the table of places can be run", good);
        if (!good)
            printf("  %s: %.*s\n", path, (int)strcspn(line, "\n"), line);
    }
    check("the table of places can be read", !ferror(table));
    check("every line of the table of places was run", run.lines == LINES);
    if (run.lines != LINES)
        printf("  %u lines, not %u\n", run.lines, (unsigned)LINES);
    fclose(table);
}

/* Equal numbers below the order change nothing. */
static void equal_numbers(void)
{
    double out[16];
    migthumo_matrix4 m;
    size_t n, c, r;

    memcpy(&m, counted, sizeof m);
    for (n = 2; n <= 4; n++)
        for (c = 0; c < n; c++) {
            fill(out, 16);
            answers("a row and itself", migthumo_swap_rows(n, c, c, counted, n * n, out, n * n), MIGTHUMO_GIVEN);
            same_bits("a row and itself, as it was", out, counted, n * n);
            fill(out, 16);
            answers("a column and itself", migthumo_swap_columns(n, c, c, counted, n * n, out, n * n), MIGTHUMO_GIVEN);
            same_bits("a column and itself, as it was", out, counted, n * n);
            for (r = 0; r < n; r++) {
                fill(out, 16);
                answers("an element and itself", migthumo_swap_elements(n, c, r, c, r, counted, n * n, out, n * n),
                        MIGTHUMO_GIVEN);
                same_bits("an element and itself, as it was", out, counted, n * n);
                answers("an element and itself in place", migthumo_swap_elements_mut(&m, c, r, c, r), MIGTHUMO_GIVEN);
                holds("an element and itself in place, as it was", &m, counted);
            }
            answers("a row and itself in place", migthumo_swap_rows_mut(&m, c, c), MIGTHUMO_GIVEN);
            holds("a row and itself in place, as it was", &m, counted);
            answers("a column and itself in place", migthumo_swap_columns_mut(&m, c, c), MIGTHUMO_GIVEN);
            holds("a column and itself in place, as it was", &m, counted);
        }
}

/* How many bytes a line of the table of records has at most, and how many stand before and after them in their room.
   Those are 0: taken for flags they are point numbers, and taken for the rest of a record they are numbers. */
enum { RECORD_BYTES = 20, AROUND = 20 };

/* A line of the table of records: what is handed in, the answer, and what is written where that is 0. */
struct record {
    char name[64];
    uint8_t room[AROUND + RECORD_BYTES + AROUND];
    size_t length, at, head[3];
    uint32_t answer;
    double m[9];
};

/* One call with so many of the bytes, and with outputs of these lengths. It answers this; where that is 0 the outputs
   hold what the record has, and all else in them is as it was, bit for bit. A slice of length 0 is null. */
static void reads(const struct record *record, size_t length, size_t head_length, size_t m_length, uint32_t answer)
{
    const uint8_t *bytes = length == 0 ? NULL : record->room + AROUND;
    size_t head[4], want_head[4];
    double m[10], want_m[10];
    char what[200];

    snprintf(what, sizeof what, "record %s, its first %u bytes, outputs of %u and %u", record->name, (unsigned)length,
             (unsigned)head_length, (unsigned)m_length);
    /* Every bit is set: the largest numbers, and NaNs. */
    memset(head, 0xff, sizeof head);
    memset(m, 0xff, sizeof m);
    memcpy(want_head, head, sizeof head);
    memcpy(want_m, m, sizeof m);
    if (answer == MIGTHUMO_GIVEN) {
        memcpy(want_head, record->head, sizeof record->head);
        memcpy(want_m, record->m, sizeof record->m);
    }
    answers(what, migthumo_read_component(bytes, length, record->at, head_length == 0 ? NULL : head, head_length,
                                          m_length == 0 ? NULL : m, m_length), answer);
    check(what, memcmp(head, want_head, sizeof head) == 0);
    same_bits(what, m, want_m, 10);
}

/* What is answered where only so many of the bytes are handed in: 20, unless they hold the flags word of a record that
   is refused for it, or a whole record. */
static uint32_t answer_cut(const struct record *record, size_t length)
{
    const size_t needed = record->answer == MIGTHUMO_GIVEN ? record->head[2] : record->at + 2;
    return length < needed ? (uint32_t)MIGTHUMO_RECORD_ENDS : record->answer;
}

/* Takes bytes that are written two digits each, or - for none; whether they are. */
static int take_bytes(const char *text, struct record *record)
{
    static const char digits[] = "0123456789abcdef";
    uint8_t *bytes = record->room + AROUND;
    size_t i;
    for (i = 0; text[i] != '\0' && strcmp(text, "-") != 0; i++) {
        const char *digit = strchr(digits, text[i]);
        if (digit == NULL || i == 2 * RECORD_BYTES)
            return 0;
        bytes[i / 2] = (uint8_t)(bytes[i / 2] * 16 + (digit - digits));
    }
    record->length = i / 2;
    return i % 2 == 0;
}

/* Takes what is written where the answer is 0; whether there is that and no more. */
static int take_outputs(const char *text, struct record *record)
{
    unsigned flags, index;
    int dx, dy, xscale, scale01, scale10, yscale, end = 0;
    double *m = record->m;

    if (sscanf(text, "0x%4x %5u %20zu %6d %6d %6d %6d %6d %6d %n", &flags, &index, &record->head[2], &dx, &dy, &xscale,
               &scale01, &scale10, &yscale, &end) != 9 || text[end] != '\0')
        return 0;
    record->head[0] = flags, record->head[1] = index;
    m[0] = xscale / 16384.0, m[1] = scale01 / 16384.0, m[2] = 0;
    m[3] = scale10 / 16384.0, m[4] = yscale / 16384.0, m[5] = 0;
    m[6] = dx, m[7] = dy, m[8] = 1;
    return 1;
}

/* The answers of the table of records, and how many lines each has. */
struct records {
    uint32_t answer;
    unsigned lines;
};

/* Runs a line of the table of records with all its bytes, with fewer, and with wrong lengths of the outputs; whether it
   reads as a line with an answer that is known. Of the bytes one digit more is read than there may be. */
static int run_record(const char *text, struct records *records)
{
    static const size_t head_lengths[4] = {3, 0, 2, 4}, m_lengths[4] = {9, 0, 8, 10};
    struct record record;
    char bytes[2 * RECORD_BYTES + 2];
    size_t i = 0;
    int end = 0;

    memset(&record, 0, sizeof record);
    if (sscanf(text, "%63s %20zu %41s %9" SCNu32 " %n", record.name, &record.at, bytes, &record.answer, &end) != 4)
        return 0;
    while (i < 4 && records[i].answer != record.answer)
        i++;
    if (i == 4 || !take_bytes(bytes, &record))
        return 0;
    if (record.answer == MIGTHUMO_GIVEN ? !take_outputs(text + end, &record) : text[end] != '\0')
        return 0;
    records[i].lines++;

    reads(&record, record.length, 3, 9, record.answer);
    for (i = 0; i < record.length; i++)
        reads(&record, i, 3, 9, answer_cut(&record, i));
    /* Whatever the bytes are, the outputs' lengths come first. */
    for (i = 1; i < 16; i++)
        reads(&record, record.length, head_lengths[i / 4], m_lengths[i % 4], MIGTHUMO_OUTPUT_LENGTH);
    return 1;
}

/* Runs every line of the table of records. */
static void table_of_records(const char *path)
{
    struct records records[4] = {
        {MIGTHUMO_GIVEN, 0}, {MIGTHUMO_RECORD_ENDS, 0}, {MIGTHUMO_SCALE_FLAGS, 0}, {MIGTHUMO_POINT_NUMBERS, 0}
    };
    char line[256];
    FILE *table = fopen(path, "r");
    size_t i;

    check("the table of records can be opened", table != NULL);
    if (table == NULL) {
        printf("  %s\n", path);
        return;
    }
    while (fgets(line, sizeof line, table) != NULL) {
        const int good = line[0] == '#' || run_record(line, records);
        check("a line of the table of records can be run", good);
        if (!good)
            printf("  %s: %.*s\n", path, (int)strcspn(line, "\n"), line);
    }
    check("the table of records can be read", !ferror(table));
    fclose(table);
    for (i = 0; i < 4; i++)
        check("the table of records has lines of each answer", records[i].lines > 0);
}

/* A record far from the start, and its matrix: a point of the borrowed glyph is moved, and moved back. */
static void components(void)
{
    /* Another follows; half the size, 10 to the right and 20 down. */
    static const uint8_t record[10] = {0x00, 0x2b, 0x00, 0x41, 0x00, 0x0a, 0xff, 0xec, 0x20, 0x00};
    static uint8_t bytes[70020];
    const double point[2] = {100, 200}, moved[2] = {60, 80};
    size_t head[3] = {0};
    double m[9] = {0}, inverse[9] = {0}, out[2] = {0}, back[2] = {0};
    uint8_t flag[1] = {99};

    memcpy(bytes + 70000, record, sizeof record);
    answers("far record", migthumo_read_component(bytes, sizeof bytes, 70000, head, 3, m, 9), MIGTHUMO_GIVEN);
    check("far record, its head", head[0] == 0x002b && head[1] == 65 && head[2] == 70010);
    answers("far record, its end", migthumo_read_component(bytes, 70009, 70000, head, 3, m, 9), MIGTHUMO_RECORD_ENDS);
    answers("its matrix", migthumo_move_points(3, m, 9, point, 2, out, 2), MIGTHUMO_GIVEN);
    equal("its matrix, a point moved", out, moved, 2);
    answers("its inverse", migthumo_invert(3, m, 9, inverse, 9), MIGTHUMO_GIVEN);
    answers("its inverse", migthumo_move_points(3, inverse, 9, out, 2, back, 2), MIGTHUMO_GIVEN);
    equal("its inverse, the point moved back", back, point, 2);
    answers("a half is not whole", migthumo_undoable(3, m, 9, flag, 1), MIGTHUMO_NOT_WHOLE);
}

int main(int argc, char **argv)
{
    check("the header's version is the library's", migthumo_version() == MIGTHUMO_VERSION);
    check("the header's version", MIGTHUMO_VERSION == 2);
    moves();
    inverses();
    arithmetic();
    exact();
    undone();
    places();
    builders();
    in_place();
    lengths();
    exact_lengths();
    numbers_and_places();
    table_of_places(argc > 1 ? argv[1] : "include/test/places.txt");
    equal_numbers();
    table_of_records(argc > 2 ? argv[2] : "include/test/records.txt");
    components();
    printf("%u checks, %u failed\n", checks, failures);
    return failures != 0;
}

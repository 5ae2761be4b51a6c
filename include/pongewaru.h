/* Pongewaru for C and C++: real roots of polynomials up to degree 4, quadratics, crank equations, pin contacts, formulas and hall files, as proved.
 * docs/CONTRACTS.md says what is proved of each function, and docs/HALL-FILE.md what a hall file is.
 *
 * Linking: `.ci/run` makes target/staticlib/libpongewaru.a, which holds all functions of the first part; it needs the C library alone.
 *
 * In: any numbers and any bytes. No function requires anything of them, allocates, keeps anything between calls, or reads or writes what was not lent to it.
 * A pair `p, p_len` is lent bytes and how many they are; it may be NULL, 0. `out` overlaps nothing else that is lent. A double in lent bytes has eight of them,
 * the lowest first, at any alignment: on a machine of that byte order an array of double, or a struct below, is lent as it stands.
 *
 * Out: a function with `out` stores a whole answer from its start on and returns the answer's size, the `sizeof` of the struct that is named beside it; or it
 * stores nothing and returns PONGEWARU_TOO_SHORT or the number of a refusal, all of which are below every size. Bytes behind the answer stay as they are.
 */
#ifndef PONGEWARU_H
#define PONGEWARU_H

#include <stdbool.h>
#include <stddef.h>
#include <stdint.h>

#ifdef __cplusplus
extern "C" {
#endif

/* ---- What is returned in place of a size */

/* `out_len` is below the answer's size: lend the struct. */
#define PONGEWARU_TOO_SHORT 0

/* A number handed in is not finite. */
#define PONGEWARU_NOT_FINITE 1

/* No coefficient but the first is other than 0: no equation is left. */
#define PONGEWARU_TOO_FEW 2

/* A coefficient behind the fifth is other than 0: the degree is above 4. */
#define PONGEWARU_TOO_MANY 3

/* A reply where nothing was asked; not returned, but in `pongewaru_shown.number`. */
#define PONGEWARU_NOTHING_ASKED 4

/* A number of the answer, or of the quartic made of a crank equation, is not finite. */
#define PONGEWARU_ANSWER_NOT_FINITE 5

/* In the lines of a listing alone: an unknown mark, a record cut off, a count above 32, a file above 65,536 bytes. */
#define PONGEWARU_UNKNOWN_MARK 6
#define PONGEWARU_CUT 7
#define PONGEWARU_COUNT_TOO_LARGE 8
#define PONGEWARU_FILE_TOO_LONG 9

/* Of a pin contact: a number handed in is not finite; R is not above 0; a coefficient made of them is not finite. */
#define PONGEWARU_RECORD_NOT_FINITE 10
#define PONGEWARU_NO_RADIUS 11
#define PONGEWARU_MADE_NOT_FINITE 12

/* Of a formula: the text is not a sum; a part of it has a degree above 4; a coefficient of a part is above 2^53 in size. */
#define PONGEWARU_NOT_A_SUM 13
#define PONGEWARU_DEGREE_TOO_HIGH 14
#define PONGEWARU_COEFFICIENT_TOO_LARGE 15

/* `coeffs_len` is no multiple of 8: the bytes are no whole doubles. */
#define PONGEWARU_CUT_DOUBLE 20

/* `text_len` is above 255: no record holds such a text. */
#define PONGEWARU_TEXT_TOO_LONG 21

/* ---- Answers, made of doubles alone: counts and numbers are whole */

/* 24 bytes: a crossing where the multiplicity is 1; else a brush where a yes, to a question or of a pin contact's own, helped to form the root; else flat. */
struct pongewaru_root {
    double place;
    double multiplicity;
    double kind;
};
#define PONGEWARU_CROSSING 0
#define PONGEWARU_BRUSH 1
#define PONGEWARU_FLAT 2

/* 112 bytes: `count` roots, 0 to 4, zeros behind the last; `systems`, 0 to 32: how many square systems were solved for them. */
struct pongewaru_list {
    double count;
    struct pongewaru_root root[4];
    double systems;
};

/* 136 bytes: what an inquiry shows. While `asks` is 1 it asks whether the curve touches at `place`; where it is 0, `place` is 0 and `list` is finished.
 * `list.systems` is the same whatever is replied; each call starts anew and solves so many. */
struct pongewaru_shown {
    double number; /* 0, or PONGEWARU_NOTHING_ASKED where there are more replies than questions */
    double asks;
    double place;
    struct pongewaru_list list;
};

/* 144 bytes: t = k * pi/4 + 2 * atan(u) for a place u. */
struct pongewaru_crank_shown {
    double k; /* 0 to 7 */
    struct pongewaru_shown shown;
};

/* 24 bytes: `first` and `second` are NaN where there is no such place. */
struct pongewaru_solution {
    double number;
    double first;
    double second;
};
#define PONGEWARU_TWO 0
#define PONGEWARU_ONE 1
#define PONGEWARU_LINEAR 2
#define PONGEWARU_DEGENERATE 3
#define PONGEWARU_EMPTY 4

/* 48 bytes: k as above, and the quartic in u, the lowest power first. */
struct pongewaru_quartic {
    double k;
    double q[5];
};

/* 48 bytes: `count` coefficients, 0 to 5, the lowest power first, the last of them not 0; zeros behind it. */
struct pongewaru_coefficients {
    double count;
    double c[5];
};

/* No listing is longer. */
#define PONGEWARU_LISTING_MOST 524328

/* ---- The mode. A cubic with three real roots starts from the cosine and the sine of a third of an angle: with 0 for `sine` the sine is that of the exact
 * cosine, with every other number that of the rounded one. The functions of the first part without `sine` have 0. */
#define PONGEWARU_SINE_OF_EXACT 0
#define PONGEWARU_SINE_OF_ROUNDED 1

/* ---- First part: libpongewaru.a. A function `.._by` is the one before it, in the mode `sine`. */

/* The real roots of c0 + c1*x + c2*x^2 + .. for the doubles in `coeffs`, the lowest power first, as many as there are; a NaN or negative `tol` counts as 0.
 * Stores pongewaru_list; refuses 1, 2, 3, 20. */
uint64_t pongewaru_real_roots(const void *coeffs, size_t coeffs_len, double tol, void *out, size_t out_len);
uint64_t pongewaru_real_roots_by(uint32_t sine, const void *coeffs, size_t coeffs_len, double tol, void *out, size_t out_len);

/* The same, but asking whether a near contact touches. Call it without replies; while it asks, add a byte to `replies`, 0 for no, and call it again: it is
 * finished after three replies at most. Stores pongewaru_shown; refuses 1, 2, 3, 20. */
uint64_t pongewaru_inquire(const void *coeffs, size_t coeffs_len, double tol, const void *replies, size_t replies_len, void *out, size_t out_len);
uint64_t pongewaru_inquire_by(uint32_t sine, const void *coeffs, size_t coeffs_len, double tol, const void *replies, size_t replies_len, void *out,
    size_t out_len);

/* The same for a2*cos 2t + b2*sin 2t + c1*cos t + d1*sin t + e = 0. Stores pongewaru_crank_shown; refuses 1, 5, 2. */
uint64_t pongewaru_crank_inquire(double confusion, double a2, double b2, double c1, double d1, double e, const void *replies, size_t replies_len, void *out,
    size_t out_len);
uint64_t pongewaru_crank_inquire_by(uint32_t sine, double confusion, double a2, double b2, double c1, double d1, double e, const void *replies,
    size_t replies_len, void *out, size_t out_len);

/* The quartic that is solved for it. Stores pongewaru_quartic; refuses 1, 5. */
uint64_t pongewaru_crank_front(double a2, double b2, double c1, double d1, double e, void *out, size_t out_len);

/* The times t at which a ball at x0 + x1*t + x2*t^2, y0 + y1*t + y2*t^2 is r away from cx, cy; where it only comes near, it touches if it is so within
 * `confusion`. Stores pongewaru_list; refuses 10, 11, 12, 2. */
uint64_t pongewaru_pin_contact(double confusion, double x0, double x1, double x2, double y0, double y1, double y2, double cx, double cy, double r, void *out,
    size_t out_len);
uint64_t pongewaru_pin_contact_by(uint32_t sine, double confusion, double x0, double x1, double x2, double y0, double y1, double y2, double cx, double cy,
    double r, void *out, size_t out_len);

/* The real roots of a formula in t such as "(t-2)^2*(t+1)": sums of products of whole numbers, of t and of sums in round brackets, each to a power of one
 * digit. A NaN or negative `tol` counts as 0. Stores pongewaru_list; refuses 21, 13, 14, 15, 2. */
uint64_t pongewaru_formula_roots(const void *text, size_t text_len, double tol, void *out, size_t out_len);
uint64_t pongewaru_formula_roots_by(uint32_t sine, const void *text, size_t text_len, double tol, void *out, size_t out_len);

/* The polynomial that is solved for it, exactly. Stores pongewaru_coefficients; refuses 21, 13, 14, 15. */
uint64_t pongewaru_formula_coefficients(const void *text, size_t text_len, void *out, size_t out_len);

/* a*t^2 + b*t + c = 0. Stores pongewaru_solution; refuses 1, 5. */
uint64_t pongewaru_quadratic(double a, double b, double c, double confusion, double angular, void *out, size_t out_len);

/* The same without refusals, for any bits. Stores pongewaru_solution. */
uint64_t pongewaru_solve_quadratic(double a, double b, double c, double confusion, double angular, void *out, size_t out_len);

/* Where a*t^2 + b*t turns, -b/(2a); 0 where `a` is at most `angular` in size or the place is not finite. */
double pongewaru_quadratic_centre(double a, double b, double angular);

/* The solution with this number, `first` x and `second` y, each place t0 further; a number above 4 is taken for empty. Stores pongewaru_solution. */
uint64_t pongewaru_shifted(uint32_t n, double x, double y, double t0, void *out, size_t out_len);

/* The same solution, but one place, `vertex`, where it is two or empty, `vertex` is finite and `touches` is not 0. Stores pongewaru_solution. */
uint64_t pongewaru_touching_at(uint32_t n, double x, double y, double vertex, uint32_t touches, void *out, size_t out_len);

/* Stores the listing of a hall file: a line for each record, and last `T`, the number of these lines, that of their roots and the sum of the multiplicities; as
 * far as `out` reaches. Returns the whole listing's size: lend PONGEWARU_LISTING_MOST bytes. */
uint64_t pongewaru_list_file(const void *file, size_t file_len, void *out, size_t out_len);
uint64_t pongewaru_list_file_by(uint32_t sine, const void *file, size_t file_len, void *out, size_t out_len);

/* ---- Second part: the layers below, each in an archive of its own, for comparing them with other implementations; a controller needs none of them.
 * A polynomial is five doubles in 40 bytes, the lowest power first, and its degree d, 0 to 4. Where there are fewer bytes, or the degree is above 4, nothing is
 * stored and 0 returned, or else NaN or false. */
#ifdef PONGEWARU_LAYERS

/* libc_leaves.a: Rust's methods on f64; `v.powi(n)` for n up to 4, NaN beyond; x rounded down; a double from its bits, and its bits. */
double pongewaru_float_abs(double x);
double pongewaru_float_copysign(double x, double y);
double pongewaru_float_min(double x, double y);
double pongewaru_float_max(double x, double y);
double pongewaru_float_clamp(double x, double lo, double hi);
bool pongewaru_float_total_le(double x, double y);
bool pongewaru_float_is_finite(double x);
double pongewaru_float_powi(double v, uint32_t n);
uint64_t pongewaru_float_floor(double x);
double pongewaru_float_from_bits(uint64_t n);
uint64_t pongewaru_float_to_bits(double x);

/* x * 2^k; 2^k, NaN for k below -1022 or above 1023; the exponent of x; nearest square and cube root; base-2 logarithm on its grid. */
double pongewaru_leaf_ldexp(double x, int32_t k);
double pongewaru_leaf_pow2(int32_t k);
int32_t pongewaru_leaf_exponent(double x);
double pongewaru_leaf_sqrt(double x);
double pongewaru_leaf_cbrt(double x);
double pongewaru_leaf_log2(double x);

/* 16 bytes: cosine and sine of a third of acos v, in the mode `sine`. */
uint64_t pongewaru_leaf_third_angle(uint32_t sine, double v, void *out, size_t out_len);

/* 40 bytes: the logarithms of five doubles. */
uint64_t pongewaru_leaf_log2_five(const void *a, size_t a_len, void *out, size_t out_len);

/* libc_layers.a, evaluation. 16 bytes: a product and its error; value and slope; first and second derivative. 40 bytes: the Taylor coefficients. */
uint64_t pongewaru_two_prod(double a, double b, void *out, size_t out_len);
double pongewaru_discriminant(double al, double be);
uint64_t pongewaru_value_slope(const void *p, size_t p_len, uint64_t d, double y, void *out, size_t out_len);
uint64_t pongewaru_value_slope_compensated(const void *p, size_t p_len, uint64_t d, double y, void *out, size_t out_len);
uint64_t pongewaru_derivs12(const void *p, size_t p_len, uint64_t d, double y, void *out, size_t out_len);
uint64_t pongewaru_taylor(const void *p, size_t p_len, uint64_t d, double y, void *out, size_t out_len);

/* Factors of monic cubics and quartics. 32 bytes: how many roots, and three places; 24: r, e, f; 32: al, be, ga, de; 16: 1 and the root, or 0 and NaN;
 * 32: r, h2, h1, h0. */
uint64_t pongewaru_cubic_closed_form(uint32_t sine, double b, double c, double d, void *out, size_t out_len);
uint64_t pongewaru_cubic_factor(uint32_t sine, double b, double c, double d, void *out, size_t out_len);
uint64_t pongewaru_quartic_factor(uint32_t sine, double b, double c, double d, double e, void *out, size_t out_len);
uint64_t pongewaru_isolated_root(double al, double be, double ga, double de, void *out, size_t out_len);
uint64_t pongewaru_peel_root(double b, double c, double d, double e, double y, void *out, size_t out_len);

/* Scaling. 144 bytes: f, g, lg, d, e and unit; 24: 1, small and threshold of five logarithms, or zeros; 80: nlin, lin, nquad and the al and be of quad. */
uint64_t pongewaru_scaled_new(const void *a, size_t a_len, uint64_t d, void *out, size_t out_len);
uint64_t pongewaru_magnitude_split(const void *lg, size_t lg_len, uint64_t d, void *out, size_t out_len);
uint64_t pongewaru_factorize(uint32_t sine, const void *a, size_t a_len, uint64_t d, uint32_t depth, void *out, size_t out_len);

/* Square systems, row by row with the right-hand side behind, in 96 and 160 bytes. 32 and 40 bytes: 1 and the unknowns, or zeros. */
uint64_t pongewaru_solve_square3(const void *s, size_t s_len, double tol, void *out, size_t out_len);
uint64_t pongewaru_solve_square4(const void *s, size_t s_len, double tol, void *out, size_t out_len);

/* Refined unknowns, from the ones in x: three in 24 bytes, four in 32. */
uint64_t pongewaru_refine_cubic(double b, double c, double d, const void *x, size_t x_len, void *out, size_t out_len);
uint64_t pongewaru_refine_quartic(double b, double c, double d, double e, const void *x, size_t x_len, void *out, size_t out_len);
uint64_t pongewaru_refine_peel(double b, double c, double d, double e, const void *x, size_t x_len, void *out, size_t out_len);
double pongewaru_newton_cubic(double p0, double p1, double p2, double p3, double p4, double y);

/* libc_clusters.a: the band; critical points; the turning point, NaN where there is none; a polished place. */
double pongewaru_noise(const void *a, size_t a_len, uint64_t d, double y);
double pongewaru_band(const void *a, size_t a_len, uint64_t d, double y, double tol);
bool pongewaru_within_band(const void *a, size_t a_len, uint64_t d, double half, double y, double tol);
double pongewaru_critical_point(const void *a, size_t a_len, uint64_t d, double y, double lo, double hi);
double pongewaru_extremum(const void *a, size_t a_len, uint64_t d, double y, double lo, double hi, double tol);
double pongewaru_polish(const void *a, size_t a_len, uint64_t d, double y, double gap);

/* c: four places in 32 bytes, a byte for the multiplicity of each, and for `push_quadratic` two pairs, centre and half, in 32 more. n of the places count, up
 * to 4, and m of the pairs, up to 2. 144 bytes: the roots as in pongewaru_list, but behind the last what was handed in, how many pairs, and each centre and
 * half; 104: pongewaru_list without `systems`. */
uint64_t pongewaru_push_quadratic(const void *a, size_t a_len, uint64_t d, double al, double be, double tol, const void *c, size_t c_len, uint64_t n,
    uint64_t m, void *out, size_t out_len);
uint64_t pongewaru_finish(const void *a, size_t a_len, uint64_t d, const void *c, size_t c_len, uint64_t n, double tol, void *out, size_t out_len);

#endif

#ifdef __cplusplus
}
#endif

#endif

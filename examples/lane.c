/* A lane controller's use of Pongewaru: the roots of a list, an inquiry answered in a loop, a pin contact, a crank, a quadratic, a formula, a hall
 * file, and what is refused. In the repository's folder
 *
 *     .ci/run
 *     gcc -Wall -Werror -Iinclude examples/lane.c target/staticlib/libpongewaru.a -lm -o target/lane && target/lane
 *
 * prints what stands in lane.txt.
 */
#include <math.h>
#include <stdio.h>
#include <string.h>

#include "pongewaru.h"

static const double TOL = 1.0 / (1 << 30);

static const char *why(uint64_t said)
{
    switch (said) {
    case PONGEWARU_TOO_SHORT: return "the buffer is too short";
    case PONGEWARU_NOT_FINITE: return "a number is not finite";
    case PONGEWARU_TOO_FEW: return "no equation is left";
    case PONGEWARU_TOO_MANY: return "the degree is above 4";
    case PONGEWARU_ANSWER_NOT_FINITE: return "a number of the answer is not finite";
    case PONGEWARU_RECORD_NOT_FINITE: return "a number is not finite";
    case PONGEWARU_NO_RADIUS: return "the radius is not above 0";
    case PONGEWARU_MADE_NOT_FINITE: return "a coefficient made is not finite";
    case PONGEWARU_NOT_A_SUM: return "the text is not a sum";
    case PONGEWARU_DEGREE_TOO_HIGH: return "a part's degree is above 4";
    case PONGEWARU_COEFFICIENT_TOO_LARGE: return "a part's coefficient is above 2^53";
    case PONGEWARU_CUT_DOUBLE: return "the bytes are no whole doubles";
    case PONGEWARU_TEXT_TOO_LONG: return "the text has more than 255 bytes";
    default: return "?";
    }
}

static const char *kind(const struct pongewaru_root *root)
{
    switch ((int)root->kind) {
    case PONGEWARU_CROSSING: return "crossing";
    case PONGEWARU_BRUSH: return "brush";
    case PONGEWARU_FLAT: return "flat";
    default: return "?";
    }
}

static void print_list(const struct pongewaru_list *list)
{
    printf("%d root%s", (int)list->count, list->count == 1 ? "" : "s");
    for (int i = 0; i < (int)list->count; i++) {
        const struct pongewaru_root *root = &list->root[i];
        printf("%s %.17g (%dx, %s)", i ? "," : ":", root->place, (int)root->multiplicity, kind(root));
    }
    printf("\n");
}

/* ---- A list: x^2 - 3x + 2 */

static void roots(void)
{
    const double coeffs[] = {2, -3, 1};
    struct pongewaru_list list;
    uint64_t said = pongewaru_real_roots(coeffs, sizeof coeffs, TOL, &list, sizeof list);
    if (said == sizeof list)
        print_list(&list);
    else
        printf("refused %d: %s\n", (int)said, why(said));
}

/* ---- An inquiry: a ball's centre runs along x = -2 + 4t, y = off, past a pin at 0, 0; they touch where it is R away from the pin's. */

static const double R = 0.17, CONFUSION = 1e-7;

static int touches(double t, double off)
{
    double x = -2 + 4 * t;
    return fabs(sqrt(x * x + off * off) - R) <= CONFUSION;
}

static void contact(double off)
{
    const double coeffs[] = {4 + (off * off - R * R), -16, 16};
    struct pongewaru_shown shown;
    uint8_t replies[3];
    size_t count = 0;
    for (;;) {
        uint64_t said = pongewaru_inquire(coeffs, sizeof coeffs, TOL, replies, count, &shown, sizeof shown);
        if (said != sizeof shown) {
            printf("refused %d: %s\n", (int)said, why(said));
            return;
        }
        if (!shown.asks)
            break;
        replies[count] = (uint8_t)touches(shown.place, off);
        printf("touches at t = %.17g? %s; ", shown.place, replies[count] ? "yes" : "no");
        count++;
    }
    print_list(&shown.list);
}

/* ---- The same ball and pin as a path and a circle: each question is replied by the ball's distance */

static void pin(double off)
{
    struct pongewaru_list list;
    uint64_t said = pongewaru_pin_contact(CONFUSION, -2, 4, 0, off, 0, 0, 0, 0, R, &list, sizeof list);
    if (said == sizeof list)
        print_list(&list);
    else
        printf("refused %d: %s\n", (int)said, why(said));
}

/* ---- A crank: cos t = 0, each question replied no */

static void crank(void)
{
    struct pongewaru_crank_shown c;
    const uint8_t no[3] = {0, 0, 0};
    size_t count = 0;
    while (pongewaru_crank_inquire(TOL, 0, 0, 1, 0, 0, no, count, &c, sizeof c) == sizeof c && c.shown.asks)
        count++;
    for (int i = 0; i < (int)c.shown.list.count; i++)
        printf("%.3f degrees\n", fmod(45 * c.k + 360 / acos(-1) * atan(c.shown.list.root[i].place) + 360, 360));
}

/* ---- A quadratic: t^2 - 3t + 2 = 0 */

static void quadratic(void)
{
    struct pongewaru_solution s;
    uint64_t said = pongewaru_quadratic(1, -3, 2, TOL, TOL, &s, sizeof s);
    if (said == sizeof s && s.number == PONGEWARU_TWO)
        printf("two places: %.17g, %.17g\n", s.first, s.second);
}

/* ---- A formula as it was typed: its coefficients, the lowest power first, and its roots */

static void formula(const char *text)
{
    struct pongewaru_coefficients made;
    struct pongewaru_list list;
    uint64_t said = pongewaru_formula_coefficients(text, strlen(text), &made, sizeof made);
    if (said == sizeof made) {
        for (int i = 0; i < (int)made.count; i++)
            printf("%.17g%s", made.c[i], i + 1 < (int)made.count ? ", " : ": ");
        said = pongewaru_formula_roots(text, strlen(text), TOL, &list, sizeof list);
    }
    if (said == sizeof list)
        print_list(&list);
    else
        printf("refused %d: %s\n", (int)said, why(said));
}

/* ---- A hall file: one record of five numbers, and one that is cut off. The places of a QD are no roots, so the total counts two lines alone. */

static void file(void)
{
    static uint8_t listing[PONGEWARU_LISTING_MOST];
    const double numbers[] = {TOL, TOL, 1, -3, 2};
    uint8_t bytes[2 + sizeof numbers + 2];
    memcpy(bytes, "QD", 2);
    memcpy(bytes + 2, numbers, sizeof numbers);
    memcpy(bytes + 2 + sizeof numbers, "PL", 2);
    uint64_t length = pongewaru_list_file(bytes, sizeof bytes, listing, sizeof listing);
    fwrite(listing, 1, (size_t)length, stdout);
}

/* ---- Refusals: nothing is stored */

static void refusals(void)
{
    const double coeffs[] = {2, -3, 1, 0, 0, 1}, none = NAN;
    struct pongewaru_list list;
    const uint64_t said[] = {
        pongewaru_real_roots(&none, sizeof none, TOL, &list, sizeof list),
        pongewaru_real_roots(NULL, 0, TOL, &list, sizeof list),
        pongewaru_real_roots(coeffs, sizeof coeffs, TOL, &list, sizeof list),
        pongewaru_real_roots(coeffs, sizeof coeffs - 1, TOL, &list, sizeof list),
        pongewaru_real_roots(coeffs, 3 * sizeof *coeffs, TOL, &list, sizeof list - 1),
    };
    for (size_t i = 0; i < sizeof said / sizeof *said; i++)
        printf("refused %d: %s\n", (int)said[i], why(said[i]));
}

int main(void)
{
    roots();
    contact(0);
    contact(R);
    contact(R + 1e-8);
    contact(R + 1e-3);
    pin(0);
    pin(R + 1e-8);
    pin(NAN);
    crank();
    quadratic();
    formula("(t-2)^2*(t+1)");
    formula("2t-1");
    formula("(t^5)^0");
    file();
    refusals();
    return 0;
}

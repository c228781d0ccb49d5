/* Calls the viewer's two entries on good, bad and boundary input, and prints a line for each call:
 *
 *     side PX PY QX QY RX RY = ANSWER  # what it is
 *     zone PX PY BYTES = ANSWER  # what it is
 *
 * Patterns are 16 hexadecimal digits; bytes are two digits each, or `none`.
 */
#include "ghomxarin.h"

#include <stdio.h>

enum { CORNER = 16, ROOM = 66 * CORNER };

static uint64_t pattern(double x)
{
    union { double value; uint64_t bits; } both;
    both.value = x;
    return both.bits;
}

/* ---- one call, one line */

static void side_of(const uint64_t c[6], const char *what)
{
    printf("side");
    for (int i = 0; i < 6; i++)
        printf(" %016llx", (unsigned long long)c[i]);
    printf(" = %lu  # %s\n", (unsigned long)ghomxarin_side(c[0], c[1], c[2], c[3], c[4], c[5]), what);
}

static void side(double px, double py, double qx, double qy, double rx, double ry, const char *what)
{
    const uint64_t c[6] = {pattern(px), pattern(py), pattern(qx), pattern(qy), pattern(rx), pattern(ry)};
    side_of(c, what);
}

static void zone_of(uint64_t px, uint64_t py, const uint8_t *corners, size_t length, const char *what)
{
    printf("zone %016llx %016llx ", (unsigned long long)px, (unsigned long long)py);
    for (size_t i = 0; i < length; i++)
        printf("%02x", corners[i]);
    printf("%s = %lu  # %s\n", length == 0 ? "none" : "", (unsigned long)ghomxarin_zone(px, py, corners, length), what);
}

static void zone(double px, double py, const uint8_t *corners, size_t length, const char *what)
{
    zone_of(pattern(px), pattern(py), corners, length, what);
}

/* ---- corners as bytes */

static void put_pattern(uint8_t *at, uint64_t bits)
{
    for (int i = 0; i < 8; i++)
        at[i] = (uint8_t)(bits >> 8 * i & 255);
}

static void put_corner(uint8_t *at, double x, double y)
{
    put_pattern(at, pattern(x));
    put_pattern(at + 8, pattern(y));
}

static void put_square(uint8_t *at)
{
    put_corner(at, 0, 0);
    put_corner(at + CORNER, 4, 0);
    put_corner(at + 2 * CORNER, 4, 4);
    put_corner(at + 3 * CORNER, 0, 4);
}

/* The square the other way round. */
static void put_square_back(uint8_t *at)
{
    put_corner(at, 0, 0);
    put_corner(at + CORNER, 0, 4);
    put_corner(at + 2 * CORNER, 4, 4);
    put_corner(at + 3 * CORNER, 4, 0);
}

/* The line crosses itself at (2, 2). */
static void put_eight(uint8_t *at)
{
    put_corner(at, 0, 0);
    put_corner(at + CORNER, 4, 4);
    put_corner(at + 2 * CORNER, 4, 0);
    put_corner(at + 3 * CORNER, 0, 4);
}

/* Corner k at (k, k*k): the border is a bow, and the chord from its last corner to its first. */
static void put_bow(uint8_t *at, int corners)
{
    for (int k = 0; k < corners; k++)
        put_corner(at + k * CORNER, k, k * k);
}

/* ---- sides */

static void sides_of_the_paper(void)
{
    side(0, 0, 1, 0, 0, 1, "counter-clockwise");
    side(0, 0, 0, 1, 1, 0, "clockwise");
    side(0, 0, 1, 1, 2, 2, "on a line");
    side(0, 0, 1, 1, 1, 1 + 0x1p-50, "told by the exact stage");
    side(0, 0, 1, 1, 1, 1 - 0x1p-50, "told by the exact stage, on the other side");
    side(0, 0, 1, 1, 1, 1 + 0x1p-49, "told by the filter");
    side(0, 0, 2, 2, 1, 1 + 0x1p-50, "swapped points");
    side(1, 1 + 0x1p-50, 2, 2, 0, 0, "swapped back");
    side(3, 4, 3, 4, 3, 4, "three equal points");
    side(3, 4, 3, 4, 7, 9, "two equal points");
    side(0.1, 0.1, 0.3, 0.3, 0.7, 0.7, "on the diagonal");
    side(0.1, 0.3, 0.2, 0.6, 0.3, 0.9, "near a line");
}

static void sides_of_zeros(void)
{
    side(0.0, -0.0, -0.0, 0.0, 0.0, 0.0, "zeros of both signs");
    side(-0.0, -0.0, 1, 0, 0, 1, "-0 for p");
    side(-0.0, 0, 1, -0.0, -0.0, 1, "-0 here and there");
}

static void sides_at_each_place(void)
{
    static const struct { uint64_t bits; const char *what; } tried[] = {
        {0x58f0000000000000, "2^400"},
        {0x58f0000000000001, "just above 2^400"},
        {0xd8f0000000000000, "-2^400"},
        {0xd8f0000000000001, "just below -2^400"},
        {0x26f0000000000000, "2^-400"},
        {0x26efffffffffffff, "just below 2^-400"},
        {0xa6f0000000000000, "-2^-400"},
        {0xa6efffffffffffff, "just above -2^-400"},
        {0x8000000000000000, "-0"},
        {0x0000000000000001, "the least subnormal"},
        {0x7fefffffffffffff, "the greatest finite"},
        {0x7ff0000000000000, "infinity"},
        {0xfff0000000000000, "-infinity"},
        {0x7ff8000000000000, "not a number"},
        {0x7ff8000000000123, "not a number, with a payload"},
        {0xfff0dead0000beef, "not a number, signalling, with a payload"},
    };
    for (size_t k = 0; k < sizeof tried / sizeof tried[0]; k++) {
        for (int place = 0; place < 6; place++) {
            uint64_t c[6] = {pattern(1), pattern(2), pattern(3), pattern(5), pattern(4), pattern(7)};
            c[place] = tried[k].bits;
            side_of(c, tried[k].what);
        }
    }
}

/* ---- zones */

static void zones_of_a_square(void)
{
    uint8_t square[4 * CORNER];
    put_square(square);
    zone(2, 2, square, sizeof square, "inside");
    zone(5, 5, square, sizeof square, "outside");
    zone(5, 2, square, sizeof square, "outside, beside an edge");
    zone(-1, 4, square, sizeof square, "outside, level with corners");
    zone(6, 0, square, sizeof square, "outside, on the line of an edge");
    zone(2, 0, square, sizeof square, "on edge 0");
    zone(4, 1, square, sizeof square, "on edge 1");
    zone(2, 4, square, sizeof square, "on edge 2");
    zone(0, 3, square, sizeof square, "on the last edge");
    zone(0, 0, square, sizeof square, "corner 0");
    zone(4, 0, square, sizeof square, "corner 1");
    zone(4, 4, square, sizeof square, "corner 2");
    zone(0, 4, square, sizeof square, "corner 3");
    zone(-0.0, -0.0, square, sizeof square, "corner 0, by its other zeros");
    zone(0x1p-400, 0x1p-400, square, sizeof square, "just inside");
    zone(-0x1p-400, 0x1p-400, square, sizeof square, "just outside");
    zone(4, 4 + 0x1p-50, square, sizeof square, "just above corner 2");

    uint8_t twice[8 * CORNER];
    put_square(twice);
    put_square(twice + 4 * CORNER);
    zone(2, 2, twice, sizeof twice, "the middle of a square listed twice");
    zone(4, 4, twice, sizeof twice, "a corner of a square listed twice");

    put_square_back(twice + 4 * CORNER);
    zone(2, 2, twice, sizeof twice, "the middle of a square gone round once and then back");

    uint8_t eight[4 * CORNER];
    put_eight(eight);
    zone(1, 2, eight, sizeof eight, "in the loop of a figure of eight that goes round counter-clockwise");
    zone(3, 2, eight, sizeof eight, "in the loop that goes round clockwise");
    zone(2, 1, eight, sizeof eight, "between the loops");
    zone(2, 2, eight, sizeof eight, "where the line crosses itself");
}

static void zones_of_every_length(void)
{
    static uint8_t bow[ROOM];
    put_bow(bow, ROOM / CORNER);
    const uint64_t nan = 0x7ff8000000000123;
    zone(0, 0, NULL, 0, "no bytes, by a null pointer");
    zone(0, 0, bow, 0, "no bytes");
    zone_of(nan, nan, NULL, 0, "no bytes and a bad point");
    static const size_t short_of_three[] = {1, 8, 15, 16, 17, 24, 31, 32, 33, 40, 47};
    for (size_t k = 0; k < sizeof short_of_three / sizeof short_of_three[0]; k++)
        zone(1, 2, bow, short_of_three[k], "under 3 corners, whole or not");
    zone(1, 2, bow, 3 * CORNER, "3 corners, on the chord");
    zone(1, 1.5, bow, 3 * CORNER, "3 corners, inside");
    zone(1, 2.5, bow, 3 * CORNER, "3 corners, outside");
    zone(1, 1.5, bow, 3 * CORNER + 1, "a byte over 3 corners");
    zone(1, 1.5, bow, 3 * CORNER + 8, "half a corner over 3");
    zone(2, 6, bow, 5 * CORNER, "5 corners");
    zone(32, 1500, bow, 63 * CORNER, "63 corners, inside");
    zone(32, 1500, bow, 64 * CORNER, "64 corners, inside");
    zone(32, 1000, bow, 64 * CORNER, "64 corners, outside");
    zone(31.5, 1984.5, bow, 64 * CORNER, "64 corners, on the chord");
    zone(63, 3969, bow, 64 * CORNER, "64 corners, the last");
    zone(32, 1500, bow, 64 * CORNER + 1, "a byte over 64 corners");
    zone(32, 1500, bow, 64 * CORNER + 8, "half a corner over 64");
    zone(32, 1500, bow, 65 * CORNER, "65 corners");
    zone(32, 1500, bow, 66 * CORNER, "66 corners");
    zone_of(nan, pattern(1500), bow, 64 * CORNER, "64 corners and a bad point");
    zone_of(nan, pattern(1500), bow, 65 * CORNER, "65 corners and a bad point");
    zone_of(pattern(32), nan, bow, 3 * CORNER + 8, "half a corner over 3 and a bad point");
    zone_of(pattern(32), nan, bow, 2 * CORNER, "2 corners and a bad point");
    put_pattern(bow + 64 * CORNER, nan);
    zone(32, 1500, bow, 65 * CORNER, "65 corners, the last of them bad");
    zone(32, 1500, bow, 64 * CORNER, "64 corners, and a bad one that is not lent");
    put_pattern(bow + 64 * CORNER - 8, nan);
    zone(32, 1500, bow, 64 * CORNER, "64 corners, the last of them bad");
    zone(32, 1500, bow, 63 * CORNER, "63 corners, and a bad one that is not lent");
}

static void zones_of_bad_coordinates(void)
{
    static const struct { uint64_t bits; const char *what; } tried[] = {
        {0x58f0000000000000, "2^400"},
        {0x58f0000000000001, "just above 2^400"},
        {0x26f0000000000000, "2^-400"},
        {0x26efffffffffffff, "just below 2^-400"},
        {0x8000000000000000, "-0"},
        {0xfff0000000000000, "-infinity"},
        {0x7ff8000000000123, "not a number, with a payload"},
    };
    for (size_t k = 0; k < sizeof tried / sizeof tried[0]; k++) {
        uint8_t square[4 * CORNER];
        put_square(square);
        zone_of(tried[k].bits, pattern(2), square, sizeof square, tried[k].what);
        zone_of(pattern(2), tried[k].bits, square, sizeof square, tried[k].what);
        for (size_t place = 0; place < 8; place++) {
            put_square(square);
            put_pattern(square + 8 * place, tried[k].bits);
            zone(2, 2, square, sizeof square, tried[k].what);
        }
    }
}

static void zones_of_any_alignment(void)
{
    static uint8_t buffer[4 * CORNER + 8];
    for (size_t off = 0; off < 8; off++) {
        put_square(buffer + off);
        zone(2, 2, buffer + off, 4 * CORNER, "inside, at another alignment");
        zone(4, 1, buffer + off, 4 * CORNER, "on edge 1, at another alignment");
    }
}

/* ---- many more, from a fixed seed */

static uint64_t state = 0x9e3779b97f4a7c15;

static uint64_t any(void)
{
    state ^= state << 13;
    state ^= state >> 7;
    state ^= state << 17;
    return state;
}

/* A tenth of a whole number, rounded. */
static double tenths(void)
{
    return (double)(any() >> 54) / 10;
}

/* A whole number from 0 to 4. */
static double small(void)
{
    return (double)((any() >> 32) % 5);
}

static void any_sides(void)
{
    for (int k = 0; k < 50; k++) {
        double px = tenths(), py = tenths(), dx = tenths(), dy = tenths(), t = small();
        side(px, py, px + dx, py + dy, px + t * dx, py + t * dy, "on a line, but for rounding");
        double ax = small(), ay = small(), bx = small(), by = small(), cx = small(), cy = small();
        side(ax, ay, bx, by, cx, cy, "on a small grid");
    }
}

static void any_zones(void)
{
    uint8_t bytes[8 * CORNER];
    for (int k = 0; k < 100; k++) {
        size_t corners = 3 + (size_t)((any() >> 32) % 6);
        for (size_t i = 0; i < corners; i++) {
            double x = small(), y = small();
            put_corner(bytes + i * CORNER, x, y);
        }
        double px = small(), py = small();
        zone(px, py, bytes, corners * CORNER, "on a small grid");
    }
}

int main(void)
{
    sides_of_the_paper();
    sides_of_zeros();
    sides_at_each_place();
    zones_of_a_square();
    zones_of_every_length();
    zones_of_bad_coordinates();
    zones_of_any_alignment();
    any_sides();
    any_zones();
    return 0;
}

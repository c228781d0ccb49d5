/* ghomxarin.h: exact questions about doubles, for C. Link with libviewer.a, which tools/viewer-library writes to crates/viewer_c/out.
 *
 * Both functions answer for every input, and every answer is exact: no rounding error, no tolerance.
 *
 * A coordinate is a double (IEEE 754 binary64), handed over as the 64-bit pattern of its bits:
 *
 *     static uint64_t pattern(double x) { uint64_t bits; memcpy(&bits, &x, sizeof bits); return bits; }
 *
 * A coordinate is accepted if it is a zero, of either sign, or if its magnitude is from 2^-400 to 2^400, both ends included. Any other,
 * infinities and every not-a-number among them, is refused.
 *
 * What every answer means:
 *
 *     0, 1, 2    as said at each function
 *     101        refusal 1: more than 64 corners
 *     103        refusal 3: a coordinate is not accepted
 *     104        refusal 4: fewer than 3 corners
 *     105        refusal 5: the corners' length is no multiple of 16
 *
 * No other number is ever answered. Neither function writes to the caller's memory or keeps anything from one call to the next: both can
 * be called from any thread, at any time, on the same bytes. Of the C library they use memset, and no heap; a call takes under two
 * kilobytes of stack.
 *
 * The floating-point environment must be C's default: rounding to nearest, and subnormals neither taken for zero nor flushed to it.
 */
#ifndef GHOMXARIN_H
#define GHOMXARIN_H

#include <stddef.h>
#include <stdint.h>

#ifdef __cplusplus
extern "C" {
#endif

/* On which side of the line from p to q the point r lies, that is the sign of (qx-px)(ry-py) - (qy-py)(rx-px). Six patterns.
 *
 *     0     -1: p, q, r turn clockwise, where y points up
 *     1      0: they lie on one line, as any two equal points and a third do
 *     2     +1: they turn counter-clockwise
 *     103   a coordinate is not accepted
 */
uint32_t ghomxarin_side(uint64_t px, uint64_t py, uint64_t qx, uint64_t qy, uint64_t rx, uint64_t ry);

/* Where the point p lies in the zone with these corners, 3 to 64 of them, closed from the last to the first.
 *
 * A corner is 16 bytes: the pattern of x, then that of y, each with its lowest byte first (little-endian, whatever the machine is).
 * `corners` points to the first byte and can have any alignment; it is not read where `length` is 0, and can be a null pointer then.
 * `length` counts bytes, and that many must be readable.
 *
 *     0     outside
 *     1     on the border: on an edge or a corner
 *     2     inside, by the non-zero rule: where the border goes round p twice the same way, p is inside; once each way, p is outside
 *     105   `length` is no multiple of 16
 *     104   fewer than 3 corners, also where `length` is 0
 *     101   more than 64 corners
 *     103   a coordinate of p or of a corner is not accepted
 *
 * The first refusal that applies, in this order, is the answer.
 */
uint32_t ghomxarin_zone(uint64_t px, uint64_t py, const uint8_t *corners, size_t length);

#ifdef __cplusplus
}
#endif

#endif

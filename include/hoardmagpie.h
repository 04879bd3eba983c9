/* hoardmagpie: closes a foundry's scan into a solid.
 *
 * The functions of the archive libcapi.a (scripts/native-archive capi). They are proved: for every bit pattern of the points and the
 * settings a call ends and stays inside the slices it is lent. The caller checks nothing first, but lends slices that are there and do not
 * overlap; a null pointer needs the length 0. Lengths count elements, not bytes. The functions keep nothing between calls, so several
 * threads may call at once, each with slices of its own.
 *
 * Points: six floats each, position x y z and normal x y z; points_len is six times their number. A point is skipped when a position
 * component or the normal's length is not finite, or the length is under 1e-12.
 *
 * Scratch, with N = 8^depth: s0 to s6 of at least N floats, edges of at least 3N, distances of at least one for each given point.
 * What the slices hold at the call does not matter. On return all scratch is zero, also past those lengths.
 *
 * Answer: the function's result is 0 or the number of a refusal; the first in this order that applies is given.
 *
 *    7  points_len is no multiple of six, or there are over 1,048,576 points
 *    1  no points
 *    2  depth below 3 or above 8
 *    3  smoothing NaN, zero or negative
 *    8  a scratch slice is shorter than stated
 *    4  fewer than 10 usable points
 *    5  the usable points' largest extent is zero
 *    9  vertices shorter than 3V of the untrimmed mesh
 *   10  faces shorter than 3F of the untrimmed mesh
 *    6  no face, before or after trimming
 *
 * After a refusal counts, values and all result slices are zero. Every NaN that is stored is 7FC00000.
 */
#ifndef HOARDMAGPIE_H
#define HOARDMAGPIE_H

#include <stddef.h>
#include <stdint.h>

#ifdef __cplusplus
extern "C" {
#endif

/* Closes a scan.
 *
 * depth       the grid has 2^depth nodes per side, 3 to 8
 * smoothing   how far a normal is spread, in point spacings; above zero, infinity included
 * iso_offset  added to the level, which is the field's mean at the points
 * trimming    0: every face is kept, and the mesh is closed
 *             else: a face is kept when its centre is at most `distance` from some usable point (-0.5 acts as 0.5, NaN keeps none)
 * iterations  the most steps of the solver on each level of the grid
 * tolerance   the solver stops when the residual is at most this fraction of the right side
 *
 * vertices    out: three floats for each of the V vertices, then zeros
 * faces       out: three vertex numbers, from 0, for each of the F faces, then zeros. V is at most 3N and F at most 5N.
 * counts      out: usable points, V, F, then zeros
 * values      out: the level, the low corner x y z and the high corner x y z of the vertices' box, then a zero
 */
uint32_t poisson_reconstruct(
    const float *points, size_t points_len,
    uint32_t depth, float smoothing, float iso_offset, uint32_t trimming, float distance, size_t iterations, double tolerance,
    float *vertices, size_t vertices_len,
    uint32_t *faces, size_t faces_len,
    float *s0, size_t s0_len, float *s1, size_t s1_len, float *s2, size_t s2_len, float *s3, size_t s3_len,
    float *s4, size_t s4_len, float *s5, size_t s5_len, float *s6, size_t s6_len,
    uint32_t *edges, size_t edges_len,
    float *distances, size_t distances_len,
    uint64_t counts[8], float values[8]);

/* The same with the settings of poisson_defaults. */
uint32_t poisson_reconstruct_default(
    const float *points, size_t points_len,
    float *vertices, size_t vertices_len,
    uint32_t *faces, size_t faces_len,
    float *s0, size_t s0_len, float *s1, size_t s1_len, float *s2, size_t s2_len, float *s3, size_t s3_len,
    float *s4, size_t s4_len, float *s5, size_t s5_len, float *s6, size_t s6_len,
    uint32_t *edges, size_t edges_len,
    float *distances, size_t distances_len,
    uint64_t counts[8], float values[8]);

/* The field alone. Refusals are 7, 1, 2, 3, 8, 4 and 5; 8 also when `field` is shorter than N.
 *
 * field       out: the N node values, then zeros; with n = 2^depth, node (i, j, k) has the number (i*n + j)*n + k
 * counts      out: usable points, then zeros
 * values      out: the level, then zeros
 */
uint32_t poisson_field(
    const float *points, size_t points_len,
    uint32_t depth, float smoothing, float iso_offset, uint32_t trimming, float distance, size_t iterations, double tolerance,
    float *field, size_t field_len,
    float *s0, size_t s0_len, float *s1, size_t s1_len, float *s2, size_t s2_len, float *s3, size_t s3_len,
    float *s4, size_t s4_len, float *s5, size_t s5_len, float *s6, size_t s6_len,
    uint32_t *edges, size_t edges_len,
    float *distances, size_t distances_len,
    uint64_t counts[8], float values[8]);

/* The default settings, so that no caller keeps a second list.
 *
 * words       out: depth, the trimming flag, iterations, then zeros
 * values      out: smoothing, iso_offset, distance, then zeros
 * tolerance   out: the tolerance
 */
void poisson_defaults(uint64_t words[8], float values[8], double tolerance[1]);

#ifdef __cplusplus
}
#endif

#endif

/* Closes a ball of 26 points through the C functions and prints what was answered.
 *
 *     cc -I include examples/close.c target/native/libcapi.a -o target/close && target/close
 */
#include "hoardmagpie.h"
#include <inttypes.h>
#include <stdio.h>
#include <stdlib.h>

enum { DEPTH = 4, SIDE = 1 << DEPTH, N = SIDE * SIDE * SIDE, GIVEN = 26 };

/* One over the root of 1, 2 and 3. */
static const float SHORTEN[4] = {0.0f, 1.0f, 0.70710678f, 0.57735027f};

static void fill_ball(float *points)
{
    for (int i = 0; i < 27; i++) {
        int d[3] = {i / 9 - 1, i / 3 % 3 - 1, i % 3 - 1};
        int squares = d[0] * d[0] + d[1] * d[1] + d[2] * d[2];
        if (squares == 0)
            continue;
        for (int a = 0; a < 3; a++) {
            points[a] = 10.0f * d[a] * SHORTEN[squares];
            points[3 + a] = (float)d[a];
        }
        points += 6;
    }
}

int main(void)
{
    static float points[6 * GIVEN], grids[7][N], distances[GIVEN], vertices[9 * N];
    static uint32_t edges[3 * N], faces[15 * N];
    uint64_t words[8], counts[8];
    float settings[8], values[8];
    double tolerance[1];

    fill_ball(points);
    poisson_defaults(words, settings, tolerance);
    uint32_t number = poisson_reconstruct(
        points, 6 * GIVEN,
        DEPTH, settings[0], settings[1], (uint32_t)words[1], settings[2], (size_t)words[2], tolerance[0],
        vertices, 9 * N, faces, 15 * N,
        grids[0], N, grids[1], N, grids[2], N, grids[3], N, grids[4], N, grids[5], N, grids[6], N,
        edges, 3 * N, distances, GIVEN, counts, values);
    if (number != 0) {
        printf("refused %" PRIu32 "\n", number);
        return EXIT_FAILURE;
    }
    printf("%" PRIu64 " points used, %" PRIu64 " vertices, %" PRIu64 " faces, level %g\n", counts[0], counts[1], counts[2], values[0]);
    return EXIT_SUCCESS;
}

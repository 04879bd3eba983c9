/* The patterns of the NaNs that whole calls leave, in the x86-64 code that rt makes: the field, the level, and every result and scratch slice of calls
   whose field turns NaN, or whose settings are NaNs of other patterns. A proved program cannot read the pattern of a NaN, so this reads them from outside,
   as numbers. Prints a line for each wrong one, and how many were seen; none in a field or none in a level is a fault too. Built without any header. */
typedef unsigned int u32;
typedef unsigned long long u64;
int printf(const char *, ...);

enum { POINTS = 54, DEPTH = 3, N = 512 };

u32 poisson_reconstruct(const u32 *points, u64, u32 depth, float smoothing, float offset, u32 trimming, float distance, u64 iterations, double tolerance,
                        u32 *vertices, u64, u32 *faces, u64, u32 *s0, u64, u32 *s1, u64, u32 *s2, u64, u32 *s3, u64, u32 *s4, u64, u32 *s5, u64, u32 *s6, u64,
                        u32 *edges, u64, u32 *distances, u64, u64 counts[8], u32 values[8]);
u32 poisson_field(const u32 *points, u64, u32 depth, float smoothing, float offset, u32 trimming, float distance, u64 iterations, double tolerance,
                  u32 *field, u64, u32 *s0, u64, u32 *s1, u64, u32 *s2, u64, u32 *s3, u64, u32 *s4, u64, u32 *s5, u64, u32 *s6, u64,
                  u32 *edges, u64, u32 *distances, u64, u64 counts[8], u32 values[8]);

static u32 points[6 * POINTS], field[N], vertices[9 * N], faces[15 * N], scratch[7][N], edges[3 * N], distances[POINTS], values[8];
static u64 counts[8];
static int calls, in_field, in_level, in_mesh, wrong;

static u32 bits(float x) { union { float x; u32 b; } v; v.x = x; return v.b; }
static float single(u32 b) { union { u32 b; float x; } v; v.b = b; return v.x; }
static double wide(u64 b) { union { u64 b; double x; } v; v.b = b; return v.x; }

/* 3×3 points on each face of a cube, at this scale, with the normals outward */
static void scan(float scale) {
    u32 *p = points;
    for (int axis = 0; axis < 3; axis++)
        for (int side = -1; side <= 1; side += 2)
            for (int a = -1; a <= 1; a++)
                for (int b = -1; b <= 1; b++, p += 6) {
                    float at[3] = {0, 0, 0}, normal[3] = {0, 0, 0};
                    at[axis] = (float)side;
                    at[(axis + 1) % 3] = 0.75f * (float)a;
                    at[(axis + 2) % 3] = 0.75f * (float)b;
                    normal[axis] = (float)side;
                    for (int i = 0; i < 3; i++) { p[i] = bits(at[i] * scale); p[3 + i] = bits(normal[i]); }
                }
}

static void rubbish(u32 *s, int n) { for (int i = 0; i < n; i++) s[i] = 0xFFC0BEEF; }

static int nan(u32 b) { return (b & 0x7FFFFFFF) > 0x7F800000; }

/* how many NaNs a slice holds; any other pattern than 01's is wrong */
static int read(const char *what, const u32 *s, int n) {
    int seen = 0;
    for (int i = 0; i < n; i++)
        if (nan(s[i])) {
            seen++;
            if (s[i] != 0x7FC00000) { wrong++; if (wrong < 20) printf("%s %d of call %d is %X\n", what, i, calls, s[i]); }
        }
    return seen;
}

static void zero(const char *what, const u32 *s, int n) {
    for (int i = 0; i < n; i++)
        if (s[i]) { wrong++; if (wrong < 20) printf("%s %d of call %d is %X, not zero\n", what, i, calls, s[i]); }
}

static void lend(void) {
    rubbish(field, N); rubbish(vertices, 9 * N); rubbish(faces, 15 * N); rubbish(scratch[0], 7 * N); rubbish(edges, 3 * N); rubbish(distances, POINTS); rubbish(values, 8);
}

#define SCRATCH scratch[0], N, scratch[1], N, scratch[2], N, scratch[3], N, scratch[4], N, scratch[5], N, scratch[6], N, edges, 3 * N, distances, POINTS, counts, values

static void clean(void) {
    zero("scratch", scratch[0], 7 * N);
    zero("edge", edges, 3 * N);
    zero("distance", distances, POINTS);
}

static void call(float scale, float smoothing, float offset, u32 trimming, float distance, u64 iterations, double tolerance) {
    scan(scale);
    calls++;
    lend();
    poisson_field(points, 6 * POINTS, DEPTH, smoothing, offset, trimming, distance, iterations, tolerance, field, N, SCRATCH);
    in_field += read("node", field, N);
    in_level += read("level", values, 1);
    clean();
    lend();
    u32 number = poisson_reconstruct(points, 6 * POINTS, DEPTH, smoothing, offset, trimming, distance, iterations, tolerance,
                                     vertices, 9 * N, faces, 15 * N, SCRATCH);
    in_mesh += read("coordinate", vertices, 9 * N) + read("value", values, 8);
    if (number) { zero("vertex", vertices, 9 * N); zero("face", faces, 15 * N); zero("value", values, 8); }
    clean();
}

int main(void) {
    static const float scales[] = {1.0f, 1e-30f, 1e15f, 1e18f, 1e19f, 1e20f, 1e25f, 1e30f, 1e37f, 3e38f};
    static const u64 caps[] = {0, 1, 2, 1000};
    static const u64 tolerances[] = {0x3F1A36E2EB1C432D, 0, 0xBFF0000000000000, 0xFFF8DEAD0000BEEF};
    static const u32 offsets[] = {0, 0xFFC00000, 0x7F800001, 0x7FC0BEEF, 0x7F800000, 0xFF800000};
    for (int s = 0; s < 10; s++)
        for (int c = 0; c < 4; c++)
            for (int t = 0; t < 4; t++) call(scales[s], 1.0f, 0.0f, 0, 0.0f, caps[c], wide(tolerances[t]));
    for (int s = 0; s < 10; s++)
        for (int o = 0; o < 6; o++) call(scales[s], single(0x7F800000), single(offsets[o]), o & 1, single(offsets[5 - o]), 20, 0.0);
    printf("%d calls: %d NaNs in fields, %d in levels, %d in meshes and answers; %d wrong\n", calls, in_field, in_level, in_mesh, wrong);
    return wrong != 0 || in_field == 0 || in_level == 0;
}

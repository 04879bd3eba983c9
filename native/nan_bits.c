/* The patterns of the NaNs that the exported functions answer, in the x86-64 code that rt makes. A proved program cannot read the
   pattern of a NaN, so this reads them from outside. Prints a line for each wrong one, and a count. Built without any header. */
typedef unsigned int u32;
typedef unsigned long long u64;
int printf(const char *, ...);

float hoardmagpie_root32(float);
double hoardmagpie_root64(double);
float hoardmagpie_narrow(double);
double hoardmagpie_widen(float);
double hoardmagpie_floor(double);
double hoardmagpie_ceiling(double);
double hoardmagpie_sign(double);
float hoardmagpie_exp_neg(double);
float hoardmagpie_canonical32(float);
double hoardmagpie_canonical64(double);
float hoardmagpie_clamp32(float, float, float);
double hoardmagpie_clamp64(double, double, double);
double hoardmagpie_least(double, double);
double hoardmagpie_largest(double, double);

static const u64 NANS64[] = {0x7FF8000000000000, 0xFFF8000000000000, 0x7FF0000000000001, 0xFFF0000000000001,
                             0x7FF80000DEADBEEF, 0xFFFFFFFFFFFFFFFF, 0x7FFFFFFFFFFFFFFF, 0x7FF4000000000000};
static const u32 NANS32[] = {0x7FC00000, 0xFFC00000, 0x7F800001, 0xFF800001, 0x7FC0BEEF, 0xFFFFFFFF, 0x7FFFFFFF, 0x7FA00000};

static float single(u32 b) { union { u32 b; float x; } v; v.b = b; return v.x; }
static double wide(u64 b) { union { u64 b; double x; } v; v.b = b; return v.x; }

static int seen, wrong;

static void want32(const char *name, u64 from, float got) {
    union { float x; u32 b; } v;
    v.x = got;
    seen++;
    if (v.b != 0x7FC00000) { wrong++; printf("%s of %llX is %X\n", name, from, v.b); }
}

static void want64(const char *name, u64 from, double got) {
    union { double x; u64 b; } v;
    v.x = got;
    seen++;
    if (v.b != 0x7FF8000000000000) { wrong++; printf("%s of %llX is %llX\n", name, from, v.b); }
}

int main(void) {
    for (int i = 0; i < 8; i++) {
        u64 b = NANS64[i];
        double x = wide(b);
        want64("root64", b, hoardmagpie_root64(x));
        want32("narrow", b, hoardmagpie_narrow(x));
        want64("floor", b, hoardmagpie_floor(x));
        want64("ceiling", b, hoardmagpie_ceiling(x));
        want64("sign", b, hoardmagpie_sign(x));
        want32("exp_neg", b, hoardmagpie_exp_neg(x));
        want64("canonical64", b, hoardmagpie_canonical64(x));
        want64("clamp64", b, hoardmagpie_clamp64(x, 0.0, 7.0));
        want64("least", b, hoardmagpie_least(x, wide(NANS64[7 - i])));
        want64("largest", b, hoardmagpie_largest(x, wide(NANS64[7 - i])));
        u32 c = NANS32[i];
        float y = single(c);
        want32("root32", c, hoardmagpie_root32(y));
        want64("widen", c, hoardmagpie_widen(y));
        want32("canonical32", c, hoardmagpie_canonical32(y));
        want32("clamp32", c, hoardmagpie_clamp32(y, 0.0f, 1.0f));
    }
    want64("root64", 0xBFF0000000000000, hoardmagpie_root64(-1.0));
    want32("root32", 0xBF800000, hoardmagpie_root32(-1.0f));
    want64("root64", 0xFFF0000000000000, hoardmagpie_root64(wide(0xFFF0000000000000)));
    printf("%d NaNs, %d wrong\n", seen, wrong);
    return wrong != 0;
}

// Forms of the loops of a note over a row of frames, in C, as bench/EXPERIMENTS.md compares them. bench/forms builds this
// file by the kit's compiler with the product's words, and says what each form takes and what its loop is. Numbers are
// those of the product: raw values of 48 bits in words of 64.
typedef long long i64;
typedef unsigned long long u64;
typedef int i32;
typedef unsigned u32;
typedef __int128 i128;
typedef unsigned __int128 u128;

#define FORM __attribute__((noinline))
#define LEAST (-(1LL << 47))
#define GREATEST ((1LL << 47) - 1)

struct timespec { long seconds, nanos; };
int clock_gettime(int, struct timespec *);
int printf(const char *, ...);
void *malloc(u64);
int atoi(const char *);
double floor(double);
double sin(double);

static inline i64 clamped(i64 s) { return s < LEAST ? LEAST : s > GREATEST ? GREATEST : s; }
static inline i64 floored(i64 n, i64 d) { i64 q = n / d; return n % d < 0 ? q - 1 : q; }
static inline i64 low(i64 x) { return (i64)((u64)x << 32) >> 32; }

// Sums of two rows.

// each brought into range
FORM void sum_clamped(const i64 *x, const i64 *y, i64 *out, u64 n) {
    for (u64 j = 0; j < n; j++) out[j] = clamped(x[j] + y[j]);
}
// a look at all sums first, then plain ones
FORM void sum_ahead(const i64 *x, const i64 *y, i64 *out, u64 n) {
    u64 all = 0;
    for (u64 j = 0; j < n; j++) all |= (u64)(x[j] + y[j]) + (1ULL << 47);
    if (all >> 48) sum_clamped(x, y, out, n);
    else for (u64 j = 0; j < n; j++) out[j] = x[j] + y[j];
}
// one pass joins what sums have above 48 bits and keeps their lower 48
FORM void sum_joined(const i64 *x, const i64 *y, i64 *out, u64 n) {
    u64 all = 0;
    for (u64 j = 0; j < n; j++) {
        u64 sum = (u64)(x[j] + y[j]) + (1ULL << 47);
        all |= sum;
        out[j] = (i64)(sum & ((1ULL << 48) - 1)) - (1LL << 47);
    }
    if (all >> 48) sum_clamped(x, y, out, n);
}

// Products of two rows.

// at each sample, whether the product has 64 bits
FORM void product_asked(const i64 *x, const i64 *y, i64 *out, u64 n) {
    for (u64 j = 0; j < n; j++) {
        i64 a = x[j], b = y[j];
        out[j] = a == low(a) && b == low(b) ? clamped(a * b >> 16) : (i64)((i128)a * b >> 16);
    }
}
// two passes: sizes without signs, then products of 64 bits
FORM void product_ahead(const i64 *x, const i64 *y, i64 *out, u64 n) {
    u64 all = 0;
    for (u64 j = 0; j < n; j++) all |= ((u64)x[j] + (1ULL << 31)) | ((u64)y[j] + (1ULL << 31));
    if (all >> 32) product_asked(x, y, out, n);
    else for (u64 j = 0; j < n; j++) out[j] = x[j] * y[j] >> 16;
}
// one pass: sizes, and products of 64 bits that wrap
FORM void product_wrapping(const i64 *x, const i64 *y, i64 *out, u64 n) {
    u64 all = 0;
    for (u64 j = 0; j < n; j++) {
        all |= ((u64)x[j] + (1ULL << 31)) | ((u64)y[j] + (1ULL << 31));
        out[j] = (i64)((u64)x[j] * (u64)y[j]) >> 16;
    }
    if (all >> 32) product_asked(x, y, out, n);
}
// one pass: sizes, and products of lower halves
FORM void product_low(const i64 *x, const i64 *y, i64 *out, u64 n) {
    u64 all = 0;
    for (u64 j = 0; j < n; j++) {
        all |= ((u64)x[j] + (1ULL << 31)) | ((u64)y[j] + (1ULL << 31));
        out[j] = low(x[j]) * low(y[j]) >> 16;
    }
    if (all >> 32) product_asked(x, y, out, n);
}

// Quotients of a row by a number above 0 that is held.

static inline i64 far(i64 x, i64 d) { return clamped(floored(x << 16, d)); }

// a division at each sample, of 32 bits where both have no more
FORM void quotient_division(const i64 *x, i64 d, i64 *out, u64 n) {
    for (u64 j = 0; j < n; j++) {
        i64 v = x[j] << 16;
        out[j] = clamped((u64)(v | d) >> 32 ? floored(v, d) : (i64)((u32)v / (u32)d));
    }
}
#define NEAR(a) ((a) >= -(1LL << 45) && (a) <= 1LL << 45)
// a product with the inverse in 2^63rds, what it leaves of 128 bits
FORM void quotient_rest_128(const i64 *x, i64 d, i64 *out, u64 n) {
    i64 inverse = (i64)(9223372036854775806ULL / (u64)d + 1);
    for (u64 j = 0; j < n; j++) {
        i64 a = x[j];
        if (NEAR(a)) {
            i64 v = a << 16, guess = (i64)((i128)v * inverse >> 63);
            i128 rest = (i128)v - (i128)guess * d;
            out[j] = clamped(rest >= 0 && rest < d ? guess : floored(v, d));
        } else out[j] = far(a, d);
    }
}
// the same, what it leaves of 64 bits, compared once without signs
FORM void quotient_63rds(const i64 *x, i64 d, i64 *out, u64 n) {
    i64 inverse = (i64)(9223372036854775806ULL / (u64)d + 1);
    for (u64 j = 0; j < n; j++) {
        i64 a = x[j];
        if (NEAR(a)) {
            i64 v = a << 16, guess = (i64)((i128)v * inverse >> 63), rest = v - guess * d;
            out[j] = clamped((u64)rest < (u64)d ? guess : floored(v, d));
        } else out[j] = far(a, d);
    }
}
// the same, corrected by one without a jump
FORM void quotient_corrected(const i64 *x, i64 d, i64 *out, u64 n) {
    i64 inverse = (i64)(9223372036854775806ULL / (u64)d + 1);
    for (u64 j = 0; j < n; j++) {
        i64 a = x[j];
        if (NEAR(a)) {
            i64 v = a << 16, guess = (i64)((i128)v * inverse >> 63), rest = v - guess * d;
            out[j] = clamped(guess + (rest >> 63) + (rest >= d));
        } else out[j] = far(a, d);
    }
}
// a product with the inverse as a floating number, corrected by one
FORM void quotient_floating(const i64 *x, i64 d, i64 *out, u64 n) {
    double inverse = 65536.0 / (double)d;
    for (u64 j = 0; j < n; j++) {
        i64 a = x[j];
        if (NEAR(a)) {
            i64 v = a << 16, guess = (i64)((double)a * inverse), rest = v - guess * d;
            out[j] = clamped(guess + (rest < 0 ? -1 : rest >= d));
        } else out[j] = far(a, d);
    }
}
// one pass without a branch that joins what is wrong, and all of it anew where anything is
FORM void quotient_joined(const i64 *x, i64 d, i64 *out, u64 n) {
    i64 inverse = (i64)(9223372036854775806ULL / (u64)d + 1);
    u64 all = 0, wrong = 0;
    for (u64 j = 0; j < n; j++) {
        i64 a = x[j], v = a << 16, guess = (i64)((i128)v * inverse >> 63);
        u64 rest = (u64)v - (u64)guess * (u64)d, sum = (u64)guess + (1ULL << 47);
        wrong |= rest | ((u64)d - 1 - rest);
        all |= (u64)(a + (1LL << 45)) | sum >> 2;
        out[j] = (i64)(sum & ((1ULL << 48) - 1)) - (1LL << 47);
    }
    if (all >> 46 || wrong >> 63) quotient_63rds(x, d, out, n);
}
static inline i64 reach_of(i64 d) {
    i64 most = 1LL << 45, reach = d < 65536 ? d * 2147483648LL - 1 : most;
    return reach < most ? reach : most;
}
// a bound of the dividend for which the quotient is also in range
FORM void quotient_reach_63rds(const i64 *x, i64 d, i64 *out, u64 n) {
    i64 inverse = (i64)(9223372036854775806ULL / (u64)d + 1), reach = reach_of(d);
    for (u64 j = 0; j < n; j++) {
        i64 a = x[j];
        if ((u64)(a + reach) <= (u64)(2 * reach)) {
            i64 v = a << 16, guess = (i64)((i128)v * inverse >> 63), rest = v - guess * d;
            out[j] = (u64)rest < (u64)d ? guess : floored(v, d);
        } else out[j] = far(a, d);
    }
}
// the same, the inverse in 2^64ths, its sign unknown to the compiler: the upper word is the guess
FORM void quotient_reach(const i64 *x, i64 d, i64 *out, u64 n) {
    i64 inverse = d < 3 ? -1 : (i64)(18446744073709551615ULL / (u64)d + 1), reach = reach_of(d);
    for (u64 j = 0; j < n; j++) {
        i64 a = x[j];
        if ((u64)(a + reach) <= (u64)(2 * reach)) {
            i64 v = a << 16, guess = (i64)((i128)v * inverse >> 64), rest = v - guess * d;
            out[j] = (u64)rest < (u64)d ? guess : floored(v, d);
        } else out[j] = far(a, d);
    }
}

// the same, the inverse in 2^63rds and the dividend doubled and one more: no such quotient is whole, so a guess that is
// a little off is right
FORM void quotient_reach_doubled(const i64 *x, i64 d, i64 *out, u64 n) {
    i64 inverse = d < 2 ? -1 : (i64)(9223372036854775807ULL / (u64)d + 1), reach = reach_of(d);
    for (u64 j = 0; j < n; j++) {
        i64 a = x[j];
        if ((u64)(a + reach) <= (u64)(2 * reach)) {
            i64 v = a << 16, guess = (i64)((i128)(2 * v + 1) * inverse >> 64), rest = v - guess * d;
            out[j] = (u64)rest < (u64)d ? guess : floored(v, d);
        } else out[j] = far(a, d);
    }
}

// A table of a power of two read on straight lines, times an amplitude, both short. A phase lies in the upper 24 bits
// of a word, or is scaled by the table's length so that a place has the upper 32.

#define LOOP for (u64 j = 0; j < n; j++)
#define LINE(here, rise, part) (amp * ((here) + ((rise) * (i64)(part) >> 16)) >> 16)
#define WIDE u128 at = (u128)phase * len; u64 place = (u64)(at >> 64); u32 part = (u32)((u64)at >> 48);
#define SCALED u64 place = (u32)(phase >> 32) & last; u32 part = (u32)phase >> 16;

// the phase times the length in 128 bits, the next point by a mask
FORM void wave_wide(const void *table, u32 len, u64 phase, u64 step, i64 amp, i64 *out, u64 n) {
    const i64 *points = table; u32 mask = len - 1;
    LOOP { WIDE i64 here = points[place]; out[j] = LINE(here, points[(u32)(place + 1) & mask] - here, part); phase += step; }
}
// the same, four frames a turn
FORM void wave_wide_by_four(const void *table, u32 len, u64 phase, u64 step, i64 amp, i64 *out, u64 n) {
    const i64 *points = table; u32 mask = len - 1;
#pragma clang loop unroll_count(4)
    LOOP { WIDE i64 here = points[place]; out[j] = LINE(here, points[(u32)(place + 1) & mask] - here, part); phase += step; }
}
// the same as the first, the guard point behind the last
FORM void wave_wide_guarded(const void *table, u32 len, u64 phase, u64 step, i64 amp, i64 *out, u64 n) {
    const i64 *points = table;
    LOOP { WIDE i64 here = points[place]; out[j] = LINE(here, points[place + 1] - here, part); phase += step; }
}
// a scaled phase, places by two masks
FORM void wave_scaled(const void *table, u32 len, u64 phase, u64 step, i64 amp, i64 *out, u64 n) {
    const i64 *points = table; u32 mask = len - 1, last = len - 1;
    LOOP { SCALED i64 here = points[place]; out[j] = LINE(here, points[(u32)(place + 1) & mask] - here, part); phase += step; }
}
// a scaled phase, the guard point behind the last
FORM void wave_scaled_guarded(const void *table, u32 len, u64 phase, u64 step, i64 amp, i64 *out, u64 n) {
    const i64 *points = table; u32 last = len - 1;
    LOOP { SCALED i64 here = points[place]; out[j] = LINE(here, points[place + 1] - here, part); phase += step; }
}
// a scaled phase, points of 32 bits
FORM void wave_scaled_narrow(const void *table, u32 len, u64 phase, u64 step, i64 amp, i64 *out, u64 n) {
    const i32 *points = table; u32 mask = len - 1, last = len - 1;
    LOOP { SCALED i64 here = points[place]; out[j] = LINE(here, points[(u32)(place + 1) & mask] - here, part); phase += step; }
}
// two passes: the table, then products of lower halves
FORM void wave_two_passes(const void *table, u32 len, u64 phase, u64 step, i64 amp, i64 *out, u64 n) {
    const i64 *points = table; u32 mask = len - 1, last = len - 1;
    LOOP { SCALED i64 here = points[place]; out[j] = here + ((points[(u32)(place + 1) & mask] - here) * (i64)part >> 16); phase += step; }
    LOOP out[j] = low(out[j]) * low(amp) >> 16;
}
// each point beside how far it rises to the next, 64 bits each
FORM void wave_lines_64(const void *table, u32 len, u64 phase, u64 step, i64 amp, i64 *out, u64 n) {
    const i64 *lines = table; u32 last = len - 1;
    LOOP { SCALED out[j] = LINE(lines[2 * place], lines[2 * place + 1], part); phase += step; }
}
// the same, 32 bits each
FORM void wave_lines(const void *table, u32 len, u64 phase, u64 step, i64 amp, i64 *out, u64 n) {
    const i32 *lines = table; u32 last = len - 1;
    LOOP { SCALED out[j] = LINE((i64)lines[2 * place], (i64)lines[2 * place + 1], part); phase += step; }
}
// the same, two frames a turn
FORM void wave_lines_by_two(const void *table, u32 len, u64 phase, u64 step, i64 amp, i64 *out, u64 n) {
    const i32 *lines = table; u32 last = len - 1;
#pragma clang loop unroll_count(2)
    LOOP { SCALED out[j] = LINE((i64)lines[2 * place], (i64)lines[2 * place + 1], part); phase += step; }
}
// the same with the phase times the length in 128 bits
FORM void wave_lines_wide(const void *table, u32 len, u64 phase, u64 step, i64 amp, i64 *out, u64 n) {
    const i32 *lines = table;
    LOOP { WIDE out[j] = LINE((i64)lines[2 * place], (i64)lines[2 * place + 1], part); phase += step; }
}

// Each form over ROWS rows, AGAIN times, in turn with the others, as often as is asked; the least of each.

#define ROWS 16
#define AGAIN 8
#define MOST 4096
typedef void (*Pair)(const i64 *, const i64 *, i64 *, u64);
typedef void (*Held)(const i64 *, i64, i64 *, u64);
typedef void (*Wave)(const void *, u32, u64, u64, i64, i64 *, u64);
static i64 left[ROWS][MOST], right[ROWS][MOST], out[ROWS][MOST];
static u64 frames;

static double now(void) {
    struct timespec t;
    clock_gettime(2, &t);
    return (double)t.seconds * 1e9 + (double)t.nanos;
}
static u64 sum_of_rows(void) {
    u64 sum = 0;
    for (u32 r = 0; r < ROWS; r++) for (u64 j = 0; j < frames; j++) sum = sum * 31 + (u64)out[r][j];
    return sum;
}

#define MEASURE(count, run) \
    for (u32 k = 0; k < (count); k++) least[k] = 1e30; \
    for (int t = 0; t < times; t++) for (u32 k = 0; k < (count); k++) { \
        double from = now(); \
        for (u32 again = 0; again < AGAIN; again++) for (u32 r = 0; r < ROWS; r++) { run; } \
        double took = (now() - from) / AGAIN / ROWS / (double)frames; \
        if (took < least[k]) least[k] = took; \
        if (t == 0) sums[k] = sum_of_rows(); \
        if (sums[k] != sums[0]) { printf("form %u has another sound\n", k); return 1; } \
    }

int main(int count, char **words) {
    frames = count > 1 ? (u64)atoi(words[1]) : 64;
    int times = count > 2 ? atoi(words[2]) : 400;
    if (frames < 1 || frames > MOST) return 2;
    double least[16];
    u64 sums[16], seed = 1;
    for (u32 r = 0; r < ROWS; r++) for (u64 j = 0; j < frames; j++) {
        seed = seed * 6364136223846793005ULL + 1442695040888963407ULL;
        left[r][j] = (i64)((u32)(seed >> 33)) - (1LL << 30);
        seed = seed * 6364136223846793005ULL + 1442695040888963407ULL;
        right[r][j] = (i64)((u32)(seed >> 33)) - (1LL << 30);
    }
#define SHOW(name) printf("%s %.2f\n", #name, least[k]), k++
    u32 k;
    Pair adding[] = {sum_clamped, sum_ahead, sum_joined};
    MEASURE(3, adding[k](left[r], right[r], out[r], frames))
    k = 0, SHOW(sum_clamped), SHOW(sum_ahead), SHOW(sum_joined);
    Pair multiplying[] = {product_asked, product_ahead, product_wrapping, product_low};
    MEASURE(4, multiplying[k](left[r], right[r], out[r], frames))
    k = 0, SHOW(product_asked), SHOW(product_ahead), SHOW(product_wrapping), SHOW(product_low);
    Held dividing[] = {quotient_division, quotient_rest_128, quotient_63rds, quotient_corrected, quotient_floating,
        quotient_joined, quotient_reach_63rds, quotient_reach, quotient_reach_doubled};
    i64 divisors[] = {196608, 30147, 131072};
    for (u32 d = 0; d < 3; d++) {
        MEASURE(9, dividing[k](left[r], divisors[d], out[r], frames))
        k = 0, SHOW(quotient_division), SHOW(quotient_rest_128), SHOW(quotient_63rds), SHOW(quotient_corrected),
        SHOW(quotient_floating), SHOW(quotient_joined), SHOW(quotient_reach_63rds), SHOW(quotient_reach),
        SHOW(quotient_reach_doubled);
    }
    u32 len = 4096;
    i64 *points = malloc((len + 1) * 8), *wide = malloc(len * 16);
    i32 *narrow = malloc((len + 1) * 4), *lines = malloc(len * 8);
    for (u32 i = 0; i <= len; i++) narrow[i] = (i32)(points[i] = (i64)floor(65536 * sin(6.283185307179586 * (i % len) / len) + .5));
    for (u32 i = 0; i < len; i++) {
        lines[2 * i] = (i32)(wide[2 * i] = points[i]);
        lines[2 * i + 1] = (i32)(wide[2 * i + 1] = points[i + 1] - points[i]);
    }
    Wave playing[] = {wave_wide, wave_wide_by_four, wave_wide_guarded, wave_lines_wide, wave_scaled, wave_scaled_guarded,
        wave_scaled_narrow, wave_two_passes, wave_lines_64, wave_lines, wave_lines_by_two};
    const void *tables[] = {points, points, points, lines, points, points, narrow, points, wide, lines, lines};
    MEASURE(11, u64 parts = 20900ULL * (r + 1);
        playing[k](tables[k], len, 0, k < 4 ? parts << 40 : parts * len << 8, 20 << 16, out[r], frames))
    k = 0, SHOW(wave_wide), SHOW(wave_wide_by_four), SHOW(wave_wide_guarded), SHOW(wave_lines_wide), SHOW(wave_scaled),
    SHOW(wave_scaled_guarded), SHOW(wave_scaled_narrow), SHOW(wave_two_passes), SHOW(wave_lines_64), SHOW(wave_lines),
    SHOW(wave_lines_by_two);
    return 0;
}

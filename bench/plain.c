/* The step of one smoke in plain C, for the benchmark: the documents' rules as they are written down, in the same buffers. */
#include "plain.h"

#define LIMIT 100000000u

static const int64_t WEIGHTS[3] = {1, 4, 1};
static const int64_t WEST[3] = {2, 1, 0};
static const int64_t EAST[3] = {0, 1, 2};
static const int64_t E[9] = {-3, 4, -1, -1, 0, 1, 1, -4, 3};
static const int SHIFT[9] = {13, 15, 13, 15, 17, 15, 13, 15, 13};
static const int64_t NODE[9] = {1, 4, 1, 4, 16, 4, 1, 4, 1};
static const int64_t FACTOR[3] = {1, 1, 4};
static const size_t STRIDE[4] = {3, 3, 1, 1};

static int64_t floor_div(int64_t x, int64_t d)
{
    int64_t q = x / d;
    return x % d < 0 ? q - 1 : q;
}

struct around {
    size_t west, east, south, north;
};

static struct around around(size_t nx, size_t n, size_t e)
{
    size_t i = e % nx;
    struct around a;
    a.west = i == 0 ? e + nx - 1 : e - 1;
    a.east = i + 1 == nx ? e + 1 - nx : e + 1;
    a.south = e < nx ? e + n - nx : e - nx;
    a.north = e + nx < n ? e + nx : e + nx - n;
    return a;
}

static size_t upwind_start(int64_t c, size_t behind, size_t ahead, size_t last)
{
    return c >= 0 ? behind * 9 + last : ahead * 9;
}

/* X (or Y) at the nodes of the three lines that go one way. */
static void lines(int64_t *x, const int64_t *v, int64_t cw, int64_t ce, const int64_t *u, size_t step, size_t stride)
{
    int64_t c[3];
    for (int q = 0; q < 3; q++)
        c[q] = WEIGHTS[q] * (WEST[q] * cw + EAST[q] * ce);
    for (size_t b = 0; b < 3; b++) {
        int64_t p[3];
        for (int q = 0; q < 3; q++)
            p[q] = c[q] * v[step * b + stride * q];
        for (int a = 0; a < 3; a++)
            x[3 * b + a] = p[0] * E[a] + p[1] * E[3 + a] + p[2] * E[6 + a];
        x[3 * b + 2] -= 12 * ce * u[3 + b];
        x[3 * b] += 12 * cw * u[b];
    }
}

static void tendencies(int64_t *t, const int64_t *phi, const int16_t *wind, size_t nx, size_t n, size_t e)
{
    struct around a = around(nx, n, e);
    int64_t c[4] = {wind[a.west], wind[e], wind[n + a.south], wind[n + e]};
    size_t s[4] = {upwind_start(c[0], a.west, e, 2), upwind_start(c[1], e, a.east, 2),
                   upwind_start(c[2], a.south, e, 6), upwind_start(c[3], e, a.north, 6)};
    int64_t u[12], x[9], y[9], v[9];
    for (int m = 0; m < 12; m++)
        u[m] = phi[s[m / 3] + STRIDE[m / 3] * (m % 3)];
    for (int k = 0; k < 9; k++)
        v[k] = phi[e * 9 + k];
    lines(x, v, c[0], c[1], u, 3, 1);
    lines(y, v, c[2], c[3], u + 6, 1, 3);
    for (int k = 0; k < 9; k++)
        t[k] = (WEIGHTS[k / 3] * x[k] + WEIGHTS[k % 3] * y[3 * (k % 3) + k / 3]) >> SHIFT[k];
}

static void advance(int64_t *work, const int16_t *wind, size_t nx, size_t n, size_t stage)
{
    const int64_t *phi = work + stage * 9 * n;
    int64_t *to = work + (stage + 1) * 9 * n;
    int64_t *sums = work + 36 * n;
    for (size_t e = 0; e < n; e++) {
        int64_t t[9];
        tendencies(t, phi, wind, nx, n, e);
        for (int k = 0; k < 9; k++) {
            int64_t s = sums[9 * e + k] + FACTOR[stage] * t[k];
            sums[9 * e + k] = s;
            to[9 * e + k] = work[9 * e + k] + (stage == 0 ? s : stage == 1 ? s >> 2 : floor_div(s, 6));
        }
    }
}

static void start(int64_t *work, const uint32_t *part, size_t n)
{
    for (size_t e = 0; e < n; e++)
        for (int k = 0; k < 9; k++) {
            work[36 * n + 9 * e + k] = 0;
            work[9 * e + k] = part[10 * e + k];
        }
}

static int64_t face_flux(const int64_t *work, size_t n, int64_t c, size_t at, size_t stride)
{
    int64_t sum = 0;
    for (int r = 0; r < 3; r++, at += stride)
        sum += WEIGHTS[r] * (work[at] + 4 * work[18 * n + at] + work[9 * n + at]);
    /* To the nearest, the even one at a half. */
    int64_t product = c * sum;
    return (2 * product + 4095 + (product >> 12 & 1)) >> 13;
}

static void fluxes(int64_t *work, const int16_t *wind, size_t nx, size_t n)
{
    for (size_t e = 0; e < n; e++) {
        struct around a = around(nx, n, e);
        work[46 * n + e] = face_flux(work, n, wind[n + e], upwind_start(wind[n + e], e, a.north, 6), 1);
        work[45 * n + e] = face_flux(work, n, wind[e], upwind_start(wind[e], e, a.east, 2), 3);
    }
}

static int64_t above(int64_t x)
{
    return x < 0 ? 0 : x;
}

static void amounts(int64_t *work, const uint32_t *part, size_t nx, size_t n)
{
    const int64_t *g = work + 45 * n;
    for (size_t e = 0; e < n; e++) {
        struct around a = around(nx, n, e);
        int64_t m = part[10 * e + 9];
        for (int k = 0; k < 9; k++)
            m += NODE[k] * part[10 * e + k];
        work[48 * n + e] = above(g[e]) + above(-g[a.west]) + above(g[n + e]) + above(-g[n + a.south]);
        work[47 * n + e] = m;
    }
}

static int32_t limited(const int64_t *work, size_t n, size_t f, size_t behind, size_t ahead)
{
    int64_t g = work[45 * n + f];
    size_t d = g >= 0 ? behind : ahead;
    int64_t out = work[48 * n + d], m = work[47 * n + d];
    return (int32_t)(out <= m ? g : g * m / out);
}

static void limit(const int64_t *work, int32_t *report, size_t nx, size_t n)
{
    for (size_t e = 0; e < n; e++) {
        struct around a = around(nx, n, e);
        report[n + e] = limited(work, n, n + e, e, a.north);
        report[e] = limited(work, n, e, e, a.east);
    }
}

/* Gives the clipped mass. */
static uint64_t close_element(uint32_t *part, const int64_t *psi, uint64_t t)
{
    int64_t s = 0;
    uint64_t p = 0, held = 0;
    for (int k = 0; k < 9; k++)
        s += NODE[k] * psi[k];
    int64_t shift = floor_div((int64_t)t - s, 36);
    for (int k = 0; k < 9; k++)
        p += (uint64_t)NODE[k] * (uint64_t)above(psi[k] + shift);
    for (int k = 0; k < 9; k++) {
        uint64_t v = (uint64_t)above(psi[k] + shift);
        uint64_t y = p <= t ? v : v * t / p;
        part[k] = (uint32_t)y;
        held += (uint64_t)NODE[k] * y;
    }
    part[9] = (uint32_t)(t - held);
    return (uint64_t)((int64_t)p - (s + 36 * shift));
}

/* q of each face, over the amounts. */
static void hold(int64_t *work, const int32_t *report, size_t n)
{
    for (size_t f = 0; f < 2 * n; f++)
        work[45 * n + f] = (work[45 * n + f] - report[f]) / 6;
}

/* psi of an element with what its faces add. */
static void with_held(int64_t *to, const int64_t *psi, const int64_t *held, size_t n, size_t e, struct around a)
{
    int64_t x[3] = {-held[a.west], 0, held[e]};
    int64_t y[3] = {-held[n + a.south], 0, held[n + e]};
    for (int k = 0; k < 9; k++)
        to[k] = psi[k] + x[k % 3] + y[k / 3];
}

static uint64_t finish(uint32_t *part, const int64_t *work, const int32_t *report, size_t nx, size_t n)
{
    uint64_t clipped = 0;
    for (size_t e = 0; e < n; e++) {
        struct around a = around(nx, n, e);
        int64_t t = work[47 * n + e] - report[e] + report[a.west] - report[n + e] + report[n + a.south];
        int64_t psi[9];
        with_held(psi, work + 27 * n + 9 * e, work + 45 * n, n, e, a);
        clipped += close_element(part + 10 * e, psi, (uint64_t)t);
    }
    return clipped;
}

/* 6 where a remainder or the sum is out of range, or the sum isn't the stored total. */
static int sound(const uint32_t *part, size_t n)
{
    uint64_t sum = 0;
    for (size_t e = 0; e < n; e++) {
        for (int k = 0; k < 9; k++) {
            sum += (uint64_t)NODE[k] * part[10 * e + k];
            if (sum > LIMIT)
                return 0;
        }
        if (part[10 * e + 9] > 35)
            return 0;
        sum += part[10 * e + 9];
        if (sum > LIMIT)
            return 0;
    }
    return sum == part[10 * n];
}

int64_t plain_step(uint32_t *field, size_t field_count, const int16_t *wind, size_t wind_count,
                   int32_t *report, size_t report_count, int64_t *work, size_t work_count,
                   size_t nx, size_t ny, size_t smokes, size_t smoke)
{
    if (nx < 1 || nx > 64 || ny < 1 || ny > 64 || smokes < 1 || smokes > 8)
        return -2;
    size_t n = nx * ny;
    size_t length = 10 * n + 1;
    if (field_count < smokes * length || wind_count < 2 * n || report_count < 2 * n || work_count < 64 * n)
        return -4;
    for (size_t f = 0; f < 2 * n; f++)
        if (wind[f] < -1024 || wind[f] > 1024)
            return -5;
    if (smoke >= smokes)
        return -7;
    uint32_t *part = field + smoke * length;
    if (!sound(part, n))
        return -6;
    start(work, part, n);
    for (size_t stage = 0; stage < 3; stage++)
        advance(work, wind, nx, n, stage);
    fluxes(work, wind, nx, n);
    amounts(work, part, nx, n);
    limit(work, report, nx, n);
    hold(work, report, n);
    return (int64_t)finish(part, work, report, nx, n);
}

/* Document 01's lookup in plain C, the measure of speed: two selections of the nearest points over one weighing.
 *
 * Both have the shape that the documents ask of the library: the survey by value, R0 in it, the root bit by bit. "form" makes one pass that
 * keeps the nearest eleven in a sorted buffer. "kept" has the selection that was found fastest: squares to an array, the points within a limit
 * gathered without a branch, each then put where its rank says. R0 goes by document 02's polygon, and is worked out once, when the survey is
 * made. Distances and radii are in 256ths of a step. */
#ifndef REFERENCE_H
#define REFERENCE_H

#include <math.h>
#include <stdint.h>
#include <string.h>

#define INLINE static inline __attribute__((always_inline))

enum { DOMAIN = 4096, MAX_POINTS = 256, FEW = 4, MOST = 10, HELD = 11, MAX_SIDE = 64 };
enum { FAR_AWAY = 0x7fffffff };

/* Points by ascending x, then y; R0 of them, set by whoever makes the survey. */
typedef struct {
    uint16_t x[MAX_POINTS], y[MAX_POINTS];
    int8_t z[MAX_POINTS];
    uint16_t count;
    uint32_t r0;
} Survey;

typedef struct { int16_t answer; uint16_t count; uint32_t radius; } Answer;

/* The nearest points in order: squared distance, then index in the survey, ascend. */
typedef struct { int32_t squared[HELD + 1], at[HELD + 1]; int count; } Nearest;

/* One bit at a time, with no division and no branch; gcc would make one of a plain `if`. */
INLINE uint32_t root(uint64_t n) {
    uint64_t rest = n, r = 0;
    for (uint64_t bit = (uint64_t)1 << 40; bit != 0; bit >>= 2) {
        uint64_t t = r + bit, take = -(uint64_t)(rest >= t);
        rest -= t & take;
        r = (r >> 1) + (bit & take);
    }
    return (uint32_t)r;
}

INLINE uint32_t distance(int32_t squared) { return root((uint64_t)squared << 16); }

/* The cross product of the ways from a to b and from a to c: above 0 where c is left of the way to b. */
INLINE int cross(const Survey *s, int a, int b, int c) {
    return (s->x[b] - s->x[a]) * (s->y[c] - s->y[a]) - (s->y[b] - s->y[a]) * (s->x[c] - s->x[a]);
}

/* Twice the area between the x axis and a chain of the polygon from its first point to its last: the lower for side 1, the upper for side -1. */
INLINE int twice_area_under(const Survey *s, int side) {
    int corner[MAX_POINTS], n = 0, twice = 0;
    for (int i = 0; i < s->count; i++) {
        while (n > 1 && side * cross(s, corner[n - 2], corner[n - 1], i) <= 0) n--;
        corner[n++] = i;
    }
    for (int i = 1; i < n; i++) twice += (s->x[corner[i]] - s->x[corner[i - 1]]) * (s->y[corner[i]] + s->y[corner[i - 1]]);
    return twice;
}

/* R0; a hardware root, which is exact here. */
INLINE uint32_t initial_radius(const Survey *s) {
    if (s->count == 0) return 0;
    uint64_t twice = (uint64_t)(twice_area_under(s, -1) - twice_area_under(s, 1));
    return (uint32_t)(int64_t)sqrt((double)(int64_t)(65536u * 791u * twice / (2u * 355u * (uint64_t)s->count)));
}

/* The greatest squared distance whose distance is at most the radius. */
INLINE int32_t reach_of(uint32_t radius) {
    uint64_t r = radius + (uint64_t)1, reach = (r * r - 1) >> 16;
    return reach < FAR_AWAY ? (int32_t)reach : FAR_AWAY - 1;
}

INLINE int32_t squared_at(const Survey *s, int i, int px, int py) {
    int dx = s->x[i] - px, dy = s->y[i] - py;
    return dx * dx + dy * dy;
}

/* Points come in the survey's order, so an equal one goes behind those that are there. */
INLINE void insert(Nearest *k, int32_t squared, int at) {
    int i = k->count < HELD ? k->count++ : HELD - 1;
    for (; i > 0 && k->squared[i - 1] > squared; i--) {
        k->squared[i] = k->squared[i - 1];
        k->at[i] = k->at[i - 1];
    }
    k->squared[i] = squared;
    k->at[i] = at;
}

/* One pass, one sorted buffer. */
INLINE void select_pass(const Survey *s, int px, int py, Nearest *k) {
    k->count = 0;
    for (int i = 0; i <= HELD; i++) k->squared[i] = FAR_AWAY;
    for (int i = 0, n = s->count; i < n; i++) {
        int32_t squared = squared_at(s, i, px, py);
        if (squared < k->squared[HELD - 1]) insert(k, squared, i);
    }
}

enum { LANES = 16, GROUPS = 8, CANDIDATES = 16 };

INLINE int count_within(const int32_t *squares, int full, int32_t limit) {
    int n = 0;
    for (int b = 0; b < full; b += LANES)
        for (int i = 0; i < LANES; i++) n += squares[b + i] <= limit;
    return n;
}

/* A limit under which five points or more lie, seldom many more: the fifth of the least squares of eight groups. */
INLINE int32_t limit_of_five(const int32_t *squares, int full) {
    int32_t least[GROUPS], limit = 0;
    for (int i = 0; i < GROUPS; i++) least[i] = squares[i];
    for (int b = GROUPS; b < full; b += GROUPS)
        for (int i = 0; i < GROUPS; i++) least[i] = squares[b + i] < least[i] ? squares[b + i] : least[i];
    for (int i = 0; i < GROUPS; i++) {
        int rank = 0;
        for (int j = 0; j < GROUPS; j++) rank += (least[j] < least[i]) | ((least[j] == least[i]) & (j < i));
        limit = rank == FEW ? least[i] : limit;
    }
    return limit;
}

/* No branch on a single point: a limit is sought under which 5 to 16 points lie (R0's first; a greater one where too few do; 11 to 16 under a
 * lesser one). */
INLINE void select_rank(const Survey *s, int px, int py, int32_t reach, Nearest *k) {
    _Alignas(64) int32_t squares[MAX_POINTS];
    int n = s->count, full = (n + LANES - 1) & ~(LANES - 1);
    for (int b = 0; b < full; b += LANES)
        for (int i = 0; i < LANES; i++) squares[b + i] = squared_at(s, b + i, px, py);
    for (int i = n; i < full; i++) squares[i] = FAR_AWAY;

    int32_t low = 0, high = FAR_AWAY - 1, limit = reach;
    int found = count_within(squares, full, limit), tries = 0;
    if (found <= FEW && found < n) {
        low = reach;
        limit = n > CANDIDATES ? limit_of_five(squares, full) : FAR_AWAY - 1;
        found = count_within(squares, full, limit);
    }
    while (found > CANDIDATES || (found < (limit < reach ? HELD : FEW + 1) && found < n)) {
        if (++tries > 12) { select_pass(s, px, py, k); return; }
        if (found > CANDIDATES) high = limit; else low = limit;
        int64_t guess = found > CANDIDATES ? (int64_t)limit * 10 / found : 2 * (int64_t)limit + 1;
        limit = guess <= low || guess >= high ? low + (high - low) / 2 : (int32_t)guess;
        found = count_within(squares, full, limit);
    }

    int32_t near[CANDIDATES + 1], at[CANDIDATES + 1], by_rank[CANDIDATES], at_rank[CANDIDATES];
    for (int i = 0; i <= CANDIDATES; i++) near[i] = FAR_AWAY;
    for (int i = 0, m = 0; i < full; i++) {
        near[m] = squares[i];
        at[m] = i;
        m += squares[i] <= limit;
    }
    near[found] = FAR_AWAY;
    for (int i = 0; i < found; i++) {
        int rank = 0;
        for (int j = 0; j < CANDIDATES; j++) rank += (near[j] < near[i]) | ((near[j] == near[i]) & (j < i));
        by_rank[rank] = near[i];
        at_rank[rank] = at[i];
    }
    k->count = found < HELD ? found : HELD;
    for (int i = 0; i < k->count; i++) {
        k->squared[i] = by_rank[i];
        k->at[i] = at_rank[i];
    }
}

INLINE Answer weigh(const Survey *s, int px, int py, uint32_t r0, int32_t reach, const Nearest *k) {
    if (k->squared[0] == 0 && k->count > 0) return (Answer){(int16_t)(256 * s->z[k->at[0]]), 1, 0};
    int within = 0;
    while (within < k->count && k->squared[within] <= reach) within++;
    int few = s->count <= FEW;
    int n = few ? s->count : within <= FEW ? FEW : within >= HELD ? MOST : within;
    uint32_t radius = few ? 0 : within > FEW && within < HELD ? r0 : distance(k->squared[n]);

    double D[MOST] = {0}, X[MOST] = {0}, Y[MOST] = {0}, factor[MOST], over[MOST], turn[MOST] = {0};
    double R = (double)(int32_t)radius, taper = few ? 0.0 : 27.0 / (4.0 * R * R * R), total = 0.0;
    int least = 127;
    for (int i = 0; i < n; i++) {
        int at = k->at[i];
        uint32_t whole = distance(k->squared[i]);
        D[i] = (double)(int32_t)whole;
        X[i] = (double)(256 * (s->x[at] - px));
        Y[i] = (double)(256 * (s->y[at] - py));
        double inverse = 1.0 / D[i], gap = R - D[i];
        factor[i] = few || 3 * whole <= radius ? inverse : taper * gap * gap;
        over[i] = factor[i] * inverse;
        total += factor[i];
        least = s->z[at] < least ? s->z[at] : least;
    }
    if (total == 0.0) {
        int sum = 0;
        for (int i = 0; i < n; i++) sum += s->z[k->at[i]] - least;
        return (Answer){(int16_t)(256 * least + (512 * sum + n) / (2 * n)), (uint16_t)n, radius};
    }
    /* turn[j]: the sum over the others i of s_i / D_i * |D_i D_j - 65,536 g| */
    for (int i = 0; i < n; i++) {
        double own = turn[i];
        for (int j = 0; j < MOST; j++) turn[j] += over[i] * fabs(D[i] * D[j] - (X[i] * X[j] + Y[i] * Y[j]));
        turn[i] = own;
    }
    double weights = 0.0, values = 0.0;
    for (int i = 0; i < n; i++) {
        double w = factor[i] * factor[i] * (total + turn[i] / D[i]);
        weights += w;
        values += w * (double)(s->z[k->at[i]] - least);
    }
    int32_t part = (int32_t)(256.0 * (values / weights) + 0.5);
    return (Answer){(int16_t)(256 * least + part), (uint16_t)n, radius};
}

__attribute__((noinline)) static Answer lookup_form(Survey s, int px, int py) {
    Nearest k;
    select_pass(&s, px, py, &k);
    return weigh(&s, px, py, s.r0, reach_of(s.r0), &k);
}

__attribute__((noinline)) static Answer lookup_kept(Survey s, int px, int py) {
    Nearest k;
    select_rank(&s, px, py, reach_of(s.r0), &k);
    return weigh(&s, px, py, s.r0, reach_of(s.r0), &k);
}
#endif

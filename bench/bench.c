/* One solve of the library beside two plain twins in C, in one run and on the same bytes: the answers are compared, the
 * times printed with their ratios. usage: bench [count]  (count: each side solves each problem once, not timed) */
#include <stdio.h>
#include <string.h>

#include "problems.h"

enum { REFUSED = 99 }; /* of a twin, which does not number its refusals */

/* ---- the twin: the same tests of the tables and the same scheme, plainly, trusting sizes and words */
static int64_t magnitude(int64_t x) { return x < 0 ? -x : x; }
static int64_t up(int64_t x, int b) { return (x + (1ll << b) - 1) >> b; }

struct tables {
    int64_t m[16][16], low[16], high[16], g[16], h[16], y[16], beta, margin;
};

static int accepted(const struct problem *p, struct tables *t)
{
    int n = p->n, limits = 8 + n * n + n * p->nx, targets = limits + 2 * n + 1 + p->nx;
    int64_t f = 1ll << p->b, least = INT64_MAX, largest = 0, top = INT32_MAX;
    for (int i = 0; i < n; i++) {
        int64_t others = 0, diagonal = word(p, 8 + i * n + i);
        if (t->low[i] > 0 || t->high[i] < 0)
            return 0;
        for (int j = 0; j < n; j++) {
            if (word(p, 8 + i * n + j) != word(p, 8 + j * n + i))
                return 0;
            others += j == i ? 0 : magnitude(word(p, 8 + i * n + j));
        }
        least = diagonal - others < least ? diagonal - others : least;
        largest = diagonal + others > largest ? diagonal + others : largest;
    }
    t->margin = least;
    if (least < 1 || largest > f || (f + t->beta) * (f + t->beta) * least < (f - t->beta) * (f - t->beta) * largest)
        return 0;
    for (int i = 0; i < n; i++) {
        int64_t a = 0, b = 0;
        for (int j = 0; j < n; j++)
            a += magnitude(t->m[i][j]) * t->y[j];
        for (int j = 0; j < p->nx; j++)
            b += magnitude(word(p, 8 + n * n + i * p->nx + j)) * word(p, limits + 2 * n + 1 + j);
        for (int j = 0; j < p->nr; j++)
            b += magnitude(word(p, targets + i * p->nr + j)) * word(p, targets + n * p->nr + j);
        if (up(a, p->b) + up(b, p->b) > top || t->y[i] > top)
            return 0;
    }
    return 1;
}

static void load(const struct problem *p, struct tables *t)
{
    int n = p->n, limits = 8 + n * n + n * p->nx, targets = limits + 2 * n + 1 + p->nx;
    t->beta = word(p, limits + 2 * n);
    for (int i = 0; i < n; i++) {
        t->low[i] = word(p, limits + i);
        t->high[i] = word(p, limits + n + i);
        int64_t zb = magnitude(t->low[i]) > magnitude(t->high[i]) ? magnitude(t->low[i]) : magnitude(t->high[i]);
        t->y[i] = zb + up(t->beta * (t->high[i] - t->low[i]), p->b);
        int64_t g = 0;
        for (int j = 0; j < p->nx; j++)
            g += word(p, 8 + n * n + i * p->nx + j) * get(p->state + 4 * j);
        for (int j = 0; j < p->nr; j++)
            g += word(p, targets + i * p->nr + j) * get(p->target + 4 * j);
        t->g[i] = g;
        t->h[i] = g >> p->b;
        for (int j = 0; j < n; j++)
            t->m[i][j] = (i == j ? 1ll << p->b : 0) - word(p, 8 + i * n + j);
    }
}

static int64_t held(const struct tables *t, int i, int64_t x, int64_t unit)
{
    int64_t low = t->low[i] * unit, high = t->high[i] * unit;
    return x < low ? low : x > high ? high : x;
}

static int64_t capped(const struct tables *t, int i, int64_t bound)
{
    int64_t width = t->high[i] - t->low[i];
    return bound > width ? width : bound;
}

static int64_t next_y(const struct problem *p, const struct tables *t, int64_t z, int64_t old)
{
    return (((1ll << p->b) + t->beta) * z >> p->b) - (t->beta * old >> p->b);
}

static int64_t next_q(const struct problem *p, const struct tables *t, int64_t e, int64_t old)
{
    return e + up(t->beta * (e + old), p->b) + 1;
}

/* D: how far the commands are from their held gradient step at most, over the least margin, rounded up. */
static int64_t distance(const struct problem *p, const struct tables *t, const int64_t *z)
{
    int64_t f = 1ll << p->b, largest = 0;
    for (int i = 0; i < p->n; i++) {
        int64_t step = -t->g[i];
        for (int j = 0; j < p->n; j++)
            step += t->m[i][j] * z[j];
        int64_t apart = magnitude(held(t, i, step, f) - f * z[i]);
        largest = apart > largest ? apart : largest;
    }
    return (largest + t->margin - 1) / t->margin;
}

static void write_answer(const struct problem *p, const struct tables *t, const int64_t *z, const int64_t *e,
                         uint8_t *answer)
{
    int64_t d = distance(p, t, z);
    for (int i = 0; i < p->n; i++) {
        put(answer + 4 * i, z[i]);
        put(answer + 4 * (p->n + i), e[i]);
    }
    put(answer + 8 * p->n, d >> 32);
    put(answer + 8 * p->n + 4, d);
}

/* As the papers write it: every sweep is run, commands and bounds together. */
static uint32_t twin(const struct problem *p, uint8_t *answer)
{
    struct tables t;
    int64_t z[16], y[16], e[16] = {0}, q[16] = {0}, next[16], bound[16];
    int n = p->n;
    load(p, &t);
    if (!accepted(p, &t))
        return REFUSED;
    for (int i = 0; i < n; i++)
        z[i] = y[i] = get(p->start + 4 * i);
    for (int s = 0; s < p->sweeps; s++) {
        for (int i = 0; i < n; i++) {
            int64_t sum = 0, weight = 0;
            for (int j = 0; j < n; j++) {
                sum += t.m[i][j] * y[j];
                weight += magnitude(t.m[i][j]) * q[j];
            }
            next[i] = held(&t, i, (sum >> p->b) - t.h[i], 1);
            bound[i] = capped(&t, i, up(weight, p->b) + 1);
        }
        for (int i = 0; i < n; i++) {
            y[i] = next_y(p, &t, next[i], z[i]);
            q[i] = next_q(p, &t, bound[i], e[i]);
            z[i] = next[i];
            e[i] = bound[i];
        }
    }
    write_answer(p, &t, z, e, answer);
    return GANTRY_ACCEPTED;
}

/* The commands, until a sweep changes neither z nor y, since no later one can then. Answers how many sweeps came before
 * that one. */
static int commands(const struct problem *p, const struct tables *t, int64_t *z)
{
    int64_t y[16], next[16];
    for (int i = 0; i < p->n; i++)
        z[i] = y[i] = get(p->start + 4 * i);
    for (int s = 0; s < p->sweeps; s++) {
        int changed = 0;
        for (int i = 0; i < p->n; i++) {
            int64_t sum = 0;
            for (int j = 0; j < p->n; j++)
                sum += t->m[i][j] * y[j];
            next[i] = held(t, i, (sum >> p->b) - t->h[i], 1);
        }
        for (int i = 0; i < p->n; i++) {
            int64_t point = next_y(p, t, next[i], z[i]);
            changed |= next[i] != z[i] || point != y[i];
            z[i] = next[i];
            y[i] = point;
        }
        if (!changed)
            return s;
    }
    return p->sweeps;
}

/* The bounds likewise, by e and q. */
static int bounds(const struct problem *p, const struct tables *t, int64_t *e)
{
    int64_t q[16] = {0}, bound[16];
    memset(e, 0, 16 * sizeof *e);
    for (int s = 0; s < p->sweeps; s++) {
        int changed = 0;
        for (int i = 0; i < p->n; i++) {
            int64_t weight = 0;
            for (int j = 0; j < p->n; j++)
                weight += magnitude(t->m[i][j]) * q[j];
            bound[i] = capped(t, i, up(weight, p->b) + 1);
        }
        for (int i = 0; i < p->n; i++) {
            int64_t range = next_q(p, t, bound[i], e[i]);
            changed |= bound[i] != e[i] || range != q[i];
            e[i] = bound[i];
            q[i] = range;
        }
        if (!changed)
            return s;
    }
    return p->sweeps;
}

/* The twin with early ends: commands and bounds apart, each as far as it changes. */
static uint32_t early_twin(const struct problem *p, uint8_t *answer)
{
    struct tables t;
    int64_t z[16], e[16];
    load(p, &t);
    if (!accepted(p, &t))
        return REFUSED;
    commands(p, &t, z);
    bounds(p, &t, e);
    write_answer(p, &t, z, e, answer);
    return GANTRY_ACCEPTED;
}

/* ---- the sides */
static const struct {
    const char *name;
    uint32_t (*solve)(const struct problem *, uint8_t *answer);
} sides[] = {{"library", library}, {"twin", twin}, {"early twin", early_twin}};
enum { SIDES = sizeof sides / sizeof *sides };

static int agree(const struct problem *p)
{
    uint8_t answers[SIDES][ANSWER] = {{0}};
    for (int k = 0; k < SIDES; k++) {
        uint32_t number = sides[k].solve(p, answers[k]);
        if (number != GANTRY_ACCEPTED || memcmp(answers[k], answers[0], GANTRY_ANSWER_BYTES(p->n)) != 0) {
            const char *answer = number == GANTRY_ACCEPTED ? "differs" : "none";
            printf("%s: %s, number %u, answer %s\n", p->name, sides[k].name, (unsigned)number, answer);
            return 0;
        }
    }
    return 1;
}

/* noipa: a solve whose answer nobody reads is not left out, and valgrind finds the call by its name. */
__attribute__((noipa)) static void call_once(const struct problem *p, int side)
{
    uint8_t answer[ANSWER];
    sides[side].solve(p, answer);
}

/* The best of many rounds, in us: what the code takes when nothing disturbs it. The sides take turns, so that each
 * meets the machine at its fastest. */
static void measure(const struct problem *p, double *least)
{
    for (int r = 0; r < 400; r++)
        for (int k = 0; k < SIDES; k++) {
            double begin = now();
            for (int c = 0; c < p->calls; c++)
                call_once(p, k);
            double took = 1e6 * (now() - begin) / p->calls;
            least[k] = r == 0 || took < least[k] ? took : least[k];
        }
}

static void print_settled(const char *what, int sweeps, int most)
{
    if (sweeps < most)
        printf(" %s settle after %d,", what, sweeps);
    else
        printf(" %s do not settle,", what);
}

static void report(const struct problem *p)
{
    struct tables t;
    int64_t z[16], e[16];
    double us[SIDES];
    load(p, &t);
    measure(p, us);
    printf("%s:", p->name);
    print_settled("commands", commands(p, &t, z), p->sweeps);
    print_settled("bounds", bounds(p, &t, e), p->sweeps);
    for (int k = 0; k < SIDES; k++)
        printf(" %s %.2f us,", sides[k].name, us[k]);
    printf(" ratios %.2f and %.2f, same answer\n", us[0] / us[1], us[0] / us[2]);
}

/* Each line names a solve, in the order of valgrind's counts. */
static void count(const struct problem *p)
{
    for (int k = 0; k < SIDES; k++) {
        printf("%s, %s\n", p->name, sides[k].name);
        call_once(p, k);
    }
}

int main(int argc, char **argv)
{
    static struct problem all[PROBLEMS];
    int counting = argc == 2 && strcmp(argv[1], "count") == 0;
    make_problems(all);
    for (const struct problem *p = all; p < all + PROBLEMS; p++) {
        if (!agree(p))
            return 1;
        if (counting)
            count(p);
        else
            report(p);
    }
    return 0;
}

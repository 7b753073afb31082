/* One range solve of the library beside a plain twin in C, and beside the solve of a state in the middle of the ranges, in
 * one run and on the same bytes: the answers are compared, the times printed with the ratio of range solve and twin.
 * usage: ranges [count]  (count: each side is called once, not timed) */
#include <stdio.h>
#include <string.h>

#include "problems.h"

enum { CASES = 6, WIDE = 2000 };

struct ranged {
    struct problem p;
    int width; /* of each range, in counts, but where the state limit is nearer; 0 for ranges of one value */
    uint8_t ranges[GANTRY_RANGES_BYTES(GANTRY_MAX_STATES)];
};

/* ---- the twin: the same carrying, plainly and without a single check. A negative factor takes the opposite end. */
struct ends {
    int64_t low[16], high[16];
};

struct tables {
    int64_t m[16][16], low[16], high[16], beta;
    struct ends h;
};

static int64_t held(const struct tables *t, int i, int64_t x)
{
    return x < t->low[i] ? t->low[i] : x > t->high[i] ? t->high[i] : x;
}

static void load_h(const struct ranged *r, struct tables *t, int i)
{
    const struct problem *p = &r->p;
    int n = p->n, targets = 8 + n * n + n * p->nx + 2 * n + 1 + p->nx;
    int64_t low = 0, high = 0;
    for (int j = 0; j < p->nx; j++) {
        int64_t factor = word(p, 8 + n * n + i * p->nx + j);
        int64_t least = get(r->ranges + 4 * j), most = get(r->ranges + 4 * (p->nx + j));
        low += factor * (factor < 0 ? most : least);
        high += factor * (factor < 0 ? least : most);
    }
    for (int j = 0; j < p->nr; j++) {
        int64_t part = word(p, targets + i * p->nr + j) * get(p->target + 4 * j);
        low += part;
        high += part;
    }
    t->h.low[i] = low >> p->b;
    t->h.high[i] = high >> p->b;
}

static void load(const struct ranged *r, struct tables *t)
{
    const struct problem *p = &r->p;
    int n = p->n, limits = 8 + n * n + n * p->nx;
    t->beta = word(p, limits + 2 * n);
    for (int i = 0; i < n; i++) {
        t->low[i] = word(p, limits + i);
        t->high[i] = word(p, limits + n + i);
        for (int j = 0; j < n; j++)
            t->m[i][j] = (i == j ? 1ll << p->b : 0) - word(p, 8 + i * n + j);
        load_h(r, t, i);
    }
}

static void next_z(const struct problem *p, const struct tables *t, const struct ends *y, struct ends *next)
{
    for (int i = 0; i < p->n; i++) {
        int64_t low = 0, high = 0;
        for (int j = 0; j < p->n; j++) {
            int64_t factor = t->m[i][j];
            low += factor * (factor < 0 ? y->high[j] : y->low[j]);
            high += factor * (factor < 0 ? y->low[j] : y->high[j]);
        }
        next->low[i] = held(t, i, (low >> p->b) - t->h.high[i]);
        next->high[i] = held(t, i, (high >> p->b) - t->h.low[i]);
    }
}

static int64_t next_y(const struct problem *p, const struct tables *t, int64_t z, int64_t old)
{
    return (((1ll << p->b) + t->beta) * z >> p->b) - (t->beta * old >> p->b);
}

/* New low with old high, and the reverse. Answers whether anything changed. */
static int take_next(const struct problem *p, const struct tables *t, const struct ends *next, struct ends *z,
                     struct ends *y)
{
    int changed = 0;
    for (int i = 0; i < p->n; i++) {
        int64_t low = next_y(p, t, next->low[i], z->high[i]), high = next_y(p, t, next->high[i], z->low[i]);
        changed |= next->low[i] != z->low[i] || next->high[i] != z->high[i] || low != y->low[i] || high != y->high[i];
        z->low[i] = next->low[i], z->high[i] = next->high[i];
        y->low[i] = low, y->high[i] = high;
    }
    return changed;
}

/* Until a sweep changes nothing at either end. Answers how many came before that one. */
static int sweeps(const struct problem *p, const struct tables *t, struct ends *z)
{
    struct ends y, next;
    for (int i = 0; i < p->n; i++)
        z->low[i] = z->high[i] = y.low[i] = y.high[i] = get(p->start + 4 * i);
    for (int s = 0; s < p->sweeps; s++) {
        next_z(p, t, &y, &next);
        if (!take_next(p, t, &next, z, &y))
            return s;
    }
    return p->sweeps;
}

static uint32_t twin(const struct ranged *r, uint8_t *answer)
{
    struct tables t;
    struct ends z;
    load(r, &t);
    sweeps(&r->p, &t, &z);
    for (int i = 0; i < r->p.n; i++) {
        put(answer + 4 * i, z.low[i]);
        put(answer + 4 * (r->p.n + i), z.high[i]);
    }
    return GANTRY_ACCEPTED;
}

/* ---- the sides */
static uint32_t solve(const struct ranged *r, uint8_t *answer) { return library(&r->p, answer); }

static uint32_t range_solve(const struct ranged *r, uint8_t *answer)
{
    const struct problem *p = &r->p;
    return gantry_range_solve(p->image, p->image_len, r->ranges, GANTRY_RANGES_BYTES(p->nx), p->target,
                              GANTRY_TARGET_BYTES(p->nr), p->start, GANTRY_START_BYTES(p->n), answer,
                              GANTRY_RANGE_ANSWER_BYTES(p->n));
}

enum { SOLVE, RANGE_SOLVE, TWIN, SIDES };
static const struct {
    const char *name;
    uint32_t (*call)(const struct ranged *, uint8_t *answer);
} sides[SIDES] = {{"solve", solve}, {"range solve", range_solve}, {"twin", twin}};

/* The solve's commands between lowest and highest; with ranges of one value they are both. */
static int encloses(const struct ranged *r, const uint8_t *ends, const uint8_t *solved)
{
    int inside = 1;
    for (int i = 0; i < r->p.n; i++) {
        int64_t low = get(ends + 4 * i), high = get(ends + 4 * (r->p.n + i)), command = get(solved + 4 * i);
        inside &= low <= command && command <= high && (r->width > 0 || low == high);
    }
    return inside;
}

static void print_name(const struct ranged *r)
{
    printf("%s, ranges of ", r->p.name);
    if (r->width > 0)
        printf("%d counts", r->width);
    else
        printf("one value");
}

static int agree(const struct ranged *r)
{
    uint8_t answers[SIDES][ANSWER] = {{0}};
    for (int k = 0; k < SIDES; k++) {
        uint32_t number = sides[k].call(r, answers[k]);
        if (number != GANTRY_ACCEPTED) {
            print_name(r);
            printf(": %s, number %u\n", sides[k].name, (unsigned)number);
            return 0;
        }
    }
    if (memcmp(answers[RANGE_SOLVE], answers[TWIN], GANTRY_RANGE_ANSWER_BYTES(r->p.n)) == 0 &&
        encloses(r, answers[RANGE_SOLVE], answers[SOLVE]))
        return 1;
    print_name(r);
    printf(": answer differs\n");
    return 0;
}

/* noipa: as in bench.c. */
__attribute__((noipa)) static void call_once(const struct ranged *r, int side)
{
    uint8_t answer[ANSWER];
    sides[side].call(r, answer);
}

/* The best of many rounds in turns, as in bench.c. */
static void measure(const struct ranged *r, double *least)
{
    for (int round = 0; round < 400; round++)
        for (int k = 0; k < SIDES; k++) {
            double begin = now();
            for (int c = 0; c < r->p.calls; c++)
                call_once(r, k);
            double took = 1e6 * (now() - begin) / r->p.calls;
            least[k] = round == 0 || took < least[k] ? took : least[k];
        }
}

static void report(const struct ranged *r)
{
    struct tables t;
    struct ends z;
    double us[SIDES];
    load(r, &t);
    int settled = sweeps(&r->p, &t, &z);
    measure(r, us);
    print_name(r);
    if (settled < r->p.sweeps)
        printf(": both ends settle after %d,", settled);
    else
        printf(": the ends do not settle,");
    for (int k = 0; k < SIDES; k++)
        printf(" %s %.2f us,", sides[k].name, us[k]);
    printf(" ratio %.2f, same answer\n", us[RANGE_SOLVE] / us[TWIN]);
}

/* Each line names a call, in the order of valgrind's counts. */
static void count(const struct ranged *r)
{
    for (int k = 0; k < SIDES; k++) {
        print_name(r);
        printf(", %s\n", sides[k].name);
        call_once(r, k);
    }
}

/* The state lies in the middle, but where its limit is nearer. */
static void make_case(struct ranged *r, const struct problem *p, int width)
{
    int limits = 8 + p->n * p->n + p->n * p->nx + 2 * p->n + 1;
    r->p = *p;
    r->width = width;
    for (int j = 0; j < p->nx; j++) {
        int64_t limit = word(p, limits + j), low = get(p->state + 4 * j) - width / 2, high = low + width;
        put(r->ranges + 4 * j, low < -limit ? -limit : low);
        put(r->ranges + 4 * (p->nx + j), high > limit ? limit : high);
    }
}

/* With ranges of one value a solve's slowest image is slowest, with wider ones another. */
static void make_cases(struct ranged *all)
{
    static struct problem problems[PROBLEMS], parting;
    struct problem *small = problems, *largest = problems + 2, *slowest = problems + PROBLEMS - 1;
    make_problems(problems);
    make_slowest_ranges(&parting);
    make_case(all, small, WIDE);
    make_case(all + 1, largest, WIDE);
    make_case(all + 2, slowest, 0);
    make_case(all + 3, slowest, WIDE);
    make_case(all + 4, &parting, 0);
    make_case(all + 5, &parting, WIDE);
}

int main(int argc, char **argv)
{
    static struct ranged all[CASES];
    int counting = argc == 2 && strcmp(argv[1], "count") == 0;
    make_cases(all);
    for (const struct ranged *r = all; r < all + CASES; r++) {
        if (!agree(r))
            return 1;
        if (counting)
            count(r);
        else
            report(r);
    }
    return 0;
}

#define _POSIX_C_SOURCE 200809L
#include "problems.h"

#include <string.h>
#include <time.h>

static uint32_t seed = 12345;
static int64_t random_word(int64_t most)
{
    seed = seed * 1664525u + 1013904223u;
    return (int64_t)(seed >> 8) % (2 * most + 1) - most;
}

static void make(struct problem *p, int nu, int steps, int nx, int nr, int b, int sweeps)
{
    int n = nu * steps, at = 8 + n * n;
    int64_t f = 1ll << b;
    memset(p, 0, sizeof *p);
    p->n = n, p->nx = nx, p->nr = nr, p->b = b, p->sweeps = sweeps;
    p->image_len = GANTRY_IMAGE_BYTES(n, nx, nr);
    int head[8] = {nu, steps, nx, b, 32, sweeps, nr, 0};
    for (int i = 0; i < 8; i++)
        put(p->image + 4 * i, head[i]);
    for (int i = 0; i < n; i++)
        for (int j = i; j < n; j++) {
            int64_t h = i == j ? f / 2 : random_word(f / (4 * n));
            put(p->image + 4 * (8 + i * n + j), h);
            put(p->image + 4 * (8 + j * n + i), h);
        }
    for (int i = 0; i < n * nx; i++)
        put(p->image + 4 * (at + i), random_word(f));
    at += n * nx;
    for (int i = 0; i < n; i++) {
        int64_t limit = (20 - i / nu) * f; /* a little narrower at each step */
        put(p->image + 4 * (at + i), -limit);
        put(p->image + 4 * (at + n + i), limit);
        put(p->start + 4 * i, random_word(limit));
    }
    put(p->image + 4 * (at + 2 * n), f / 2);
    for (int i = 0; i < nx; i++) {
        put(p->image + 4 * (at + 2 * n + 1 + i), 4 * f);
        put(p->state + 4 * i, random_word(4 * f));
    }
    at += 2 * n + 1 + nx;
    for (int i = 0; i < n * nr; i++)
        put(p->image + 4 * (at + i), random_word(f));
    for (int i = 0; i < nr; i++) {
        put(p->image + 4 * (at + n * nr + i), 4 * f);
        put(p->target + 4 * i, random_word(4 * f));
    }
}

/* The slowest known: neither commands nor bounds settle. With the largest step factor the commands swing about zero,
 * each at its own pace, so that a branch on a sign is hard to predict; the last row's bound grows steadily. Where no
 * branch depends on the values, every image of this size that never settles takes as long. */
static void make_slowest(struct problem *p)
{
    int n = 16, limits = 8 + n * n + n * 12, limit = 1 << 28, f = 1 << 20;
    make(p, 4, 4, 12, 4, 20, 400);
    memset(p->image + 4 * 8, 0, 4 * (size_t)(n * n));
    for (int i = 0; i < n; i++) {
        put(p->image + 4 * (8 + i * n + i), i < n - 1 ? (i + 1) * f / 150 : 2 * f / 3);
        put(p->image + 4 * (limits + i), -limit);
        put(p->image + 4 * (limits + n + i), limit);
        put(p->start + 4 * i, i % 2 ? limit : -limit);
    }
    put(p->image + 4 * (limits + 2 * n), f - 1);
    memset(p->state, 0, sizeof p->state);
    memset(p->target, 0, sizeof p->target);
}

/* The slowest known for ranges. Where a row's margin is small beside the step factor, lowest and highest part fast and soon
 * stand at the limits, all but the last row's of the image above. Here the factor is the smallest that passes check 11, and
 * they part by some counts at every sweep; the signs of the table are mixed, so that a branch on one is hard to predict. */
void make_slowest_ranges(struct problem *p)
{
    int n = 16, limits = 8 + n * n + n * 12, diagonal = 4096;
    int64_t limit = 1 << 28, f = 1 << 20, least = diagonal - (n - 1), largest = diagonal + (n - 1), beta = 0;
    make(p, 4, 4, 12, 4, 20, 400);
    for (int i = 0; i < n; i++) {
        for (int j = i; j < n; j++) {
            int64_t h = i == j ? diagonal : random_word(1000) < 0 ? -1 : 1;
            put(p->image + 4 * (8 + i * n + j), h);
            put(p->image + 4 * (8 + j * n + i), h);
        }
        put(p->image + 4 * (limits + i), -limit);
        put(p->image + 4 * (limits + n + i), limit);
        put(p->start + 4 * i, i % 2 ? limit : -limit);
    }
    while ((f + beta) * (f + beta) * least < (f - beta) * (f - beta) * largest)
        beta++;
    put(p->image + 4 * (limits + 2 * n), beta);
    p->name = "n 16, nx 12, nr 4, b 20, 400 sweeps, slowest for ranges", p->calls = 3;
}

void make_problems(struct problem *all)
{
    struct problem *small = all, *hundred = all + 1, *largest = all + 2, *slowest = all + 3;
    make(largest, 4, 4, 12, 4, 20, 400);
    make(small, 2, 1, 4, 0, 16, 20);
    *hundred = *largest;
    hundred->sweeps = 100;
    put(hundred->image + 4 * 5, 100);
    make_slowest(slowest);
    small->name = "n 2, nx 4, nr 0, b 16, 20 sweeps", small->calls = 200;
    hundred->name = "n 16, nx 12, nr 4, b 20, 100 sweeps", hundred->calls = 5;
    largest->name = "n 16, nx 12, nr 4, b 20, 400 sweeps", largest->calls = 3;
    slowest->name = "n 16, nx 12, nr 4, b 20, 400 sweeps, slowest", slowest->calls = 3;
}

uint32_t library(const struct problem *p, uint8_t *answer)
{
    return gantry_solve(p->image, p->image_len, p->state, GANTRY_STATE_BYTES(p->nx), p->target,
                        GANTRY_TARGET_BYTES(p->nr), p->start, GANTRY_START_BYTES(p->n), answer,
                        GANTRY_ANSWER_BYTES(p->n));
}

double now(void)
{
    struct timespec t;
    clock_gettime(CLOCK_MONOTONIC, &t);
    return (double)t.tv_sec + 1e-9 * (double)t.tv_nsec;
}

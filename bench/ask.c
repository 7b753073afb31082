/* An ask beside the solve that it makes, in one run and on the same bytes: the answers are compared, the times printed.
 * The difference is what a drive costs. The other calls on a drive are timed too, and a sweep. usage: ask [count]
 * (count: each call is made once, not timed) */
#include <stdio.h>
#include <string.h>

#include "problems.h"

enum { SOLVE, ASK, COMMIT, MAKE, NEW_IMAGE, PERIOD, DONE, CALLS };
static const char *const names[CALLS] = {"solve", "ask", "commit", "make", "new image", "period", "done"};

/* A drive has four heads, of which one is used. Asks of one drive repeat, since they leave its start as it is. They
 * cost sweeps: before each round of asks, and not timed with them, a period of as many as can be begins, and the head's
 * own share of it, 16383, is enough for the round. A commit uses up the waiting answer, so each commit of a round has a
 * drive of its own; they are few enough to stay in the fastest cache. The other calls have one of these: after a make
 * no answer waits. A done takes the same steps where its share is used up. No call of a round may be refused. */
enum { DRIVES = 8, HEAD = 0, SWEEPS = UINT16_MAX };
static uint8_t ready[GANTRY_DRIVE_BYTES]; /* an answer waits in it */
static uint8_t drives[DRIVES][GANTRY_DRIVE_BYTES];

static uint32_t call(const struct problem *p, int kind, uint8_t *drive, uint8_t *out)
{
    switch (kind) {
    case SOLVE:
        return library(p, out);
    case ASK:
        return gantry_ask(drive, GANTRY_DRIVE_BYTES, HEAD, p->state, GANTRY_STATE_BYTES(p->nx), p->target,
                          GANTRY_TARGET_BYTES(p->nr), out, GANTRY_ANSWER_BYTES(p->n));
    case COMMIT:
        return gantry_commit(drive, GANTRY_DRIVE_BYTES, HEAD, out, GANTRY_COMMANDS_BYTES(word(p, 0)));
    case MAKE:
        return gantry_make(p->image, p->image_len, GANTRY_MAX_HEADS, drive, GANTRY_DRIVE_BYTES);
    case NEW_IMAGE:
        return gantry_new_image(drive, GANTRY_DRIVE_BYTES, p->image, p->image_len);
    case PERIOD:
        return gantry_period(drive, GANTRY_DRIVE_BYTES, SWEEPS);
    default:
        return gantry_done(drive, GANTRY_DRIVE_BYTES, HEAD);
    }
}

/* The drive of a call: the one with the waiting answer is for asks. */
static uint8_t *drive_of(int kind, int c)
{
    return kind == ASK ? ready : drives[kind == COMMIT ? c : 0];
}

/* How many bytes of the solve's answer a call writes out. */
static size_t written(const struct problem *p, int kind)
{
    return kind == ASK ? GANTRY_ANSWER_BYTES(p->n) : kind == COMMIT ? GANTRY_COMMANDS_BYTES(word(p, 0)) : 0;
}

/* noipa: valgrind finds the call by its name. */
__attribute__((noipa)) static uint32_t call_once(const struct problem *p, int kind, uint8_t *drive)
{
    uint8_t out[ANSWER];
    return call(p, kind, drive, out);
}

static int wrong(const struct problem *p, const char *what, uint32_t number)
{
    const char *answer = number == GANTRY_ACCEPTED ? "differs" : "none";
    printf("ask beside solve, %s: %s, number %u, answer %s\n", p->name, what, (unsigned)number, answer);
    return 0;
}

/* Makes the drive, begins a period, leaves an answer waiting. Two asks give the solve's bytes, a commit the first. */
static int agree(const struct problem *p)
{
    static const int kinds[] = {SOLVE, ASK, ASK, COMMIT, MAKE, NEW_IMAGE, PERIOD, DONE};
    uint8_t solved[ANSWER] = {0}, out[ANSWER] = {0};
    uint32_t number = call(p, MAKE, ready, out);
    if (number != GANTRY_ACCEPTED)
        return wrong(p, names[MAKE], number);
    number = call(p, PERIOD, ready, out);
    if (number != GANTRY_ACCEPTED)
        return wrong(p, names[PERIOD], number);
    for (size_t k = 0; k < sizeof kinds / sizeof *kinds; k++) {
        int kind = kinds[k];
        if (kind == COMMIT)
            memcpy(drives[0], ready, sizeof ready);
        number = call(p, kind, drive_of(kind, 0), kind == SOLVE ? solved : out);
        if (number != GANTRY_ACCEPTED || memcmp(out, solved, written(p, kind)) != 0)
            return wrong(p, names[kind], number);
    }
    return 1;
}

/* One round: us of a call; periods and dones are so short that it takes many to tell. A refusal leaves its number. */
static double take(const struct problem *p, int kind, uint32_t *refused)
{
    int calls = kind == COMMIT ? DRIVES : kind == PERIOD || kind == DONE ? 200 : p->calls;
    if (kind == ASK)
        *refused = call(p, PERIOD, ready, NULL);
    if (kind == COMMIT)
        for (int c = 0; c < DRIVES; c++)
            memcpy(drives[c], ready, sizeof ready);
    double begin = now();
    for (int c = 0; c < calls; c++) {
        uint32_t number = call_once(p, kind, drive_of(kind, c));
        *refused = number == GANTRY_ACCEPTED ? *refused : number;
    }
    return 1e6 * (now() - begin) / calls;
}

/* The best of many rounds in turns, as in bench.c. */
static int report(const struct problem *p)
{
    double least[CALLS] = {0};
    for (int r = 0; r < 400; r++)
        for (int k = 0; k < CALLS; k++) {
            uint32_t refused = GANTRY_ACCEPTED;
            double took = take(p, k, &refused);
            if (refused != GANTRY_ACCEPTED)
                return wrong(p, names[k], refused);
            least[k] = r == 0 || took < least[k] ? took : least[k];
        }
    printf("ask beside solve, %s:", p->name);
    for (int k = 0; k < CALLS; k++)
        printf(" %s %.*f us,", names[k], least[k] < 0.1 ? 3 : 2, least[k]);
    printf(" same answer\n");
    return 1;
}

/* us of an ask, of a round with an allowance of that many sweeps in which each ask has the number due. */
static double take_asks(const struct problem *p, uint16_t sweeps, uint32_t due, int *as_due)
{
    *as_due &= gantry_period(ready, sizeof ready, sweeps) == GANTRY_ACCEPTED;
    double begin = now();
    for (int c = 0; c < p->calls; c++)
        *as_due &= call_once(p, ASK, ready) == due;
    return 1e6 * (now() - begin) / p->calls;
}

/* For choosing the S of a period: what a sweep takes at most, from the image that never settles with one sweep and with
 * all of its own; what an ask takes beside its sweeps; and what one takes that is refused with 20, its checks. */
static int report_sweep(const struct problem *slowest)
{
    static struct problem one;
    double least[3] = {0};
    int as_due = 1;
    one = *slowest;
    put(one.image + 4 * 5, 1); /* its sweeps */
    for (int r = 0; r < 400 && as_due; r++) {
        double took[3];
        as_due &= call(&one, MAKE, ready, NULL) == GANTRY_ACCEPTED;
        took[0] = take_asks(&one, SWEEPS, GANTRY_ACCEPTED, &as_due);
        as_due &= call(slowest, MAKE, ready, NULL) == GANTRY_ACCEPTED;
        took[1] = take_asks(slowest, SWEEPS, GANTRY_ACCEPTED, &as_due);
        took[2] = take_asks(slowest, 0, GANTRY_NO_SWEEPS, &as_due);
        for (int k = 0; k < 3; k++)
            least[k] = r == 0 || took[k] < least[k] ? took[k] : least[k];
    }
    double sweep = (least[1] - least[0]) / (slowest->sweeps - 1);
    printf("for choosing S, %s: a sweep %.3f us, an ask %.2f us beside its sweeps, %.2f us refused with 20%s\n",
           slowest->name, sweep, least[0] - sweep, least[2], as_due ? "" : ", wrong number");
    return as_due;
}

/* Each line names a call, in the order of valgrind's counts. */
static int count(const struct problem *p)
{
    for (int k = 0; k < CALLS; k++) {
        printf("%s, from zeros, %s\n", p->name, names[k]);
        uint32_t number = call_once(p, k, ready);
        if (number != GANTRY_ACCEPTED)
            return wrong(p, names[k], number);
    }
    return 1;
}

/* A new drive starts from zeros, so the solve does too. There the slowest one's commands would stand still: a small state
 * draws them away, and they swing about other places than zero. */
static void start_from_zeros(struct problem *all)
{
    struct problem *slowest = all + PROBLEMS - 1;
    for (int i = 0; i < PROBLEMS; i++)
        memset(all[i].start, 0, sizeof all[i].start);
    for (int i = 0; i < slowest->nx; i++)
        put(slowest->state + 4 * i, 1 << (slowest->b - 6));
}

int main(int argc, char **argv)
{
    static struct problem all[PROBLEMS];
    int counting = argc == 2 && strcmp(argv[1], "count") == 0;
    make_problems(all);
    start_from_zeros(all);
    for (const struct problem *p = all; p < all + PROBLEMS; p++) {
        if (!agree(p) || !(counting ? count(p) : report(p)))
            return 1;
    }
    return counting || report_sweep(all + PROBLEMS - 1) ? 0 : 1;
}

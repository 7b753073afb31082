/* Worn encoders: what a range of 3 counts does to the commands. Each worn encoder gives its value less 1 to its value and 1;
 * one range solve then has the lowest and the highest of each command. The program solves every state within the ranges too,
 * and its exit status tells whether all lay between. usage: ranges SHEET CLIMBING, two files, the second of a sheet whose
 * bound climbs */
#include <stdio.h>
#include <string.h>

#include "gantry.h"
#include "words.h"

enum { MOTORS = 2, STEPS = 3, COMMANDS = MOTORS * STEPS, STATES = 2, TARGETS = 2 };
enum { LINE = 23, LINES = 1 + GANTRY_DESIGN_NUMBERS(COMMANDS, STATES, TARGETS) }; /* of the sheet */
enum { LOWS = 8 + COMMANDS * COMMANDS + COMMANDS * STATES, HIGHS = LOWS + COMMANDS }; /* words of the image: the limits */
enum { WEAR = 1 };

static const int32_t place[STATES] = {1024, 1024}, seam[TARGETS] = {5120, -1024};

static uint8_t image[GANTRY_IMAGE_BYTES(COMMANDS, STATES, TARGETS)];
static uint8_t start[GANTRY_START_BYTES(COMMANDS)];
static uint8_t target[GANTRY_TARGET_BYTES(TARGETS)];

/* ---- the two calls */

/* Lows and highs of the ranges, as they are lent. */
struct ranges {
    int32_t low[STATES], high[STATES];
};

static struct ranges worn(int32_t wear_0, int32_t wear_1)
{
    return (struct ranges){{place[0] - wear_0, place[1] - wear_1}, {place[0] + wear_0, place[1] + wear_1}};
}

static uint32_t range_solve(const struct ranges *r, uint8_t *answer)
{
    uint8_t ranges[GANTRY_RANGES_BYTES(STATES)];
    put_words(ranges, r->low, STATES);
    put_words(ranges + sizeof ranges / 2, r->high, STATES);
    return gantry_range_solve(image, sizeof image, ranges, sizeof ranges, target, sizeof target, start, sizeof start,
                              answer, GANTRY_RANGE_ANSWER_BYTES(COMMANDS));
}

static uint32_t solve(const int32_t *values, uint8_t *answer)
{
    uint8_t state[GANTRY_STATE_BYTES(STATES)];
    put_words(state, values, STATES);
    return gantry_solve(image, sizeof image, state, sizeof state, target, sizeof target, start, sizeof start, answer,
                        GANTRY_ANSWER_BYTES(COMMANDS));
}

/* ---- what both say of some ranges */

struct found {
    int lowest[COMMANDS], highest[COMMANDS]; /* the range solve's */
    int least[COMMANDS], most[COMMANDS];     /* of the solves of all states within the ranges: their spread */
    int solved[COMMANDS];                    /* of the state in the middle */
    int states;
};

static int failed; /* whether anything was not as promised */

static void add_state(struct found *f, const int32_t *values)
{
    uint8_t answer[GANTRY_ANSWER_BYTES(COMMANDS)] = {0};
    failed |= solve(values, answer) != GANTRY_ACCEPTED;
    for (int k = 0; k < COMMANDS; k++) {
        int command = get_command(answer, k);
        failed |= command < f->lowest[k] || command > f->highest[k];
        f->least[k] = f->states == 0 || command < f->least[k] ? command : f->least[k];
        f->most[k] = f->states == 0 || command > f->most[k] ? command : f->most[k];
        if (memcmp(values, place, sizeof place) == 0)
            f->solved[k] = command;
    }
    f->states++;
}

static struct found find(const struct ranges *r)
{
    struct found f = {0};
    uint8_t answer[GANTRY_RANGE_ANSWER_BYTES(COMMANDS)] = {0};
    failed |= range_solve(r, answer) != GANTRY_ACCEPTED;
    for (int k = 0; k < COMMANDS; k++) {
        f.lowest[k] = get_command(answer, k);
        f.highest[k] = get_command(answer, COMMANDS + k);
    }
    for (int32_t first = r->low[0]; first <= r->high[0]; first++)
        for (int32_t second = r->low[1]; second <= r->high[1]; second++)
            add_state(&f, (int32_t[STATES]){first, second});
    return f;
}

/* ---- what is printed */

static void print_ranges(const struct ranges *r, const char *what)
{
    printf("ranges %d to %d and %d to %d: %s\n", (int)r->low[0], (int)r->high[0], (int)r->low[1], (int)r->high[1], what);
}

/* Width 0: the command is the same for every state within the ranges. A limit may be why. */
static const char *why_same(int k, int command)
{
    return command == get_command(image, LOWS + k) || command == get_command(image, HIGHS + k) ? "   at its limit"
                                                                                               : "   not touched";
}

static void show(struct ranges r, const char *what)
{
    struct found f = find(&r);
    print_ranges(&r, what);
    for (int k = 0; k < COMMANDS; k++) {
        int width = f.highest[k] - f.lowest[k];
        printf("  step %d, motor %d%9d%9d%9d%9d%9d%s\n", k / MOTORS, k % MOTORS, f.lowest[k], f.solved[k], f.highest[k],
               width, f.most[k] - f.least[k], width == 0 ? why_same(k, f.lowest[k]) : "");
    }
}

static void show_widths(struct ranges r, const char *what)
{
    struct found f = find(&r);
    print_ranges(&r, what);
    printf("  widths ");
    for (int k = 0; k < COMMANDS; k++)
        printf("%6d", f.highest[k] - f.lowest[k]);
    printf(", spreads");
    for (int k = 0; k < COMMANDS; k++)
        printf("%3d", f.most[k] - f.least[k]);
    printf("\n");
}

static void show_one_value(void)
{
    struct ranges r = worn(0, 0);
    struct found f = find(&r);
    int twice = memcmp(f.lowest, f.solved, sizeof f.solved) == 0 && memcmp(f.highest, f.solved, sizeof f.solved) == 0;
    failed |= !twice;
    print_ranges(&r, twice ? "the solve's commands twice" : "NOT the solve's commands twice");
}

/* Low and high exchanged. The answer keeps its bytes. */
static void show_crossed(void)
{
    struct ranges r = worn(0, -WEAR);
    uint8_t answer[GANTRY_RANGE_ANSWER_BYTES(COMMANDS)], before[sizeof answer];
    memset(answer, 0xA5, sizeof answer);
    memcpy(before, answer, sizeof answer);
    uint32_t number = range_solve(&r, answer);
    failed |= number != GANTRY_BAD_STATE || memcmp(answer, before, sizeof answer) != 0;
    print_ranges(&r, number == GANTRY_BAD_STATE ? "refused 13, a low above its high" : "NOT refused 13");
}

/* ---- the run */

/* The sheet becomes the image, and the start a cold one. Without a file: refused, as an empty one. */
static uint32_t take_sheet(const char *path)
{
    uint8_t sheet[LINE * LINES + 1];
    FILE *file = fopen(path, "rb");
    size_t length = file ? fread(sheet, 1, sizeof sheet, file) : 0;
    if (file)
        fclose(file);
    uint32_t number = gantry_intake(sheet, length, image, sizeof image);
    return number == GANTRY_ACCEPTED ? gantry_cold_start(image, sizeof image, start, sizeof start) : number;
}

static uint32_t run(const char *path, const char *climbing)
{
    uint32_t number = take_sheet(path);
    if (number != GANTRY_ACCEPTED)
        return number;
    printf("counts of 1/4096%10s%9s%9s%9s%9s\n", "lowest", "solve", "highest", "width", "spread");
    show(worn(WEAR, WEAR), "both encoders worn");
    show(worn(0, WEAR), "encoder 1 worn");
    show_one_value();
    show_crossed();
    number = take_sheet(climbing);
    if (number == GANTRY_ACCEPTED)
        show_widths(worn(WEAR, WEAR), "a sheet whose bound climbs");
    return number;
}

int main(int argc, char **argv)
{
    put_words(target, seam, TARGETS);
    uint32_t number = run(argc == 3 ? argv[1] : "", argc == 3 ? argv[2] : "");
    if (number != GANTRY_ACCEPTED)
        printf("refused %02u\n", (unsigned)number);
    else
        printf("%s\n", failed ? "NOT as promised" : "every state's solve lies between lowest and highest");
    return number != GANTRY_ACCEPTED || failed;
}

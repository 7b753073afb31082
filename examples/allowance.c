/* Pen, knife and punch on one chip, which affords so many sweeps a period. Where they are too few for all, an ask is
 * refused with 20, and its head does what was chosen for it beforehand: it holds its last commands, or stops. A head
 * that can wait declares itself done, and leaves its share to the others. usage: allowance SHEET, a file */
#include <stdio.h>
#include <string.h>

#include "gantry.h"
#include "words.h"

enum { PEN, KNIFE, PUNCH, HEADS };
enum { MOTORS = 2, STEPS = 3, COMMANDS = MOTORS * STEPS, STATES = 2, TARGETS = 2 };
enum { LINE = 23, LINES = 1 + GANTRY_DESIGN_NUMBERS(COMMANDS, STATES, TARGETS) }; /* of the sheet */

static uint8_t drive[GANTRY_DRIVE_BYTES];

static struct head {
    const char *name;
    int holds;                                       /* without an answer: it holds its last commands, or else stops */
    int32_t place[STATES];                           /* the plant: the place along each motor's axis */
    uint8_t commands[GANTRY_COMMANDS_BYTES(MOTORS)]; /* what its motors get */
    int waits;                                       /* whether an answer does */
    unsigned own;                                    /* the sweeps that it has left of its share */
} heads[HEADS] = {
    {.name = "pen", .place = {1024, 1024}},
    {.name = "knife", .place = {0, 512}, .holds = 1}, /* a halt in the cloth would show */
    {.name = "punch", .place = {512, 768}},
};

/* ---- sweeps, counted from the calls as in the drive. A period or a done is not refused: the calls alone write it */

static unsigned cost, common; /* of an ask, the image's sweeps; what is left of the common part */

static void print_left(int column)
{
    printf("%*s", 56 - column, "");
    for (int k = 0; k < HEADS; k++)
        printf("%6u", heads[k].own);
    printf("%8u\n", common);
}

static void begin(int period, unsigned sweeps, const char *what)
{
    gantry_period(drive, sizeof drive, (uint16_t)sweeps);
    for (int k = 0; k < HEADS; k++)
        heads[k].own = sweeps / HEADS;
    common = sweeps % HEADS;
    print_left(printf("period %d, %u sweeps: %s", period, sweeps, what));
}

static void done(uint32_t k)
{
    gantry_done(drive, sizeof drive, k);
    common += heads[k].own, heads[k].own = 0;
    print_left(printf("  %-5s done", heads[k].name));
}

/* ---- ask and commit */

/* What a head goes on with when its ask is refused, which takes nothing away: an answer that waits may be committed. */
static const char *instead(const struct head *h)
{
    return h->waits ? "commit what waits" : h->holds ? "hold its last commands" : "stop";
}

static void ask(uint32_t k)
{
    static const int32_t seam[TARGETS] = {4096, 0};
    struct head *h = &heads[k];
    uint8_t state[GANTRY_STATE_BYTES(STATES)], aim[GANTRY_TARGET_BYTES(TARGETS)], answer[GANTRY_ANSWER_BYTES(COMMANDS)];
    put_words(state, h->place, STATES);
    put_words(aim, seam, TARGETS);
    uint32_t number = gantry_ask(drive, sizeof drive, k, state, sizeof state, aim, sizeof aim, answer, sizeof answer);
    int column = printf("  %-5s ask   ", h->name);
    if (number == GANTRY_ACCEPTED) {
        unsigned from_own = cost < h->own ? cost : h->own; /* the rest is from the common part */
        h->own -= from_own, common -= cost - from_own;
        h->waits = 1;
        column += printf("%6d%6d", get_command(answer, 0), get_command(answer, 1));
    } else
        column += printf("  refused %02u, will %s", (unsigned)number, instead(h));
    print_left(column);
}

/* A refused commit leaves the buffer as it was, and so holds the last commands; zero stops. */
static void commit(uint32_t k)
{
    struct head *h = &heads[k];
    uint32_t number = gantry_commit(drive, sizeof drive, k, h->commands, sizeof h->commands);
    h->waits = 0;
    if (number != GANTRY_ACCEPTED && !h->holds)
        memset(h->commands, 0, sizeof h->commands);
    for (int motor = 0; motor < MOTORS; motor++)
        h->place[motor] += get_command(h->commands, motor);
    printf("  %-5s commit%6d%6d", h->name, get_command(h->commands, 0), get_command(h->commands, 1));
    if (number != GANTRY_ACCEPTED)
        printf("   refused %02u, %s", (unsigned)number, h->holds ? "holds" : "stops");
    printf("\n");
}

static void each(void (*call)(uint32_t))
{
    for (uint32_t k = 0; k < HEADS; k++)
        call(k);
}

/* ---- the run */

static void run(void)
{
    printf("counts of 1/4096, motor 0 and motor 1; an ask costs %u sweeps\n", cost);
    printf("%56s%6s%6s%6s%8s\n", "sweeps left:", "pen", "knife", "punch", "common");
    begin(1, HEADS * cost, "an ask for each");
    each(ask);
    each(commit);
    begin(2, HEADS * (cost - 1) + 1, "too few for all"); /* each owns one less than an ask costs, and one is common */
    each(ask);
    done(PUNCH); /* it can wait */
    ask(KNIFE);
    each(commit);
    begin(3, HEADS * cost + 2, "what was left has lapsed"); /* else the pen's second ask would be granted */
    each(ask);
    ask(PEN);
    each(commit);
}

/* The drive holds the image from here on, so neither sheet nor image is kept. */
static uint32_t make_drive(const char *path)
{
    uint8_t sheet[LINE * LINES + 1], image[GANTRY_IMAGE_BYTES(COMMANDS, STATES, TARGETS)];
    FILE *file = fopen(path, "rb");
    size_t length = file ? fread(sheet, 1, sizeof sheet, file) : 0; /* without a file: refused, as an empty one */
    if (file)
        fclose(file);
    uint32_t number = gantry_intake(sheet, length, image, sizeof image);
    if (number != GANTRY_ACCEPTED)
        return number;
    cost = get_sweeps(image);
    return gantry_make(image, sizeof image, HEADS, drive, sizeof drive);
}

int main(int argc, char **argv)
{
    uint32_t number = make_drive(argc == 2 ? argv[1] : "");
    if (number == GANTRY_ACCEPTED)
        run();
    else
        printf("refused %02u\n", (unsigned)number);
    return number != GANTRY_ACCEPTED;
}

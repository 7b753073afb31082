/* Pen and knife on one gantry. Both heads share the tables of a drive; each has its own start and waiting answer. They take
 * turns: the pen draws in one period, the knife cuts in the next, and each goes on from where its own last commit left it.
 * Near the cloth's end both get other tables, with two steps for three. usage: heads DIR DIR, the sheets in DIR/drive.hex */
#include <stdio.h>
#include <string.h>

#include "gantry.h"
#include "words.h"

enum { PEN, KNIFE, HEADS };
static const char *const names[HEADS] = {"pen", "knife"};

enum { MOTORS = 2, STATES = 2, TARGETS = 2, MOST_STEPS = 3, MOST = MOTORS * MOST_STEPS };
enum { LINE = 23, LINES = 1 + GANTRY_DESIGN_NUMBERS(MOST, STATES, TARGETS) }; /* of the longer sheet */

static uint8_t drive[GANTRY_DRIVE_BYTES];
static uint8_t commands[GANTRY_COMMANDS_BYTES(MOTORS)];
static int steps, sweeps; /* of the image that the drive holds */

/* the plant: the place of each head along each motor's axis */
static int32_t place[HEADS][STATES] = {{1024, 1024}, {0, 512}};

/* ---- tables */

struct tables {
    const char *folder;
    int steps;
    uint8_t image[GANTRY_IMAGE_BYTES(MOST, STATES, TARGETS)];
};

static size_t image_bytes(const struct tables *t)
{
    return GANTRY_IMAGE_BYTES(MOTORS * t->steps, STATES, TARGETS);
}

/* The drive holds these tables from here on. */
static void hold(const struct tables *t)
{
    steps = t->steps;
    sweeps = (int)get_sweeps(t->image);
}

static uint32_t read_tables(struct tables *t)
{
    uint8_t sheet[LINE * LINES + 1];
    char path[4096];
    size_t length = 0;
    if (snprintf(path, sizeof path, "%s/drive.hex", t->folder) < (int)sizeof path) {
        FILE *file = fopen(path, "rb");
        length = file ? fread(sheet, 1, sizeof sheet, file) : 0;
        if (file)
            fclose(file);
    }
    return gantry_intake(sheet, length, t->image, image_bytes(t));
}

/* New tables for both heads. A refusal leaves all as it was: with 19 an answer waits that was asked of the old tables. */
static void change(const struct tables *t)
{
    uint32_t number = gantry_new_image(drive, sizeof drive, t->image, image_bytes(t));
    printf("  new image, %d steps", t->steps);
    if (number == GANTRY_ACCEPTED) {
        hold(t);
        printf("\n");
    } else
        printf("   refused %02u\n", (unsigned)number);
}

/* ---- a head's turn */

static void ask(uint32_t head, const int32_t *aim)
{
    uint8_t state[GANTRY_STATE_BYTES(STATES)], target[GANTRY_TARGET_BYTES(TARGETS)], answer[GANTRY_ANSWER_BYTES(MOST)];
    put_words(state, place[head], STATES);
    put_words(target, aim, TARGETS);
    uint32_t number = gantry_ask(drive, sizeof drive, head, state, sizeof state, target, sizeof target, answer,
                                 GANTRY_ANSWER_BYTES(MOTORS * steps));
    printf("  %-5s ask    %6d%6d", names[head], (int)aim[0], (int)aim[1]);
    if (number != GANTRY_ACCEPTED)
        printf("   refused %02u\n", (unsigned)number);
    else {
        for (int step = 0; step < steps; step++)
            printf("%8d%6d", get_command(answer, MOTORS * step), get_command(answer, MOTORS * step + 1));
        printf("%*s%4llu\n", 14 * (MOST_STEPS - steps), "", get_distance(answer, MOTORS * steps));
    }
}

/* Zero where nothing waits: the head that is not asked stands still. */
static void commit(uint32_t head)
{
    uint32_t number = gantry_commit(drive, sizeof drive, head, commands, sizeof commands);
    if (number != GANTRY_ACCEPTED)
        memset(commands, 0, sizeof commands);
    for (int motor = 0; motor < MOTORS; motor++)
        place[head][motor] += get_command(commands, motor);
    printf("  %-5s commit             %8d%6d   ", names[head], get_command(commands, 0), get_command(commands, 1));
    if (number != GANTRY_ACCEPTED)
        printf("refused %02u, ", (unsigned)number);
    printf("now at %d %d\n", (int)place[head][0], (int)place[head][1]);
}

static void turn(uint32_t head, const int32_t *aim)
{
    ask(head, aim);
    commit(head);
}

/* ---- the run */

/* Sweeps for an ask of each head. A period is never refused: the calls alone write the drive. */
static void begin(int period, const char *what)
{
    gantry_period(drive, sizeof drive, (uint16_t)(HEADS * sweeps));
    printf("period %d%s\n", period, what);
}

static void run(const struct tables *end)
{
    static const int32_t seam[2][TARGETS] = {{4096, 0}, {5632, -512}}; /* the knife cuts where the pen has drawn */
    printf("counts of 1/4096, motor 0 and motor 1\n");
    printf("%24s%14s%14s%14s%6s\n", "target", "step 0", "step 1", "step 2", "D");
    for (int period = 1; period <= 4; period++) {
        begin(period, "");
        turn(period % 2 ? PEN : KNIFE, seam[0]);
    }
    begin(5, ", the cloth's end is near");
    ask(PEN, seam[1]);
    change(end); /* the pen's answer waits, whoever asks for the new tables */
    commit(KNIFE);
    commit(PEN);
    change(end);
    for (int period = 6; period <= 7; period++) {
        begin(period, "");
        turn(period % 2 ? KNIFE : PEN, seam[1]);
    }
}

int main(int argc, char **argv)
{
    static struct tables all[2] = {{.steps = MOST_STEPS}, {.steps = 2}};
    uint32_t number = GANTRY_ACCEPTED;
    if (argc != 3) {
        fprintf(stderr, "usage: heads DIR DIR\n");
        return 2;
    }
    for (int i = 0; i < 2 && number == GANTRY_ACCEPTED; i++) {
        all[i].folder = argv[1 + i];
        number = read_tables(&all[i]);
    }
    if (number == GANTRY_ACCEPTED)
        number = gantry_make(all[0].image, image_bytes(&all[0]), HEADS, drive, sizeof drive);
    if (number != GANTRY_ACCEPTED) {
        printf("refused %02u\n", (unsigned)number);
        return 1;
    }
    hold(&all[0]);
    run(&all[1]);
    return 0;
}

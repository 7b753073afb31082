/* An operator's panel and the drive's task on the second example. In each period the panel asks for the sequence to a seam
 * point, looks where it ends, and asks again with the target corrected by that; the task commits what waits, and the head
 * moves. usage: panel DIR, with the sheet in DIR/drive.hex
 *
 * An ask and a commit both write the drive, so panel and task take turns: here within a period, elsewhere under a lock. */
#include <stdio.h>
#include <string.h>

#include "gantry.h"
#include "words.h"

enum { MOTORS = 2, STEPS = 3, COMMANDS = MOTORS * STEPS, STATES = 2, TARGETS = 2 };
enum { LINE = 23, LINES = 1 + GANTRY_DESIGN_NUMBERS(COMMANDS, STATES, TARGETS) }; /* of the sheet */
enum { POINTS = 5, PERIODS = POINTS + 1 };
enum { HEAD, HEADS }; /* the one head that this table has; a drive has room for four */
enum { ASKS = 2 };    /* of the panel in a period, at most */

static uint8_t drive[GANTRY_DRIVE_BYTES];
static uint16_t allowance;                              /* the sweeps of a period */
static uint8_t answer[GANTRY_ANSWER_BYTES(COMMANDS)];   /* what the panel shows */
static uint8_t commands[GANTRY_COMMANDS_BYTES(MOTORS)]; /* what the motors get */
static int32_t head[STATES] = {1024, 1024};             /* the plant: the place along each motor's axis */

/* ---- before the first period */

/* The drive holds the image from here on, so neither sheet nor image is kept. */
static uint32_t make_drive(FILE *file)
{
    uint8_t sheet[LINE * LINES + 1]; /* a byte more than is due, so that a longer file is seen to be one, and refused */
    uint8_t image[GANTRY_IMAGE_BYTES(COMMANDS, STATES, TARGETS)];
    size_t length = fread(sheet, 1, sizeof sheet, file);
    uint32_t number = gantry_intake(sheet, length, image, sizeof image);
    if (number != GANTRY_ACCEPTED)
        return number;
    allowance = (uint16_t)(ASKS * get_sweeps(image));
    return gantry_make(image, sizeof image, HEADS, drive, sizeof drive);
}

/* ---- the panel */

/* Where the sequence in the buffer would take the head: what an operator looks at, before any motor moves. */
static int sequence_end(int motor)
{
    int place = head[motor];
    for (int step = 0; step < STEPS; step++)
        place += get_command(answer, MOTORS * step + motor);
    return place;
}

static void show(const char *what, const int32_t *target)
{
    const uint8_t *bounds = answer + 4 * COMMANDS;
    printf("  %-7s%7d%6d", what, (int)target[0], (int)target[1]);
    for (int step = 0; step < STEPS; step++)
        printf("%8d%6d", get_command(answer, MOTORS * step), get_command(answer, MOTORS * step + 1));
    printf("  ");
    for (int k = 0; k < COMMANDS; k++)
        printf(" %u", (unsigned)get_word(bounds + 4 * k));
    printf("%4llu", get_distance(answer, COMMANDS));
    printf("%9d%6d\n", sequence_end(0), sequence_end(1));
}

static uint32_t ask(const int32_t *target)
{
    uint8_t state[GANTRY_STATE_BYTES(STATES)], point[GANTRY_TARGET_BYTES(TARGETS)];
    put_words(state, head, STATES);
    put_words(point, target, TARGETS);
    uint32_t number = gantry_ask(drive, sizeof drive, HEAD, state, sizeof state, point, sizeof point, answer, sizeof answer);
    if (number == GANTRY_ACCEPTED)
        show("ask", target);
    else
        printf("  ask    %7d%6d   refused %02u\n", (int)target[0], (int)target[1], (unsigned)number);
    return number;
}

/* The operator aims as far past the seam point as the first sequence falls short of it. A refused ask leaves the earlier
 * answer waiting and the buffer as it was: it is shown again, for this is what a commit now issues. */
static void panel(const int32_t *seam)
{
    int32_t aim[TARGETS];
    if (ask(seam) != GANTRY_ACCEPTED)
        return; /* nothing waits, and the buffer has a sequence that was issued before: not one to look at */
    for (int i = 0; i < TARGETS; i++)
        aim[i] = seam[i] + (seam[i] - sequence_end(i));
    if (ask(aim) != GANTRY_ACCEPTED)
        show("waits", seam);
}

/* ---- the task */

/* A refused commit writes nothing, so the commands of the period before would stay in force, and take the head further than
 * anybody has looked. Zero stops it, and is within the limits of every accepted image (number 17). */
static uint32_t commit_or_stop(void)
{
    uint32_t number = gantry_commit(drive, sizeof drive, HEAD, commands, sizeof commands);
    if (number != GANTRY_ACCEPTED)
        memset(commands, 0, sizeof commands);
    return number;
}

static void task(void)
{
    uint32_t number = commit_or_stop();
    if (number == GANTRY_ACCEPTED)
        printf("  %-20s", "commit");
    else
        printf("  commit  refused %02u  ", (unsigned)number);
    printf("%8d%6d\n", get_command(commands, 0), get_command(commands, 1));
}

static void move_head(void)
{
    for (int motor = 0; motor < MOTORS; motor++)
        head[motor] += get_command(commands, motor);
}

static void run(void)
{
    static const int32_t seam[POINTS][TARGETS] = {{2560, 512}, {4096, 0}, {5632, -512}, {7168, -1024}, {6656, -2048}};
    printf("counts of 1/4096, motor 0 and motor 1\n");
    printf("%22s%14s%14s%14s   %-13s%2s%15s\n", "target", "step 0", "step 1", "step 2", "bounds", "D", "ends at");
    for (int k = 0; k < PERIODS; k++) {
        printf("period %d, the head is at %d %d\n", k + 1, (int)head[0], (int)head[1]);
        gantry_period(drive, sizeof drive, allowance); /* never refused: the calls alone write the drive */
        if (k < POINTS) /* in the last period the operator is away, and nobody asks */
            panel(seam[k]);
        task();
        move_head();
    }
    printf("the head is at %d %d\n", (int)head[0], (int)head[1]);
}

int main(int argc, char **argv)
{
    char path[4096];
    if (argc != 2 || snprintf(path, sizeof path, "%s/drive.hex", argv[1]) >= (int)sizeof path) {
        fprintf(stderr, "usage: panel DIR\n");
        return 2;
    }
    FILE *file = fopen(path, "rb");
    if (file == NULL) {
        perror(path);
        return 2;
    }
    uint32_t number = make_drive(file);
    fclose(file);
    if (number != GANTRY_ACCEPTED) {
        printf("refused %02u\n", (unsigned)number);
        return 1;
    }
    run();
    return 0;
}

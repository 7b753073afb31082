/* The drive's task as firmware would have it: the sheet becomes an image once, a cold start gives the first start, and each
 * period solves from the commands of the period before. It prints one line a period: state, command, bound, D. */
#include <stdio.h>
#include <string.h>

#include "gantry.h"
#include "words.h"

/* Document 01's sample: one motor, one step, one state value, no target, b 4, W 8, three sweeps. */
static const char sheet[] =
    "0101010104080000030000\n"
    "0200003FE0000000000000\n"
    "0300003FF0000000000000\n"
    "040000BFF4000000000000\n"
    "0500003FF4000000000000\n"
    "0600000000000000000000\n"
    "0700003FE4000000000000\n";

enum { COMMANDS = 1, STATES = 1, TARGETS = 0, PERIODS = 4 };

static uint8_t image[GANTRY_IMAGE_BYTES(COMMANDS, STATES, TARGETS)];
static uint8_t start[GANTRY_START_BYTES(COMMANDS)];
static uint8_t answer[GANTRY_ANSWER_BYTES(COMMANDS)];

/* One period of the millisecond task. A refusal leaves answer and start as they were: the last commands stay in force. */
static uint32_t period(int32_t encoder)
{
    uint8_t state[GANTRY_STATE_BYTES(STATES)];
    put_words(state, &encoder, STATES);
    /* With nr 0 the target is empty: any pointer but null, and length 0. */
    uint32_t number = gantry_solve(image, sizeof image, state, sizeof state, state, GANTRY_TARGET_BYTES(TARGETS),
                                   start, sizeof start, answer, sizeof answer);
    if (number == GANTRY_ACCEPTED)
        memcpy(start, answer, sizeof start);
    return number;
}

int main(void)
{
    static const int32_t encoder[PERIODS] = {10, 10, 11, -3};
    uint32_t number = gantry_intake((const uint8_t *)sheet, sizeof sheet - 1, image, sizeof image);
    if (number == GANTRY_ACCEPTED)
        number = gantry_cold_start(image, sizeof image, start, sizeof start);
    if (number != GANTRY_ACCEPTED) {
        printf("refused %02u\n", (unsigned)number);
        return 1;
    }
    for (int k = 0; k < PERIODS; k++) {
        number = period(encoder[k]);
        if (number != GANTRY_ACCEPTED)
            printf("%d refused %02u\n", (int)encoder[k], (unsigned)number);
        else
            printf("%d %d %u %llu\n", (int)encoder[k], get_command(answer, 0), (unsigned)get_word(answer + 4 * COMMANDS),
                   get_distance(answer, COMMANDS));
    }
    return 0;
}

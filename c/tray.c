/* A tray lock: one line in (a tray is there), one line out (open). It is never open twice running, and open with a tray
 * if that can be. Forecasts how well each of its states can do, makes the guard of this sheet, lists it, and runs it on a
 * board; then a sheet that asks for too much is refused, and the play says by which trays it is beaten, and what is broken
 * then. All memory is static. c/README.md says how to build it. */

#include <stdint.h>
#include <stdio.h>
#include <string.h>

#include "hundlezoqa.h"

#define LENGTH(array) (sizeof(array) / sizeof((array)[0]))

/* An entry of the play: steps in two bytes, the input, and a monitor for closed and one for open. */
#define ENTRY 5

/* sheets/A.hex */
static const uint8_t sheet[] = {
    0x06, 0x00, 0x01, 0x00, 0, 1, 1, 1, 0, 0, /* head: controller, lines 1 and 1, horizon 1, on preferred */
    0x13, 0x00, 0x02, 0x00, 0, 0, 3, 0, 1, 1, 0, /* hard: never open twice running */
    0, 0, 1, 1, 0, 0, 2, 2, 2, 2, 2, 2,
    0x0E, 0x00, 0x02, 0x00, 1, 3, 2, 0, 0, 1, /* soft, weight 3: open exactly with a tray */
    1, 0, 0, 1, 1, 0, 0, 1
};

/* The same lock, but with a tray it must be open. */
static const uint8_t too_much[] = {
    0x06, 0x00, 0x01, 0x00, 0, 1, 1, 0, 0, 0,
    0x13, 0x00, 0x02, 0x00, 0, 0, 3, 0, 1, 1, 0, /* hard: never open twice running */
    0, 0, 1, 1, 0, 0, 2, 2, 2, 2, 2, 2,
    0x0E, 0x00, 0x02, 0x00, 0, 0, 2, 0, 1, 0, /* hard: open with a tray */
    0, 1, 0, 0, 1, 1, 1, 1
};

static uint8_t table[HZ_GUARD_BYTES_MOST];
static uint8_t play[HZ_FORCED_BYTES_MOST];
static uint8_t text[HZ_LISTING_BYTES_MOST];
static uint8_t board[HZ_BOARD_BYTES]; /* all zero: empty */
static uint64_t card[HZ_CARD_WORDS];
static struct hz_work work;

/* Says that a call was refused, and answers whether it was. */
static int refused(const char *call, uint32_t number)
{
    if (number != HZ_OK)
        printf("%s: refused %lu\n", call, (unsigned long)number);
    return number != HZ_OK;
}

/* The steps of the run, from the board's bytes. */
static unsigned long steps(void)
{
    return board[8] | (unsigned long)board[9] << 8 | (unsigned long)board[10] << 16 | (unsigned long)board[11] << 24;
}

/* Answers a tray by an output and prints it, or says that the step was refused. On a refusal there is no output to drive: a lock would be
 * held closed here. */
static int step(size_t length, uint8_t tray)
{
    uint32_t answer = hz_step(board, table, length, tray);

    if (refused("hz_step", HZ_STEP_NUMBER(answer)))
        return 1;
    printf("tray %d: open %lu\n", tray, (unsigned long)HZ_STEP_OUTPUT(answer));
    return 0;
}

/* An average of the card, from its bits. */
static double average(uint64_t bits)
{
    double value;
    memcpy(&value, &bits, sizeof value);
    return value;
}

/* Makes the card, and prints a line for each product state. */
static uint32_t forecast(void)
{
    uint64_t k;
    uint32_t answer;

    answer = hz_card(sheet, LENGTH(sheet), card, &work);
    for (k = 0; k < card[0]; k++) /* refused: none */
        if (card[1 + 2 * k] == HZ_LOST)
            printf("product state %lu: lost\n", (unsigned long)k);
        else
            printf("product state %lu: best %g, least %g\n", (unsigned long)k, average(card[1 + 2 * k]),
                   average(card[2 + 2 * k]));
    return answer;
}

/* The sheet that asks for too much is refused; makes its play, and prints a line for each product state. */
static uint32_t forced(void)
{
    struct hz_made made;
    size_t k;

    made = hz_supervisor(too_much, LENGTH(too_much), table, LENGTH(table), &work);
    refused("hz_make_supervisor", made.number); /* HZ_UNREALIZABLE, as c/tray.out has it */
    made = hz_play(too_much, LENGTH(too_much), play, LENGTH(play), &work);
    for (k = 0; k < made.states; k++) { /* refused: none */
        const uint8_t *entry = play + ENTRY * k;
        unsigned least = entry[0] | (unsigned)entry[1] << 8;
        if (least == 0)
            printf("product state %lu: kept\n", (unsigned long)k);
        else if (least == 1)
            printf("product state %lu: steps 1, tray %d; closed breaks monitor %d, open breaks monitor %d\n", (unsigned long)k,
                   entry[2], entry[3], entry[4]);
        else
            printf("product state %lu: steps %u, tray %d\n", (unsigned long)k, least, entry[2]);
    }
    return made.number;
}

int main(void)
{
    static const uint8_t trays[] = {1, 1, 1, 0, 1, 0};
    struct hz_made made;
    uint64_t written;
    size_t i;
    uint32_t answer;

    if (refused("hz_forecast", forecast()))
        return 1;

    made = hz_guard(sheet, LENGTH(sheet), table, LENGTH(table), &work);
    if (refused("hz_make_guard", made.number))
        return 1;
    printf("a guard of %lu states in %lu bytes\n", (unsigned long)made.states, (unsigned long)made.length);

    if (refused("hz_list", hz_list(table, made.length, text, LENGTH(text), &written)))
        return 1;
    fwrite(text, 1, (size_t)written, stdout);

    if (refused("hz_load", hz_load(board, table, made.length)))
        return 1;
    for (i = 0; i < LENGTH(trays); i++)
        if (step(made.length, trays[i]))
            return 1;
    printf("%lu steps\n", steps());

    /* One line has no input 2: the step is refused, and the board is as it was. */
    answer = hz_step(board, table, made.length, 2);
    if (HZ_STEP_NUMBER(answer) != HZ_BAD_INPUT)
        return 1;
    refused("hz_step", HZ_STEP_NUMBER(answer));
    printf("%lu steps\n", steps());

    /* The lock is closed, as at the start: the run may begin anew. */
    if (refused("hz_rewind", hz_rewind(board)))
        return 1;
    printf("%lu steps\n", steps());
    if (step(made.length, 1))
        return 1;

    if (refused("hz_unload", hz_unload(board)))
        return 1;
    refused("hz_rewind", hz_rewind(board)); /* nothing is loaded any more */

    if (refused("hz_forced", forced()))
        return 1;
    return 0;
}

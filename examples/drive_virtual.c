/* Drives two motors together: joins them in a virtual port, writes a command for it, and prints the hub's feedback. The
 * same command to one of the motors is refused. */

#include <stdio.h>

#include "castanetash.h"

/* The ports of the first motor and of both. */
enum { MOTOR_A = 0, BOTH = 16 };

struct entry {
    uint8_t way;
    uint8_t message[15]; /* the first byte is the length */
};

static const struct entry entries[] = {
    /* Motors are attached to ports 0 and 1. */
    {CASTANETASH_UP, {0x0F, 0x00, 0x04, 0x00, 0x01, 0x26, 0x00, 0x00, 0x00, 0x00, 0x10, 0x00, 0x00, 0x00, 0x10}},
    {CASTANETASH_UP, {0x0F, 0x00, 0x04, 0x01, 0x01, 0x26, 0x00, 0x00, 0x00, 0x00, 0x10, 0x00, 0x00, 0x00, 0x10}},
    /* The client asks to join them, and the hub attaches port 16 for both. */
    {CASTANETASH_DOWN, {0x06, 0x00, 0x61, 0x01, 0x00, 0x01}},
    {CASTANETASH_UP, {0x09, 0x00, 0x04, 0x10, 0x02, 0x26, 0x00, 0x00, 0x01}},
};

/* The hub's feedback: the command is in progress; then it is completed, and both motors are idle. */
static const struct entry feedback[] = {
    {CASTANETASH_UP, {0x05, 0x00, 0x82, 0x10, 0x01}},
    {CASTANETASH_UP, {0x09, 0x00, 0x82, 0x10, 0x0A, 0x00, 0x08, 0x01, 0x08}},
};

static uint32_t table[CASTANETASH_TABLE_CELLS];

/* Whether an answer is a refusal, which is told. */
static int is_refused(uint64_t answer)
{
    if (CASTANETASH_REFUSAL(answer) == 0)
        return 0;
    printf("refusal %u, place %u\n", (unsigned)CASTANETASH_REFUSAL(answer), (unsigned)CASTANETASH_PLACE(answer));
    return 1;
}

static int offer(uint8_t way, const uint8_t *message, size_t length)
{
    return !is_refused(castanetash_offer(table, CASTANETASH_TABLE_CELLS, message, length, way, 0));
}

/* Writes a command that brings the first motor of a port to 90 degrees and the second to -90, shows its bytes, and
 * offers it to the table. Returns whether it was accepted: then it may be sent. */
static int go(uint8_t port)
{
    uint64_t row[CASTANETASH_ROW_CELLS] = {0};
    uint8_t message[CASTANETASH_LONGEST];
    uint64_t answer;
    size_t length, i;

    row[CASTANETASH_ROW_FORM] = CASTANETASH_FORM_GOTO_ABSOLUTE_POSITIONS;
    row[CASTANETASH_GOTO_ABSOLUTE_POSITIONS_PORT] = port;
    row[CASTANETASH_GOTO_ABSOLUTE_POSITIONS_START] = 16 + 1; /* at once, and with feedback */
    row[CASTANETASH_GOTO_ABSOLUTE_POSITIONS_SUB] = 14;
    row[CASTANETASH_GOTO_ABSOLUTE_POSITIONS_POSITION_1] = 90;
    row[CASTANETASH_GOTO_ABSOLUTE_POSITIONS_POSITION_2] = (uint64_t)-90;
    row[CASTANETASH_GOTO_ABSOLUTE_POSITIONS_SPEED] = 50;
    row[CASTANETASH_GOTO_ABSOLUTE_POSITIONS_POWER] = 100;
    row[CASTANETASH_GOTO_ABSOLUTE_POSITIONS_END_STATE] = 126; /* hold */
    row[CASTANETASH_GOTO_ABSOLUTE_POSITIONS_PROFILE] = 1 + 2; /* both */
    answer = castanetash_write(row, CASTANETASH_ROW_CELLS, CASTANETASH_DOWN, NULL, 0, message, sizeof message);
    if (is_refused(answer))
        return 0;
    length = CASTANETASH_WRITTEN(answer);
    printf("written:");
    for (i = 0; i < length; i++)
        printf(" %02X", message[i]);
    printf("\n");
    return offer(CASTANETASH_DOWN, message, length);
}

/* Offers feedback to the table, reads it, and prints port and bits of each pair. Returns whether it was accepted. */
static int print_feedback(const uint8_t *message, size_t length)
{
    uint64_t row[CASTANETASH_ROW_CELLS];
    const uint8_t *pair, *end;

    if (!offer(CASTANETASH_UP, message, length))
        return 0;
    if (is_refused(castanetash_read(message, length, CASTANETASH_UP, row, CASTANETASH_ROW_CELLS)))
        return 0;
    if (row[CASTANETASH_ROW_FORM] != CASTANETASH_FORM_OUTPUT_FEEDBACK)
        return 0;
    pair = message + row[CASTANETASH_ROW_OPEN_START];
    end = pair + row[CASTANETASH_ROW_OPEN_COUNT];
    for (; pair < end; pair += 2)
        printf("port %u: feedback %u\n", pair[0], pair[1]);
    return 1;
}

int main(void)
{
    size_t i;

    if (is_refused(castanetash_empty(table, CASTANETASH_TABLE_CELLS)))
        return 1;
    for (i = 0; i < sizeof entries / sizeof entries[0]; i++)
        if (!offer(entries[i].way, entries[i].message, entries[i].message[0]))
            return 1;
    if (!go(BOTH))
        return 1;
    for (i = 0; i < sizeof feedback / sizeof feedback[0]; i++)
        if (!print_feedback(feedback[i].message, feedback[i].message[0]))
            return 1;
    /* Motor A alone has no second position. */
    return go(MOTOR_A);
}

/* Writes two messages to the hub, shows their bytes and reads them back. Three more are refused. */

#include <stdio.h>

#include "castanetash.h"

/* Whether an answer is a refusal, which is told. */
static int is_refused(uint64_t answer)
{
    if (CASTANETASH_REFUSAL(answer) == 0)
        return 0;
    printf("refusal %u, place %u\n", (unsigned)CASTANETASH_REFUSAL(answer), (unsigned)CASTANETASH_PLACE(answer));
    return 1;
}

/* Writes the message of a row with its open bytes, shows it, and reads it back into the row. Returns whether both were
 * accepted. */
static int write_and_read(uint64_t row[CASTANETASH_ROW_CELLS], const char *open, size_t open_len,
                          uint8_t message[CASTANETASH_LONGEST])
{
    uint64_t answer;
    size_t length, i;

    answer = castanetash_write(row, CASTANETASH_ROW_CELLS, CASTANETASH_DOWN, (const uint8_t *)open, open_len, message,
                               CASTANETASH_LONGEST);
    if (is_refused(answer))
        return 0;
    length = CASTANETASH_WRITTEN(answer);
    printf("written:");
    for (i = 0; i < length; i++)
        printf(" %02X", message[i]);
    printf("\n");
    return !is_refused(castanetash_read(message, length, CASTANETASH_DOWN, row, CASTANETASH_ROW_CELLS));
}

int main(void)
{
    uint64_t setup[CASTANETASH_ROW_CELLS] = {0};
    uint64_t name[CASTANETASH_ROW_CELLS] = {0};
    uint64_t lock[CASTANETASH_ROW_CELLS] = {0};
    uint8_t message[CASTANETASH_LONGEST];

    /* Port Input Format Setup (Single), 41. It has no open bytes. */
    setup[CASTANETASH_ROW_FORM] = CASTANETASH_FORM_INPUT_FORMAT_SETUP;
    setup[CASTANETASH_INPUT_FORMAT_SETUP_PORT] = 0;
    setup[CASTANETASH_INPUT_FORMAT_SETUP_MODE] = 2;
    setup[CASTANETASH_INPUT_FORMAT_SETUP_DELTA] = 1;
    setup[CASTANETASH_INPUT_FORMAT_SETUP_NOTIFY] = 1;
    if (!write_and_read(setup, NULL, 0, message))
        return 1;
    printf("read: port %u, mode %u\n", (unsigned)setup[CASTANETASH_INPUT_FORMAT_SETUP_PORT],
           (unsigned)setup[CASTANETASH_INPUT_FORMAT_SETUP_MODE]);

    /* Hub Properties, 01: sets the hub's name, which is open bytes. */
    name[CASTANETASH_ROW_FORM] = CASTANETASH_FORM_PROPERTY_TEXT;
    name[CASTANETASH_PROPERTY_TEXT_PROPERTY] = 1;
    name[CASTANETASH_PROPERTY_TEXT_OPERATION] = 1;
    if (!write_and_read(name, "Bench 7", 7, message))
        return 1;
    printf("read: name %.*s\n", (int)name[CASTANETASH_ROW_OPEN_COUNT],
           (const char *)message + name[CASTANETASH_ROW_OPEN_START]);

    /* No mode is over 15. */
    setup[CASTANETASH_INPUT_FORMAT_SETUP_MODE] = 300;
    write_and_read(setup, NULL, 0, message);

    /* A name has a byte or more. The refusal says the smallest size of such a message. */
    write_and_read(name, NULL, 0, message);

    /* Lock Status Request, 12, is read only. */
    lock[CASTANETASH_ROW_FORM] = CASTANETASH_FORM_LOCK_STATUS_REQUEST;
    write_and_read(lock, NULL, 0, message);
    return 0;
}

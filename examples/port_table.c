/* Follows the messages of a hub in a port table, and prints its values, each with the mode that it was sent in and the
 * experiment that asked for it. At the end it prints what is known of each port. */

#include <stdio.h>
#include <string.h>

#include "castanetash.h"

struct entry {
    uint8_t way;
    uint16_t experiment;
    uint8_t message[15]; /* the first byte is the length */
};

static const struct entry entries[] = {
    /* A motor is attached to port 0. Its modes 1, speed, and 2, position, have one number of 32 bits. */
    {CASTANETASH_UP, 0, {0x0F, 0x00, 0x04, 0x00, 0x01, 0x26, 0x00, 0x00, 0x00, 0x00, 0x10, 0x00, 0x00, 0x00, 0x10}},
    {CASTANETASH_UP, 0, {0x0A, 0x00, 0x44, 0x00, 0x01, 0x80, 0x01, 0x02, 0x04, 0x00}},
    {CASTANETASH_UP, 0, {0x0A, 0x00, 0x44, 0x00, 0x02, 0x80, 0x01, 0x02, 0x04, 0x00}},
    /* A value is refused: the hub has not said yet in which mode it is. */
    {CASTANETASH_UP, 0, {0x08, 0x00, 0x45, 0x00, 0x00, 0x00, 0x00, 0x00}},
    /* Experiment 301 asks for speeds, and the hub answers. */
    {CASTANETASH_DOWN, 301, {0x0A, 0x00, 0x41, 0x00, 0x01, 0x01, 0x00, 0x00, 0x00, 0x01}},
    {CASTANETASH_UP, 0, {0x0A, 0x00, 0x47, 0x00, 0x01, 0x01, 0x00, 0x00, 0x00, 0x01}},
    {CASTANETASH_UP, 0, {0x08, 0x00, 0x45, 0x00, 0x5A, 0x02, 0x00, 0x00}},
    /* Experiment 302 asks for positions. Until the hub answers, it still sends speeds. */
    {CASTANETASH_DOWN, 302, {0x0A, 0x00, 0x41, 0x00, 0x02, 0x01, 0x00, 0x00, 0x00, 0x01}},
    {CASTANETASH_UP, 0, {0x08, 0x00, 0x45, 0x00, 0x56, 0x02, 0x00, 0x00}},
    {CASTANETASH_UP, 0, {0x0A, 0x00, 0x47, 0x00, 0x02, 0x01, 0x00, 0x00, 0x00, 0x01}},
    {CASTANETASH_UP, 0, {0x08, 0x00, 0x45, 0x00, 0xFD, 0xFF, 0xFF, 0xFF}},
    /* A load cell is attached to port 3. It sends two floats in mode 0, which nobody asked for. */
    {CASTANETASH_UP, 0, {0x0F, 0x00, 0x04, 0x03, 0x01, 0x15, 0x00, 0x00, 0x00, 0x00, 0x10, 0x00, 0x00, 0x00, 0x10}},
    {CASTANETASH_UP, 0, {0x0A, 0x00, 0x44, 0x03, 0x00, 0x80, 0x02, 0x03, 0x04, 0x02}},
    {CASTANETASH_UP, 0, {0x0A, 0x00, 0x47, 0x03, 0x00, 0x01, 0x00, 0x00, 0x00, 0x01}},
    {CASTANETASH_UP, 0, {0x0C, 0x00, 0x45, 0x03, 0x00, 0x00, 0xB0, 0x40, 0x00, 0x00, 0x80, 0xBE}},
};

static uint32_t table[CASTANETASH_TABLE_CELLS];

/* Whether an answer is a refusal, which is told. */
static int is_refused(uint64_t answer)
{
    if (CASTANETASH_REFUSAL(answer) == 0)
        return 0;
    printf("refusal %u, place %u\n", (unsigned)CASTANETASH_REFUSAL(answer), (unsigned)CASTANETASH_PLACE(answer));
    return 1;
}

/* Prints the datasets of a value. */
static void print_value(const uint64_t *row, size_t datasets)
{
    size_t i;

    printf("port %u, mode %u, state %u, experiment %u:", (unsigned)row[CASTANETASH_DATASET_CELL_PORT],
           (unsigned)row[CASTANETASH_DATASET_CELL_MODE], (unsigned)row[CASTANETASH_DATASET_CELL_STATE],
           (unsigned)row[CASTANETASH_DATASET_CELL_EXPERIMENT]);
    for (i = 0; i < datasets; i++, row += CASTANETASH_DATASET_CELLS) {
        if (row[CASTANETASH_DATASET_CELL_KIND] == CASTANETASH_DATASET_KIND_FLOAT) {
            uint32_t bits = (uint32_t)row[CASTANETASH_DATASET_CELL_VALUE];
            float number;
            memcpy(&number, &bits, sizeof number);
            printf(" %g", (double)number);
        } else {
            printf(" %lld", (long long)row[CASTANETASH_DATASET_CELL_VALUE]);
        }
    }
    printf("\n");
}

/* Prints a value, which changes no table; any other message is offered to the table. Returns whether it was
 * accepted. */
static int follow(const struct entry *entry)
{
    uint64_t rows[CASTANETASH_MOST_DATASETS * CASTANETASH_DATASET_CELLS];
    size_t length = entry->message[0];
    uint64_t answer;

    answer = castanetash_values(table, CASTANETASH_TABLE_CELLS, entry->message, length, entry->way, rows,
                                sizeof rows / sizeof rows[0]);
    if (CASTANETASH_REFUSAL(answer) == CASTANETASH_REFUSED_NO_DATASET) /* good, but no value */
        return !is_refused(castanetash_offer(table, CASTANETASH_TABLE_CELLS, entry->message, length, entry->way,
                                             entry->experiment));
    if (is_refused(answer))
        return 0;
    print_value(rows, CASTANETASH_WRITTEN(answer));
    return 1;
}

/* Prints what the table knows of a port, and of the mode that it is in. Returns whether it is a table. */
static int print_port(uint8_t port)
{
    uint64_t row[CASTANETASH_PORT_CELLS], format[CASTANETASH_FORMAT_CELLS];
    uint8_t mode;

    if (is_refused(castanetash_port(table, CASTANETASH_TABLE_CELLS, port, row, CASTANETASH_PORT_CELLS)))
        return 0;
    mode = (uint8_t)row[CASTANETASH_PORT_CELL_ANSWERED_MODE];
    if (is_refused(castanetash_format(table, CASTANETASH_TABLE_CELLS, port, mode, format, CASTANETASH_FORMAT_CELLS)))
        return 0;
    printf("port %u: device %u, mode %u, datasets %u, kind %u\n", port, (unsigned)row[CASTANETASH_PORT_CELL_DEVICE],
           mode, (unsigned)format[CASTANETASH_FORMAT_CELL_DATASETS], (unsigned)format[CASTANETASH_FORMAT_CELL_KIND]);
    return 1;
}

int main(void)
{
    uint8_t ports[CASTANETASH_MOST_PORTS];
    uint64_t answer;
    size_t i, refused = 0;

    if (is_refused(castanetash_empty(table, CASTANETASH_TABLE_CELLS)))
        return 1;
    for (i = 0; i < sizeof entries / sizeof entries[0]; i++)
        refused += !follow(&entries[i]);
    answer = castanetash_ports(table, CASTANETASH_TABLE_CELLS, ports, sizeof ports);
    if (is_refused(answer))
        return 1;
    for (i = 0; i < CASTANETASH_WRITTEN(answer); i++)
        if (!print_port(ports[i]))
            return 1;
    printf("refused: %u\n", (unsigned)refused);
    return 0;
}

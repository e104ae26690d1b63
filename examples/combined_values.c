/* Reads several modes of a colour sensor in one message: writes the list of modes and datasets that the sensor is asked
 * for, and prints the values that the hub sends by it. Values with a pointer outside the hub's answer are refused. */

#include <stdio.h>

#include "castanetash.h"

/* The sensor's port, and the number of the experiment that asks for the list. */
enum { COLOUR_SENSOR = 2, EXPERIMENT = 301 };

struct entry {
    uint8_t way;
    uint8_t message[15]; /* the first byte is the length */
};

static const struct entry entries[] = {
    /* A colour sensor is attached to port 2. */
    {CASTANETASH_UP, {0x0F, 0x00, 0x04, 0x02, 0x01, 0x25, 0x00, 0x00, 0x00, 0x00, 0x10, 0x00, 0x00, 0x00, 0x10}},
    /* Mode 0, the colour, is one number of 8 bits; mode 6, red, green and blue, three of 16 bits. */
    {CASTANETASH_UP, {0x0A, 0x00, 0x44, 0x02, 0x00, 0x80, 0x01, 0x00, 0x03, 0x00}},
    {CASTANETASH_UP, {0x0A, 0x00, 0x44, 0x02, 0x06, 0x80, 0x03, 0x01, 0x05, 0x00}},
};

/* The list: dataset 0 of mode 0, then datasets 0 and 2 of mode 6, red and blue. */
static const uint8_t list[] = {0x00, 0x60, 0x62};

/* The hub answers with a pointer to each entry. */
static const struct entry answered = {CASTANETASH_UP, {0x07, 0x00, 0x48, 0x02, 0x80, 0x07, 0x00}};

/* Its values: colour 3, red 50 and blue 205; blue alone; and with a pointer to a fourth entry, which there is not. */
static const struct entry values[] = {
    {CASTANETASH_UP, {0x0B, 0x00, 0x46, 0x02, 0x07, 0x00, 0x03, 0x32, 0x00, 0xCD, 0x00}},
    {CASTANETASH_UP, {0x08, 0x00, 0x46, 0x02, 0x04, 0x00, 0xD2, 0x00}},
    {CASTANETASH_UP, {0x09, 0x00, 0x46, 0x02, 0x09, 0x00, 0x03, 0x28, 0x00}},
};

static uint32_t table[CASTANETASH_TABLE_CELLS];

/* Whether an answer is a refusal, which is told. */
static int is_refused(uint64_t answer)
{
    if (CASTANETASH_REFUSAL(answer) == 0)
        return 0;
    printf("refusal %u, place %u\n", (unsigned)CASTANETASH_REFUSAL(answer), (unsigned)CASTANETASH_PLACE(answer));
    return 1;
}

static int offer(uint8_t way, const uint8_t *message, size_t length)
{
    return !is_refused(castanetash_offer(table, CASTANETASH_TABLE_CELLS, message, length, way, EXPERIMENT));
}

/* Writes what asks the sensor for the list, shows its bytes, and offers it to the table. Returns whether it was
 * accepted: then it may be sent. */
static int ask(void)
{
    uint64_t row[CASTANETASH_ROW_CELLS] = {0};
    uint8_t message[CASTANETASH_LONGEST];
    uint64_t answer;
    size_t length, i;

    row[CASTANETASH_ROW_FORM] = CASTANETASH_FORM_MODE_DATASETS;
    row[CASTANETASH_MODE_DATASETS_PORT] = COLOUR_SENSOR;
    row[CASTANETASH_MODE_DATASETS_SUB] = 1;
    row[CASTANETASH_MODE_DATASETS_COMBINATION] = 0;
    answer = castanetash_write(row, CASTANETASH_ROW_CELLS, CASTANETASH_DOWN, list, sizeof list, message,
                               sizeof message);
    if (is_refused(answer))
        return 0;
    length = CASTANETASH_WRITTEN(answer);
    printf("written:");
    for (i = 0; i < length; i++)
        printf(" %02X", message[i]);
    printf("\n");
    return offer(CASTANETASH_DOWN, message, length);
}

/* Prints the datasets of combined values, each with its own mode. Returns whether they were accepted. */
static int print_values(const struct entry *entry)
{
    uint64_t rows[CASTANETASH_MOST_DATASETS * CASTANETASH_DATASET_CELLS];
    const uint64_t *row = rows;
    uint64_t answer;
    size_t i;

    answer = castanetash_values(table, CASTANETASH_TABLE_CELLS, entry->message, entry->message[0], entry->way, rows,
                                sizeof rows / sizeof rows[0]);
    if (is_refused(answer))
        return 0;
    for (i = 0; i < CASTANETASH_WRITTEN(answer); i++, row += CASTANETASH_DATASET_CELLS)
        printf("port %u, mode %u, state %u, experiment %u: %lld\n", (unsigned)row[CASTANETASH_DATASET_CELL_PORT],
               (unsigned)row[CASTANETASH_DATASET_CELL_MODE], (unsigned)row[CASTANETASH_DATASET_CELL_STATE],
               (unsigned)row[CASTANETASH_DATASET_CELL_EXPERIMENT], (long long)row[CASTANETASH_DATASET_CELL_VALUE]);
    return 1;
}

int main(void)
{
    size_t i;

    if (is_refused(castanetash_empty(table, CASTANETASH_TABLE_CELLS)))
        return 1;
    for (i = 0; i < sizeof entries / sizeof entries[0]; i++)
        if (!offer(entries[i].way, entries[i].message, entries[i].message[0]))
            return 1;
    if (!ask() || !offer(answered.way, answered.message, answered.message[0]))
        return 1;
    if (!print_values(&values[0]) || !print_values(&values[1]))
        return 1;
    /* The hub's answer has no pointer to a fourth entry. */
    return print_values(&values[2]);
}

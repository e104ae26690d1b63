/* Castanetash: messages of the LEGO Wireless Protocol 3.0, and a port table for one hub. Link with libcastanetash.a.
 *
 * castanetash_read takes one message apart into a row of numbers, and castanetash_write makes a message of such a row.
 * castanetash_offer follows the messages of one hub in a table, and castanetash_values reads a value by that table, in
 * the mode, or by the list of modes and datasets, that the hub last answered. castanetash_read_block does so with the
 * records of a log.
 *
 * A message is 3 to 127 bytes: its length, the hub id 0, its type, then its fields. It goes down, to the hub, or up,
 * from the hub; its bytes don't say which, so the caller does. Types are hex below, other numbers decimal.
 *
 * Contents: calls, refusals, messages, forms and their values, the table, values, ports, logs, the cells of a table.
 */
#ifndef CASTANETASH_H
#define CASTANETASH_H

#include <stddef.h>
#include <stdint.h>

#ifdef __cplusplus
extern "C" {
#endif

/* ---- Calls ----
 *
 * Every call returns one number. Its high half is the refusal, 0 if the call is accepted. Its low half is the place of
 * the refusal in the message, or the size that is wanted (6); or, accepted, how much was written: bytes of a
 * message or of text, cells of a row, datasets, ports. A refused call changes nothing that was lent to it.
 *
 * What is lent to a call is a pointer and a length, counted in elements and not in bytes. A pointer may be NULL if its
 * length is 0. Every call ends with an answer, whatever the bytes and cells hold.
 *
 * What a call may change is what it takes without const: it shares no byte with anything else lent to the same call.
 * What is only read may overlap. A longer row, or more room, than a call wants is allowed: the rest is left as it was.
 * Only a table has to have its exact number of cells.
 *
 * No call keeps a pointer, and nothing is kept between calls: threads may call at once, each with its own table, and
 * also with one that none of these calls may change.
 */
#define CASTANETASH_REFUSAL(answer) ((uint32_t)((answer) >> 32))
#define CASTANETASH_PLACE(answer) ((uint32_t)((answer) & 0xFFFFFFFFu))
#define CASTANETASH_WRITTEN(answer) ((size_t)((answer) & 0xFFFFFFFFu)) /* only if accepted */

/* The way of a message: down is 0, up any other number. */
#define CASTANETASH_DOWN 0
#define CASTANETASH_UP 1

/* ---- Refusals ----
 *
 * The place is 1 for 4, 2 for 5, that of the field's first byte for 7 (in a fixed string, of the first byte that
 * differs), else 0. Only the place of a 6 is no place but a size, in bytes of the whole message: the smallest that the
 * type and its selectors allow; or, if the selectors themselves don't fit, the smallest that holds them. Every call
 * that takes a message passes it on.
 */
enum castanetash_refusal {
    CASTANETASH_REFUSED_NO_BYTES = 1,      /* the message has no bytes */
    CASTANETASH_REFUSED_TOO_LONG = 2,      /* bit 7 of its length is set: it would be over 127 */
    CASTANETASH_REFUSED_LENGTH = 3,        /* its length is not the number of its bytes, or is under 3 */
    CASTANETASH_REFUSED_HUB_ID = 4,        /* its hub id is not 0 */
    CASTANETASH_REFUSED_TYPE = 5,          /* its type is unknown, or doesn't go this way */
    CASTANETASH_REFUSED_SIZE = 6,          /* it is too short for its selectors, or has no size for them */
    CASTANETASH_REFUSED_FIELD = 7,         /* a field is outside its list */
    CASTANETASH_REFUSED_OUTPUT = 8,        /* the output is shorter than the message to be written */
    CASTANETASH_REFUSED_TABLE = 9,         /* the lent cells are no sound table */
    CASTANETASH_REFUSED_PORT_ABSENT = 10,  /* a port named isn't present */
    CASTANETASH_REFUSED_PORT_PRESENT = 11, /* an attached port is present already */
    CASTANETASH_REFUSED_PAIR = 12,         /* a bad pair: a member is absent, virtual or joined already, or both are the
                                              same; or a port to be disconnected is not virtual */
    CASTANETASH_REFUSED_TABLE_FULL = 13,   /* sixteen ports are present already */
    CASTANETASH_REFUSED_NO_MODE = 14,      /* a 45 of a port that has no mode: no 47 since it was attached, or a 48
                                              since its latest 47 */
    CASTANETASH_REFUSED_NO_FORMAT = 15,    /* a value in a mode that has no format yet: no such 44 since the port was
                                              attached; of a 46 any mode of the entries pointed at */
    CASTANETASH_REFUSED_VALUE_SIZE = 16,   /* a value whose bytes are not datasets times width of its format; of a 46
                                              not the widths of the entries pointed at together */
    CASTANETASH_REFUSED_NO_DATASET = 17,   /* no dataset of that number; any message but a 45 or 46 has none; or a 46
                                              points at an entry whose dataset its mode's format has not */
    CASTANETASH_REFUSED_NOT_FINITE = 18,   /* a float dataset, of a 45 or 46, is an infinity or a NaN */
    CASTANETASH_REFUSED_LOG_RECORD = 19,   /* a log's record is malformed: only in the text of castanetash_read_block */
    CASTANETASH_REFUSED_NOT_COMBINED = 20, /* a 46 of a port that is not combined: no 48 since it was attached, or a 47
                                              since its latest 48 */
    CASTANETASH_REFUSED_POINTERS = 21,     /* a 48 of a port that has no list, or with a pointer past the list; a 46
                                              with a pointer that the latest 48 has not; either without a pointer */
    CASTANETASH_REFUSED_NOT_VIRTUAL = 22,  /* a command for two motors to a port that is not virtual */
    CASTANETASH_REFUSED_READ_ONLY = 23,    /* castanetash_write is given a form that is read only */
    CASTANETASH_REFUSED_ROW = 255          /* a lent row is too short for the answer; or castanetash_write is given a
                                              row that is no message's own */
};

/* ---- Messages ---- */

/* No message has more bytes. */
#define CASTANETASH_LONGEST 127

/* A message as a row of 16 numbers. */
#define CASTANETASH_ROW_CELLS 16

enum castanetash_row {
    CASTANETASH_ROW_FORM = 0,       /* one of enum castanetash_form */
    CASTANETASH_ROW_OPEN_START = 1, /* where the open bytes (a name, symbol, text or value, pairs of port and feedback,
                                       or a list) start in the message */
    CASTANETASH_ROW_OPEN_COUNT = 2, /* how many they are, 0 for most forms */
    CASTANETASH_ROW_COUNT = 3,      /* how many values the form has */
    CASTANETASH_ROW_VALUES = 4      /* the first value; the others follow, and zeros after them */
};

/* Reads one message. Accepted: fills the first 16 cells of the row, and returns 16.
 *
 * Refused: 1 to 5; 6 if it is too short for its selectors; 7 for its selectors from left to right; 6; 7 for its other
 * fields from left to right; then 255 if the row has fewer than 16 cells. */
uint64_t castanetash_read(const uint8_t *message, size_t message_len, uint8_t way, uint64_t *row, size_t row_len);

/* Writes one message to the start of out, and returns its length; the bytes past it are left as they were. Takes the
 * form and its values from the row, so one that castanetash_read filled will do, and the open bytes from open. The
 * other cells are not looked at.
 *
 * Refused, with places in the message to be written:
 *   255 if the row has fewer than 16 cells, or an unknown form;
 *   5 if the form's type doesn't go this way;
 *   23 if the form is read only, whatever else is lent;
 *   7 for its selectors from left to right, one wider than its byte too; and at the last of them if they lead to
 *     another form than the row's;
 *   6 if there are too few or too many open bytes, or any for a form without them, or an odd number of bytes for
 *     feedback (82), or the count of combinations (43) is not 1 to 8: with the smallest size of the form, which for
 *     combinations is 7 and for feedback 5;
 *   7 for its other fields from left to right: a number that is not in its list, such as a mode of 16 or 300 or a speed
 *     of -101 or 200, a float that is not finite, a number too wide for six bytes; then for its open bytes: a feedback
 *     byte over 31, an entry of a list (42) that stood there before;
 *   255 for a number too wide for a field that has no list, such as a port of 300, or a float's cell over 32 bits;
 *   8 if out is shorter than the message. */
uint64_t castanetash_write(const uint64_t *row, size_t row_len, uint8_t way, const uint8_t *open, size_t open_len,
                           uint8_t *out, size_t out_len);

/* ---- Forms ----
 *
 * One for each layout that a message can have, with its type, its way and its whole size. Those marked read only are
 * read, and no longer written (23). */
enum castanetash_form {
    /* Hub Properties */
    CASTANETASH_FORM_PROPERTY_COMMAND = 1,  /* 01 down, 5 bytes */
    CASTANETASH_FORM_PROPERTY_TEXT = 2,     /* 01 both, 6 to 127 bytes */
    CASTANETASH_FORM_PROPERTY_BYTE = 3,     /* 01 both, 6 bytes */
    CASTANETASH_FORM_PROPERTY_RSSI = 4,     /* 01 up, 6 bytes */
    CASTANETASH_FORM_PROPERTY_VERSION = 5,  /* 01 up, 9 bytes */
    CASTANETASH_FORM_PROPERTY_PROTOCOL = 6, /* 01 up, 7 bytes */
    CASTANETASH_FORM_PROPERTY_ADDRESS = 7,  /* 01 up, 11 bytes */
    /* Hub Actions */
    CASTANETASH_FORM_HUB_ACTION = 8, /* 02 both, 4 bytes */
    /* Hub Alerts */
    CASTANETASH_FORM_ALERT_COMMAND = 9, /* 03 down, 5 bytes */
    CASTANETASH_FORM_ALERT_UPDATE = 10, /* 03 up, 6 bytes */
    /* Hub Attached I/O */
    CASTANETASH_FORM_DETACHED = 11,         /* 04 up, 5 bytes */
    CASTANETASH_FORM_ATTACHED = 12,         /* 04 up, 15 bytes */
    CASTANETASH_FORM_ATTACHED_VIRTUAL = 13, /* 04 up, 9 bytes */
    /* Generic Error Messages */
    CASTANETASH_FORM_GENERIC_ERROR = 14, /* 05 up, 5 bytes */
    /* Firmware Update: Go Into Boot Mode, Lock Memory, Lock Status Request, Lock Status */
    CASTANETASH_FORM_GO_INTO_BOOT_MODE = 15,   /* 10 down, 12 bytes */
    CASTANETASH_FORM_LOCK_MEMORY = 16,         /* 11 down, 11 bytes, read only */
    CASTANETASH_FORM_LOCK_STATUS_REQUEST = 17, /* 12 down, 3 bytes, read only */
    CASTANETASH_FORM_LOCK_STATUS = 18,         /* 13 up, 4 bytes, read only */
    /* Port Information Request, Port Mode Information Request */
    CASTANETASH_FORM_PORT_INFORMATION_REQUEST = 19, /* 21 down, 5 bytes */
    CASTANETASH_FORM_MODE_INFORMATION_REQUEST = 20, /* 22 down, 6 bytes */
    /* Port Input Format Setup (Single): asks a port for a mode */
    CASTANETASH_FORM_INPUT_FORMAT_SETUP = 21, /* 41 down, 10 bytes */
    /* Port Information */
    CASTANETASH_FORM_PORT_MODES = 22,        /* 43 up, 11 bytes */
    CASTANETASH_FORM_PORT_COMBINATIONS = 23, /* 43 up, 7 to 21 bytes */
    /* Port Mode Information */
    CASTANETASH_FORM_MODE_TEXT = 24,         /* 44 up, 7 to 17 bytes */
    CASTANETASH_FORM_MODE_RANGE = 25,        /* 44 up, 14 bytes */
    CASTANETASH_FORM_MODE_MAPPING = 26,      /* 44 up, 8 bytes */
    CASTANETASH_FORM_MODE_BIAS = 27,         /* 44 up, 7 bytes */
    CASTANETASH_FORM_MODE_CAPABILITIES = 28, /* 44 up, 12 bytes */
    CASTANETASH_FORM_VALUE_FORMAT = 29,      /* 44 up, 10 bytes */
    /* Port Value (Single): the value of a port, in its mode */
    CASTANETASH_FORM_PORT_VALUE = 30, /* 45 up, 5 to 127 bytes */
    /* Port Input Format (Single): answers which mode a port is in */
    CASTANETASH_FORM_INPUT_FORMAT = 31, /* 47 up, 10 bytes */
    /* Virtual Port Setup */
    CASTANETASH_FORM_VIRTUAL_DISCONNECT = 32, /* 61 down, 5 bytes */
    CASTANETASH_FORM_VIRTUAL_CONNECT = 33,    /* 61 down, 6 bytes */
    /* Port Output Command: drives motors */
    CASTANETASH_FORM_START_SPEED_FOR_DEGREES = 34, /* 81 down, 15 bytes */
    CASTANETASH_FORM_GOTO_ABSOLUTE_POSITION = 35,  /* 81 down, 14 bytes */
    CASTANETASH_FORM_GOTO_ABSOLUTE_POSITIONS = 36, /* 81 down, 18 bytes */
    CASTANETASH_FORM_PRESET_ENCODERS = 37,         /* 81 down, 14 bytes */
    /* Port Output Command Feedback: tells how far the commands are */
    CASTANETASH_FORM_OUTPUT_FEEDBACK = 38, /* 82 up, 5 to 127 bytes */
    /* Port Input Format Setup (CombinedMode): the second asks a port for a list of modes and datasets */
    CASTANETASH_FORM_COMBINED_SETUP = 39, /* 42 down, 5 bytes */
    CASTANETASH_FORM_MODE_DATASETS = 40,  /* 42 down, 7 to 22 bytes */
    /* Port Value (CombinedMode): the values of a port, by its list */
    CASTANETASH_FORM_PORT_VALUE_COMBINED = 41, /* 46 up, 7 to 127 bytes */
    /* Port Input Format (CombinedMode): answers which entries of its list a port sends */
    CASTANETASH_FORM_INPUT_FORMAT_COMBINED = 42 /* 48 up, 7 bytes */
};

/* ---- The values of each form ----
 *
 * Where they stand in a row, and what may stand there: a list, or any number of a width. u8, u16, u32 and u48 are
 * unsigned. i8 and i32 are signed, in two's complement of 64 bits: cast a cell to int64_t to read it, a number to
 * uint64_t to write it. f32 is the 32 bits of a float, which is finite. A u48 is six bytes, the first the most
 * significant. [..] is a selector: with the type it decides on the form.
 *
 * Forms 15 to 17 and 38 have no values: GO_INTO_BOOT_MODE and LOCK_MEMORY carry fixed strings, LOCK_STATUS_REQUEST
 * nothing, and OUTPUT_FEEDBACK open bytes alone.
 *
 * Hub Properties. Operations down are 1 set, 2 enable updates, 3 disable updates, 4 reset, 5 request; up is 6 update.
 * Set and update carry the property, in the form below; the others are PROPERTY_COMMAND.
 *
 *   property                   operations   form, and what may stand there
 *    1 name                    1 2 3 4 5 6  PROPERTY_TEXT, 1 to 14 open bytes
 *    2 button                    2 3   5 6  PROPERTY_BYTE, 0 or 1
 *    3 firmware version                5 6  PROPERTY_VERSION
 *    4 hardware version                5 6  PROPERTY_VERSION
 *    5 RSSI                      2 3   5 6  PROPERTY_RSSI
 *    6 battery voltage           2 3   5 6  PROPERTY_BYTE, 0 to 100 percent
 *    7 battery type                    5 6  PROPERTY_BYTE, 0 normal or 1 rechargeable
 *    8 manufacturer name               5 6  PROPERTY_TEXT, 1 to 122 open bytes
 *    9 radio firmware version          5 6  PROPERTY_TEXT, 1 to 122 open bytes
 *   10 protocol version                5 6  PROPERTY_PROTOCOL
 *   11 system type                     5 6  PROPERTY_BYTE, any
 *   12 network id              1     4 5 6  PROPERTY_BYTE, any
 *   13 primary MAC address             5 6  PROPERTY_ADDRESS
 *   14 secondary MAC address           5 6  PROPERTY_ADDRESS
 *   15 network family          1       5 6  PROPERTY_BYTE, 0 to 8
 */
enum castanetash_property_command {
    CASTANETASH_PROPERTY_COMMAND_PROPERTY = 4, /* [1 to 15] */
    CASTANETASH_PROPERTY_COMMAND_OPERATION = 5 /* [2 to 5] */
};

enum castanetash_property_text {
    CASTANETASH_PROPERTY_TEXT_PROPERTY = 4, /* [1, 8 or 9] */
    CASTANETASH_PROPERTY_TEXT_OPERATION = 5 /* [1 or 6] */
};

enum castanetash_property_byte {
    CASTANETASH_PROPERTY_BYTE_PROPERTY = 4,  /* [2, 6, 7, 11, 12 or 15] */
    CASTANETASH_PROPERTY_BYTE_OPERATION = 5, /* [1 or 6] */
    CASTANETASH_PROPERTY_BYTE_VALUE = 6      /* by its property */
};

enum castanetash_property_rssi {
    CASTANETASH_PROPERTY_RSSI_PROPERTY = 4,  /* [5] */
    CASTANETASH_PROPERTY_RSSI_OPERATION = 5, /* [6] */
    CASTANETASH_PROPERTY_RSSI_RSSI = 6       /* i8 */
};

enum castanetash_property_version {
    CASTANETASH_PROPERTY_VERSION_PROPERTY = 4,  /* [3 or 4] */
    CASTANETASH_PROPERTY_VERSION_OPERATION = 5, /* [6] */
    CASTANETASH_PROPERTY_VERSION_VERSION = 6    /* i32 */
};

enum castanetash_property_protocol {
    CASTANETASH_PROPERTY_PROTOCOL_PROPERTY = 4,  /* [10] */
    CASTANETASH_PROPERTY_PROTOCOL_OPERATION = 5, /* [6] */
    CASTANETASH_PROPERTY_PROTOCOL_VERSION = 6    /* u16 */
};

enum castanetash_property_address {
    CASTANETASH_PROPERTY_ADDRESS_PROPERTY = 4,  /* [13 or 14] */
    CASTANETASH_PROPERTY_ADDRESS_OPERATION = 5, /* [6] */
    CASTANETASH_PROPERTY_ADDRESS_ADDRESS = 6    /* u48 */
};

/* Hub Actions. Down: 1 switch off, 2 disconnect, 3 and 4 port voltage on and off, 5 and 6 busy light on and off, 47
 * shut down at once. Up: the hub will 48 switch off, 49 disconnect, 50 go into boot mode. */
enum castanetash_hub_action {
    CASTANETASH_HUB_ACTION_ACTION = 4 /* [1 to 6 or 47 down; 48 to 50 up] */
};

/* Hub Alerts: 1 low voltage, 2 high current, 3 low signal strength, 4 over power. Operations down: 1 enable updates,
 * 2 disable updates, 3 request; up: 4 update. */
enum castanetash_alert_command {
    CASTANETASH_ALERT_COMMAND_ALERT = 4,    /* [1 to 4] */
    CASTANETASH_ALERT_COMMAND_OPERATION = 5 /* [1 to 3] */
};

enum castanetash_alert_update {
    CASTANETASH_ALERT_UPDATE_ALERT = 4,     /* [1 to 4] */
    CASTANETASH_ALERT_UPDATE_OPERATION = 5, /* [4] */
    CASTANETASH_ALERT_UPDATE_STATUS = 6     /* 0 fine or 255 alert */
};

/* Hub Attached I/O. */
enum castanetash_detached {
    CASTANETASH_DETACHED_PORT = 4, /* u8 */
    CASTANETASH_DETACHED_EVENT = 5 /* [0] */
};

enum castanetash_attached {
    CASTANETASH_ATTACHED_PORT = 4,     /* u8 */
    CASTANETASH_ATTACHED_EVENT = 5,    /* [1] */
    CASTANETASH_ATTACHED_DEVICE = 6,   /* u16 */
    CASTANETASH_ATTACHED_HARDWARE = 7, /* i32, the hardware revision */
    CASTANETASH_ATTACHED_SOFTWARE = 8  /* i32, the software revision */
};

enum castanetash_attached_virtual {
    CASTANETASH_ATTACHED_VIRTUAL_PORT = 4,   /* u8 */
    CASTANETASH_ATTACHED_VIRTUAL_EVENT = 5,  /* [2] */
    CASTANETASH_ATTACHED_VIRTUAL_DEVICE = 6, /* u16 */
    CASTANETASH_ATTACHED_VIRTUAL_PORT_A = 7, /* u8 */
    CASTANETASH_ATTACHED_VIRTUAL_PORT_B = 8  /* u8 */
};

/* Generic Error Messages. Errors: 1 ACK, 2 MACK, 3 buffer overflow, 4 timeout, 5 command not recognized, 6 invalid use,
 * 7 overcurrent, 8 internal error. */
enum castanetash_generic_error {
    CASTANETASH_GENERIC_ERROR_COMMAND = 4, /* u8, the type of the message that it is about */
    CASTANETASH_GENERIC_ERROR_ERROR = 5    /* 1 to 8 */
};

enum castanetash_lock_status {
    CASTANETASH_LOCK_STATUS_STATUS = 4 /* u8; 0 locked, 255 not locked */
};

/* Port Information Request: 0 the value (45), 1 the modes, 2 the combinations of modes (43). */
enum castanetash_port_information_request {
    CASTANETASH_PORT_INFORMATION_REQUEST_PORT = 4,       /* u8 */
    CASTANETASH_PORT_INFORMATION_REQUEST_INFORMATION = 5 /* 0 to 2 */
};

/* Port Mode Information Request: asks for the 44 of that mode and information. */
enum castanetash_mode_information_request {
    CASTANETASH_MODE_INFORMATION_REQUEST_PORT = 4,       /* u8 */
    CASTANETASH_MODE_INFORMATION_REQUEST_MODE = 5,       /* 0 to 15 */
    CASTANETASH_MODE_INFORMATION_REQUEST_INFORMATION = 6 /* 0 to 5, 7, 8 or 128 */
};

/* Port Input Format Setup (Single). */
enum castanetash_input_format_setup {
    CASTANETASH_INPUT_FORMAT_SETUP_PORT = 4,  /* u8 */
    CASTANETASH_INPUT_FORMAT_SETUP_MODE = 5,  /* 0 to 15 */
    CASTANETASH_INPUT_FORMAT_SETUP_DELTA = 6, /* u32, the least change that is sent */
    CASTANETASH_INPUT_FORMAT_SETUP_NOTIFY = 7 /* 1 if changes are sent, else 0 */
};

/* Port Information. */
enum castanetash_port_modes {
    CASTANETASH_PORT_MODES_PORT = 4,         /* u8 */
    CASTANETASH_PORT_MODES_INFORMATION = 5,  /* [1] */
    CASTANETASH_PORT_MODES_CAPABILITIES = 6, /* 0 to 15: 1 output, 2 input, 4 combinable, 8 synchronizable */
    CASTANETASH_PORT_MODES_MODE_COUNT = 7,   /* u8 */
    CASTANETASH_PORT_MODES_INPUT_MODES = 8,  /* u16, a bit a mode */
    CASTANETASH_PORT_MODES_OUTPUT_MODES = 9  /* u16, a bit a mode */
};

enum castanetash_port_combinations {
    CASTANETASH_PORT_COMBINATIONS_PORT = 4,        /* u8 */
    CASTANETASH_PORT_COMBINATIONS_INFORMATION = 5, /* [2] */
    CASTANETASH_PORT_COMBINATIONS_COUNT = 6,       /* 1 to 8 */
    CASTANETASH_PORT_COMBINATIONS_ENTRIES = 7      /* the first of eight u16, a bit a mode; those past the count are 0
                                                      after reading, and not looked at in writing */
};

/* Port Mode Information: 0 name, 1 to 3 raw, percent and SI range, 4 symbol, 5 mapping, 7 motor bias, 8 capability
 * bits, 128 (hex 80) value format. */
enum castanetash_mode_text {
    CASTANETASH_MODE_TEXT_PORT = 4,       /* u8 */
    CASTANETASH_MODE_TEXT_MODE = 5,       /* 0 to 15 */
    CASTANETASH_MODE_TEXT_INFORMATION = 6 /* [0, 1 to 11 open bytes; or 4, 1 to 5 open bytes] */
};

enum castanetash_mode_range {
    CASTANETASH_MODE_RANGE_PORT = 4,        /* u8 */
    CASTANETASH_MODE_RANGE_MODE = 5,        /* 0 to 15 */
    CASTANETASH_MODE_RANGE_INFORMATION = 6, /* [1 to 3] */
    CASTANETASH_MODE_RANGE_LOWEST = 7,      /* f32 */
    CASTANETASH_MODE_RANGE_HIGHEST = 8      /* f32 */
};

enum castanetash_mode_mapping {
    CASTANETASH_MODE_MAPPING_PORT = 4,        /* u8 */
    CASTANETASH_MODE_MAPPING_MODE = 5,        /* 0 to 15 */
    CASTANETASH_MODE_MAPPING_INFORMATION = 6, /* [5] */
    CASTANETASH_MODE_MAPPING_MAPPING = 7      /* u16 */
};

enum castanetash_mode_bias {
    CASTANETASH_MODE_BIAS_PORT = 4,        /* u8 */
    CASTANETASH_MODE_BIAS_MODE = 5,        /* 0 to 15 */
    CASTANETASH_MODE_BIAS_INFORMATION = 6, /* [7] */
    CASTANETASH_MODE_BIAS_BIAS = 7         /* 0 to 100 */
};

enum castanetash_mode_capabilities {
    CASTANETASH_MODE_CAPABILITIES_PORT = 4,        /* u8 */
    CASTANETASH_MODE_CAPABILITIES_MODE = 5,        /* 0 to 15 */
    CASTANETASH_MODE_CAPABILITIES_INFORMATION = 6, /* [8] */
    CASTANETASH_MODE_CAPABILITIES_BITS = 7         /* u48 */
};

enum castanetash_value_format {
    CASTANETASH_VALUE_FORMAT_PORT = 4,        /* u8 */
    CASTANETASH_VALUE_FORMAT_MODE = 5,        /* 0 to 15 */
    CASTANETASH_VALUE_FORMAT_INFORMATION = 6, /* [128] */
    CASTANETASH_VALUE_FORMAT_DATASETS = 7,    /* 1 to 16 */
    CASTANETASH_VALUE_FORMAT_KIND = 8,        /* 0 to 3: one of enum castanetash_format_kind */
    CASTANETASH_VALUE_FORMAT_FIGURES = 9,     /* u8, figures in all */
    CASTANETASH_VALUE_FORMAT_DECIMALS = 10    /* u8 */
};

/* Port Value (Single). 1 to 123 open bytes, the datasets of the value. */
enum castanetash_port_value {
    CASTANETASH_PORT_VALUE_PORT = 4 /* u8 */
};

/* Port Input Format (Single). */
enum castanetash_input_format {
    CASTANETASH_INPUT_FORMAT_PORT = 4,  /* u8 */
    CASTANETASH_INPUT_FORMAT_MODE = 5,  /* 0 to 15 */
    CASTANETASH_INPUT_FORMAT_DELTA = 6, /* u32 */
    CASTANETASH_INPUT_FORMAT_NOTIFY = 7 /* 0 or 1 */
};

/* Virtual Port Setup. */
enum castanetash_virtual_disconnect {
    CASTANETASH_VIRTUAL_DISCONNECT_SUB = 4, /* [0] */
    CASTANETASH_VIRTUAL_DISCONNECT_PORT = 5 /* u8 */
};

enum castanetash_virtual_connect {
    CASTANETASH_VIRTUAL_CONNECT_SUB = 4,    /* [1] */
    CASTANETASH_VIRTUAL_CONNECT_PORT_A = 5, /* u8 */
    CASTANETASH_VIRTUAL_CONNECT_PORT_B = 6  /* u8 */
};

/* Port Output Command. Start byte: 16 executes at once, else it is buffered if necessary; plus 1 if feedback (82) is
 * wanted. Speeds and power are percent; the sign of a speed is its direction. End states: 0 float, 126 hold, 127 brake.
 * Profile: bits 1 acceleration, 2 deceleration. GOTO_ABSOLUTE_POSITION is for one motor or a virtual port, the others
 * are for the two motors of a virtual port. */
enum castanetash_start_speed_for_degrees {
    CASTANETASH_START_SPEED_FOR_DEGREES_PORT = 4,        /* u8 */
    CASTANETASH_START_SPEED_FOR_DEGREES_START = 5,       /* 0, 1, 16 or 17 */
    CASTANETASH_START_SPEED_FOR_DEGREES_SUB = 6,         /* [12] */
    CASTANETASH_START_SPEED_FOR_DEGREES_DEGREES = 7,     /* 0 to 10000000, an i32 */
    CASTANETASH_START_SPEED_FOR_DEGREES_SPEED_LEFT = 8,  /* -100 to 100, an i8 */
    CASTANETASH_START_SPEED_FOR_DEGREES_SPEED_RIGHT = 9, /* -100 to 100, an i8 */
    CASTANETASH_START_SPEED_FOR_DEGREES_POWER = 10,      /* 0 to 100 */
    CASTANETASH_START_SPEED_FOR_DEGREES_END_STATE = 11,  /* 0, 126 or 127 */
    CASTANETASH_START_SPEED_FOR_DEGREES_PROFILE = 12     /* 0 to 3 */
};

enum castanetash_goto_absolute_position {
    CASTANETASH_GOTO_ABSOLUTE_POSITION_PORT = 4,       /* u8 */
    CASTANETASH_GOTO_ABSOLUTE_POSITION_START = 5,      /* 0, 1, 16 or 17 */
    CASTANETASH_GOTO_ABSOLUTE_POSITION_SUB = 6,        /* [13] */
    CASTANETASH_GOTO_ABSOLUTE_POSITION_POSITION = 7,   /* i32, degrees */
    CASTANETASH_GOTO_ABSOLUTE_POSITION_SPEED = 8,      /* 1 to 100 */
    CASTANETASH_GOTO_ABSOLUTE_POSITION_POWER = 9,      /* 0 to 100 */
    CASTANETASH_GOTO_ABSOLUTE_POSITION_END_STATE = 10, /* 0, 126 or 127 */
    CASTANETASH_GOTO_ABSOLUTE_POSITION_PROFILE = 11    /* 0 to 3 */
};

enum castanetash_goto_absolute_positions {
    CASTANETASH_GOTO_ABSOLUTE_POSITIONS_PORT = 4,       /* u8 */
    CASTANETASH_GOTO_ABSOLUTE_POSITIONS_START = 5,      /* 0, 1, 16 or 17 */
    CASTANETASH_GOTO_ABSOLUTE_POSITIONS_SUB = 6,        /* [14] */
    CASTANETASH_GOTO_ABSOLUTE_POSITIONS_POSITION_1 = 7, /* i32, degrees */
    CASTANETASH_GOTO_ABSOLUTE_POSITIONS_POSITION_2 = 8, /* i32, degrees */
    CASTANETASH_GOTO_ABSOLUTE_POSITIONS_SPEED = 9,      /* 1 to 100 */
    CASTANETASH_GOTO_ABSOLUTE_POSITIONS_POWER = 10,     /* 0 to 100 */
    CASTANETASH_GOTO_ABSOLUTE_POSITIONS_END_STATE = 11, /* 0, 126 or 127 */
    CASTANETASH_GOTO_ABSOLUTE_POSITIONS_PROFILE = 12    /* 0 to 3 */
};

enum castanetash_preset_encoders {
    CASTANETASH_PRESET_ENCODERS_PORT = 4,          /* u8 */
    CASTANETASH_PRESET_ENCODERS_START = 5,         /* 0, 1, 16 or 17 */
    CASTANETASH_PRESET_ENCODERS_SUB = 6,           /* [20] */
    CASTANETASH_PRESET_ENCODERS_LEFT_POSITION = 7, /* i32, degrees */
    CASTANETASH_PRESET_ENCODERS_RIGHT_POSITION = 8 /* i32, degrees */
};

/* Port Output Command Feedback. 2 to 124 open bytes, one or more pairs: a port, any, and its feedback, 0 to 31. Bits of
 * feedback: 1 buffer empty and command in progress, 2 buffer empty and command completed, 4 current command or commands
 * discarded, 8 idle, 16 busy or full. */

/* Port Input Format Setup (CombinedMode). Sub commands: 1 sets the list, 2 locks the device for setup, 3 and 4 unlock
 * and start it with multi update and without, 6 resets it. */
enum castanetash_combined_setup {
    CASTANETASH_COMBINED_SETUP_PORT = 4, /* u8 */
    CASTANETASH_COMBINED_SETUP_SUB = 5   /* [2, 3, 4 or 6] */
};

/* 1 to 16 open bytes, the entries of the list: mode in the high half, dataset in the low. No byte stands there twice: 7
 * at the first that stood there before. */
enum castanetash_mode_datasets {
    CASTANETASH_MODE_DATASETS_PORT = 4,       /* u8 */
    CASTANETASH_MODE_DATASETS_SUB = 5,        /* [1] */
    CASTANETASH_MODE_DATASETS_COMBINATION = 6 /* u8, the index of a combination (43) */
};

#define CASTANETASH_MOST_ENTRIES 16 /* of a list */

/* Port Value (CombinedMode). 1 to 121 open bytes: a dataset for each pointer, from the lowest up. Pointer 1 is the
 * list's first entry, 2 its second, 4 its third, and so on. */
enum castanetash_port_value_combined {
    CASTANETASH_PORT_VALUE_COMBINED_PORT = 4,    /* u8 */
    CASTANETASH_PORT_VALUE_COMBINED_POINTERS = 5 /* u16, a bit an entry */
};

/* Port Input Format (CombinedMode). Control: bits 0 to 3 the index of the combination, bit 7 multi update. */
enum castanetash_input_format_combined {
    CASTANETASH_INPUT_FORMAT_COMBINED_PORT = 4,    /* u8 */
    CASTANETASH_INPUT_FORMAT_COMBINED_CONTROL = 5, /* u8 */
    CASTANETASH_INPUT_FORMAT_COMBINED_POINTERS = 6 /* u16, a bit an entry */
};

/* ---- The table ----
 *
 * What is known of a hub's ports, at most sixteen, in 1008 cells (4032 bytes) that the caller lends to every call and
 * need not look into. A port is present from its attachment (04) to its detachment. The hub tells the format of a
 * mode's values (44, information 128). A client asks a port for a mode (41), and the hub answers the mode that the port
 * is in (47): from then on, and not before, its values (45) are in that mode. All of it is forgotten with the port. A
 * virtual port joins two others, and goes when one of them does. When the hub says that it goes (02 up), no port is
 * present any more. Commands for motors (81) and their feedback (82) change nothing, and are judged by the ports that
 * they name.
 *
 * A client may ask a port for a list of modes and datasets too (42, sub command 1). The port keeps the latest list. The
 * hub's 48 answers which entries of it the port sends, and takes the list over as it then stands: from then on the port
 * is combined, and its values (46) are read by that list, even if the client asks for another. A 47 makes it single
 * again, and leaves the list that it keeps. The other sub commands change nothing.
 *
 * A table may be copied and stored. Before anything else each call tests that the cells are a sound table: no port
 * twice, virtual ports and members that fit each other, every number in its list, free places zeros; a list has 1 to 16
 * different bytes, and zeros after them; an asking by list is the kept list; a combined port has a kept list, and
 * pointers, not 0, within the list taken over, which is the kept one in states 2 and 3; a port that is not combined has
 * taken over none; without an asking there is no list and the number of the experiment is 0; the state fits its rule.
 * Else 9. castanetash_empty asks for their number alone.
 */
#define CASTANETASH_TABLE_CELLS 1008
#define CASTANETASH_MOST_PORTS 16

/* Makes a table an empty one, whatever its cells held, and returns 0. Refused: 9 for another number of cells. */
uint64_t castanetash_empty(uint32_t *table, size_t table_len);

/* Offers a message to a table, with the number of the experiment that it belongs to. Accepted: changes the table as the
 * message says, and returns 0. A port keeps the experiment number of its latest asking, a 41 or a list (42, sub command
 * 1); that of any other message leaves no trace.
 *
 * Two messages whose ports differ, each a 41, 42, 44, 47 or 48, or one that reading refuses, may be offered in either
 * order: the table has the same cells afterwards, and each message the same answer. Of other types the order may
 * matter, even where the ports differ: a detachment may take a virtual port with it.
 *
 * Refused: 9; 1 to 7 as in reading; then
 *   an attachment 11, 12 (a virtual port's), 13;
 *   a detachment, a 21, 22, 41, 42, 43, 44 or 47: 10;
 *   a 45: 10, 14, 15, 16;
 *   a 46: 10, 20, 21, 15, 17, 16; each of 15 and 17 for any entry pointed at, 15 for all of them before any 17;
 *   a 48: 10, 21;
 *   a 61 that connects 12, one that disconnects 10, 12;
 *   an 81: 10, then 22 unless it is GOTO_ABSOLUTE_POSITION or the port is virtual; a member of a virtual port is not;
 *   an 82: 10 if any of its ports isn't present. */
uint64_t castanetash_offer(uint32_t *table, size_t table_len, const uint8_t *message, size_t message_len, uint8_t way,
                           uint16_t experiment);

/* ---- Values ---- */

/* How a port's latest answer, a 47 or a 48, stands to its latest asking, a 41 or a list (42, sub command 1). */
enum castanetash_state {
    CASTANETASH_STATE_NOTHING_ASKED = 0, /* there was no asking */
    CASTANETASH_STATE_UNANSWERED = 1,    /* there was no answer since the latest asking: values are still as before */
    CASTANETASH_STATE_AS_ASKED = 2,      /* the latest answer came after it: a 47 to a 41, with equal mode, delta and
                                            notify; or a 48 to a list, whose pointers are all of the list's */
    CASTANETASH_STATE_OTHERWISE = 3      /* the latest answer came after it, and differs: so do a 47 to a list and a 48
                                            to a 41 */
};

/* A dataset as a row of 6 numbers. */
#define CASTANETASH_DATASET_CELLS 6
#define CASTANETASH_MOST_DATASETS 16

enum castanetash_dataset_cell {
    CASTANETASH_DATASET_CELL_KIND = 0,  /* one of enum castanetash_dataset_kind */
    CASTANETASH_DATASET_CELL_VALUE = 1, /* a whole number as int64_t, in two's complement; a float as its 32 bits */
    CASTANETASH_DATASET_CELL_PORT = 2,
    CASTANETASH_DATASET_CELL_MODE = 3,      /* the mode that the hub last answered, and that the value is read by; of a
                                               46 that of its entry */
    CASTANETASH_DATASET_CELL_STATE = 4,     /* one of enum castanetash_state */
    CASTANETASH_DATASET_CELL_EXPERIMENT = 5 /* of the experiment that asked for it; 0 unless the state is 2 */
};

enum castanetash_dataset_kind {
    CASTANETASH_DATASET_KIND_WHOLE = 0,
    CASTANETASH_DATASET_KIND_FLOAT = 1
};

/* Reads all datasets of a 45 or a 46, 1 to 16. A 46 has one for each pointer, from the lowest up. Accepted: fills 6
 * cells of rows for each, in their order, and returns how many datasets they are. The message is judged as
 * castanetash_offer would, and changes nothing. Neither a 45 nor a 46 changes a table, so it need not be offered: read
 * a message's values first, and offer it if that is refused as 17.
 *
 * Refused: 9; 1 to 7 as in reading; 10 to 17 and 20 to 22 as in castanetash_offer; 17 if the message is accepted, but
 * is no 45 or 46; 18 if any dataset is an infinity or a NaN; 255 if rows has fewer cells than 6 times the datasets. */
uint64_t castanetash_values(const uint32_t *table, size_t table_len, const uint8_t *message, size_t message_len,
                            uint8_t way, uint64_t *rows, size_t rows_len);

/* Reads one dataset of a 45 or a 46, numbered from 0. Accepted: fills the first 6 cells of the row, and returns 6.
 *
 * Refused: as castanetash_values, but 17 also if there is no dataset of that number, 18 for that dataset alone, and 255
 * if the row has fewer than 6 cells. */
uint64_t castanetash_dataset(const uint32_t *table, size_t table_len, const uint8_t *message, size_t message_len,
                             uint8_t way, size_t number, uint64_t *row, size_t row_len);

/* ---- Ports ---- */

/* The ports that are present, ascending, a byte each. Returns how many they are, at most 16.
 *
 * Refused: 9; 255 if there are more of them than bytes. */
uint64_t castanetash_ports(const uint32_t *table, size_t table_len, uint8_t *ports, size_t ports_len);

/* A port as a row of 49 numbers. What isn't known is 0. */
#define CASTANETASH_PORT_CELLS 49

enum castanetash_port_cell {
    CASTANETASH_PORT_CELL_WIRING = 0, /* one of enum castanetash_wiring */
    CASTANETASH_PORT_CELL_DEVICE = 1,
    CASTANETASH_PORT_CELL_PARTNER = 2, /* a joined port's virtual port; a virtual port's first member, as sent */
    CASTANETASH_PORT_CELL_SECOND = 3,  /* a virtual port's second member, as sent */
    CASTANETASH_PORT_CELL_STATE = 4,   /* one of enum castanetash_state */
    CASTANETASH_PORT_CELL_ASKED = 5,   /* the latest asking: 1 a 41, 2 a list (42, sub command 1); of a 41: */
    CASTANETASH_PORT_CELL_ASKED_MODE = 6,
    CASTANETASH_PORT_CELL_ASKED_DELTA = 7,
    CASTANETASH_PORT_CELL_ASKED_NOTIFY = 8,
    CASTANETASH_PORT_CELL_ANSWERED = 9, /* the latest answer: 1 a 47, 2 a 48, so the port is combined; of a 47: */
    CASTANETASH_PORT_CELL_ANSWERED_MODE = 10,
    CASTANETASH_PORT_CELL_ANSWERED_DELTA = 11,
    CASTANETASH_PORT_CELL_ANSWERED_NOTIFY = 12,
    CASTANETASH_PORT_CELL_EXPERIMENT = 13,   /* that of the latest asking */
    CASTANETASH_PORT_CELL_POINTERS = 14,     /* of the latest 48, if the port is combined */
    CASTANETASH_PORT_CELL_LIST = 15,         /* how many entries the latest list has */
    CASTANETASH_PORT_CELL_LIST_ENTRIES = 16, /* the first of sixteen, zeros after them */
    CASTANETASH_PORT_CELL_TAKEN = 32,        /* how many entries the list has that the latest 48 took over, by which a
                                                46 is read; 0 unless the port is combined */
    CASTANETASH_PORT_CELL_TAKEN_ENTRIES = 33 /* the first of sixteen, zeros after them */
};

enum castanetash_wiring {
    CASTANETASH_WIRING_ABSENT = 0,
    CASTANETASH_WIRING_UNJOINED = 1, /* physical, and no member of a virtual port */
    CASTANETASH_WIRING_JOINED = 2,   /* physical, and a member of a virtual port */
    CASTANETASH_WIRING_VIRTUAL = 3
};

/* What is known of a port. Accepted: fills the first 49 cells of the row, and returns 49. An absent port has zeros.
 *
 * Refused: 9; 255 if the row has fewer than 49 cells. */
uint64_t castanetash_port(const uint32_t *table, size_t table_len, uint8_t port, uint64_t *row, size_t row_len);

/* The format of a mode's values as a row of 5 numbers. What isn't known is 0. */
#define CASTANETASH_FORMAT_CELLS 5

enum castanetash_format_cell {
    CASTANETASH_FORMAT_CELL_KNOWN = 0,    /* 1 if the format is known */
    CASTANETASH_FORMAT_CELL_DATASETS = 1, /* 1 to 16 */
    CASTANETASH_FORMAT_CELL_KIND = 2,     /* one of enum castanetash_format_kind */
    CASTANETASH_FORMAT_CELL_FIGURES = 3,
    CASTANETASH_FORMAT_CELL_DECIMALS = 4
};

/* Datasets have 1, 2, 4 and 4 bytes. Whole numbers are signed. */
enum castanetash_format_kind {
    CASTANETASH_FORMAT_KIND_INT8 = 0,
    CASTANETASH_FORMAT_KIND_INT16 = 1,
    CASTANETASH_FORMAT_KIND_INT32 = 2,
    CASTANETASH_FORMAT_KIND_FLOAT = 3
};

/* What is known of a port's mode. Accepted: fills the first 5 cells of the row, and returns 5. An absent port, and a
 * mode without format, such as one over 15, have zeros.
 *
 * Refused: 9; 255 if the row has fewer than 5 cells. */
uint64_t castanetash_format(const uint32_t *table, size_t table_len, uint8_t port, uint8_t mode, uint64_t *row,
                            size_t row_len);

/* ---- Logs ----
 *
 * A log is records of 136 bytes: 0 to 3 a time, which is not used; 4 the way, 0 down, 1 up; 5 zero; 6 and 7 the
 * experiment number, the lowest byte first; 8 to 135 the message, then zeros. A record's line is its number, from 1,
 * and its refusal, 0 if it is accepted; for an accepted 45 it goes on with port, mode, state, experiment number and
 * datasets, floats as their 32 bits; for an accepted 46 with port, state, experiment number, pointers and datasets. All
 * are decimal, with a space between them:
 *
 *   102 0 0 1 2 301 602
 *   103 10
 *   104 0 0 2 9 3 -128 -2
 *
 * 19 comes before all other refusals: the way is over 1, or byte 5 or a byte after the message is not 0. 18 comes last:
 * any dataset of a 45 or 46 is an infinity or a NaN.
 */
#define CASTANETASH_RECORD 136

/* No line, with its newline, takes more bytes. */
#define CASTANETASH_LINE_ROOM 462

/* The totals of a log. Both are 0 before its first record. */
#define CASTANETASH_TOTALS_CELLS 2

enum castanetash_totals {
    CASTANETASH_TOTALS_RECORDS = 0, /* records so far */
    CASTANETASH_TOTALS_REFUSED = 1  /* refused ones among them */
};

/* Works through whole records from the start of log, while one is left and text has room for any line: each is offered
 * to the table, is counted in totals, and has its line put to text, numbered on from totals. Returns the bytes of text,
 * at most 2^32 - 1. What was taken of log is 136 bytes for each record that the totals have grown by; while whole
 * records are left, call again with the rest. With fewer than 462 bytes of text nothing is worked through.
 *
 * A last piece of under 136 bytes is the caller's: it counts as one record more, with a line of its number and 19. So
 * is the last line, "total RECORDS refused REFUSED".
 *
 * Refused: 9; 255 if totals has fewer than 2 cells. Refused records do not refuse the call. */
uint64_t castanetash_read_block(uint32_t *table, size_t table_len, uint64_t *totals, size_t totals_len,
                                const uint8_t *log, size_t log_len, uint8_t *text, size_t text_len);

/* ---- The cells of a table ----
 *
 * Sixteen records of 63. A new record takes the lowest free place, and a free place is zeros.
 *   0      0 free, else one of enum castanetash_wiring
 *   1, 2   port, device
 *   3, 4   partner and second member, as castanetash_port gives them
 *   5      state
 *   6..8   the latest asking: of a 41 mode + 1, delta, notify; of a list 17, 0, 0; zeros if there was none
 *   9      the experiment number of the latest asking; 0 if there was none
 *   10..12 the latest answer: of a 47 mode + 1, delta, notify; of a 48 17, pointers, 0; zeros if there was none
 *   13..28 the formats of modes 0 to 15: datasets + 2^8 * kind + 2^16 * figures + 2^24 * decimals, 0 if not known
 *   29     how many entries the latest list has, 0 if there was none
 *   30..45 its entries, zeros after them
 *   46     how many entries the list has that the latest 48 took over, 0 unless the port is combined
 *   47..62 its entries, zeros after them
 */

#ifdef __cplusplus
}
#endif

#endif

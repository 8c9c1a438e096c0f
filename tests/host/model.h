/*
 * An independent model of document 01, identifier, vehicle addresses, route, readings, receiver and
 * cutter, server, count sheet; and of document 02's ranking, mending and logs.
 *
 * Refusal numbers are the documents', 0 for none. On a refusal every other field of a result is 0,
 * save that refusal 11 of the receiver also says that overflow control is due and to whom.
 *
 * Every function is total in the values it is given. A pointer must lead to as many bytes as the
 * length beside it says (a length of 0 may go with a null pointer); pointers to a node, a record,
 * the sheet's text, what a mending writes and what a log's line is read or written into are never
 * null. Lent memory that one call may write does not overlap with what it reads, nor with what else
 * it may write. A flag is true when it is not 0; in results it is 0 or 1.
 */
#ifndef MODEL_H
#define MODEL_H

#include <stddef.h>
#include <stdint.h>

enum {
    MODEL_POSITIONS = 6,          /* positions 0 to 5 */
    MODEL_NO_POSITION = 255,      /* an address that is no vehicle's */
    MODEL_BUFFER_LENGTH = 1536,   /* the reception buffer */
    MODEL_RESPONSE_LENGTH = 255,  /* the response buffer */
    MODEL_MESSAGE_MAX = 255,      /* longest message */
    MODEL_CODES_MAX = 63,         /* fault codes in a record */
    MODEL_IDENTIFIERS_MAX = 16,   /* data identifiers in a record */
    MODEL_DATUM_MAX = 32,         /* bytes of one data identifier */
    MODEL_SHEET_INPUT_MAX = 65535,
    MODEL_SHEET_TEXT = 88701,     /* bytes of the count sheet's text buffer */
    MODEL_LOG_LINE_MAX = 255,     /* longest line of a log, without its newline */
    MODEL_LOG_TEXT = 48           /* bytes of the text buffer of one line */
};

/* ---- identifier ---------------------------------------------------------------------------- */

typedef struct {
    uint8_t refusal;
    uint8_t priority;
    uint8_t reserved;
    uint8_t data_page;
    uint8_t format;
    uint8_t specific;
    uint8_t source;
} model_identifier;

typedef struct {
    uint32_t number;
    uint8_t refusal;
} model_written;

/* Reads an identifier: 2. */
model_identifier model_identifier_read(uint32_t number);

/* Writes an identifier: 16 for a priority over 7, a reserved bit over 1 or a data page over 1. */
model_written model_identifier_write(uint32_t priority, uint32_t reserved, uint32_t data_page,
                                     uint8_t format, uint8_t specific, uint8_t source);

/* ---- vehicle ------------------------------------------------------------------------------- */

typedef struct {
    uint8_t refusal;
    uint8_t position;
} model_next;

/* 0 to 5, or MODEL_NO_POSITION. */
uint8_t model_position_of(uint8_t address);

/* The address of a position; 0, which is no vehicle's address, for a position over 5. */
uint8_t model_address_of(uint32_t position);

/* The position after a predecessor's address: 15. */
model_next model_next_position(uint8_t predecessor);

/* ---- route --------------------------------------------------------------------------------- */

enum { MODEL_SIDE_PREDECESSOR = 0, MODEL_SIDE_SUCCESSOR = 1 };
enum { MODEL_SENT_NOWHERE = 0, MODEL_SENT_PREDECESSOR = 1, MODEL_SENT_SUCCESSOR = 2 };

typedef struct {
    uint8_t refusal;
    uint8_t kept;
    uint8_t sent_on;
} model_routed;

/* Side 0 from the predecessor, 1 from the successor: 1 (any other side too), 2, 3. */
model_routed model_route(uint32_t side, uint32_t own, uint8_t successor, uint32_t number,
                         size_t data_length);

/* ---- readings ------------------------------------------------------------------------------ */

enum {
    MODEL_VALUE = 0,
    MODEL_RESERVED = 1,
    MODEL_ERROR = 2,
    MODEL_NOT_AVAILABLE = 3,
    MODEL_BEYOND_RANGE = 4,
    MODEL_INDICATOR = 5
};

typedef struct {
    float value;
    int32_t whole; /* raw number plus offset times divisor */
    uint8_t refusal;
    uint8_t outcome;
} model_reading;

typedef struct {
    uint8_t refusal;
    uint8_t outcome; /* 0 no, 1 yes, 2 error, 3 not available */
} model_two_bits;

/* A reading of kinds 0 to 7: 20. */
model_reading model_read(uint32_t kind, uint32_t raw);

/* A two-bit reading: 20. */
model_two_bits model_read_two_bits(uint32_t raw);

/* ---- node and receiver --------------------------------------------------------------------- */

/* A node can hold numbers that are none of its own: it then breaks its rules. */
typedef struct {
    uint32_t stamp;  /* of the last frame taken */
    uint32_t length; /* L */
    uint32_t frames; /* k, consecutive frames taken */
    uint8_t open;    /* 0 or 1; when 0, all the others are 0 */
} model_reception;

typedef struct {
    model_reception receptions[MODEL_POSITIONS];
    uint32_t own;
    uint32_t unit;
} model_node;

enum { MODEL_NOTHING = 0, MODEL_SINGLE = 1, MODEL_TRAIN = 2 };
enum { MODEL_NOWHERE = 0, MODEL_IN_DATA = 1, MODEL_IN_BUFFER = 2 };
enum { MODEL_NO_CONTROL = 0, MODEL_CONTINUE = 1, MODEL_OVERFLOW = 2 };

typedef struct {
    uint16_t start;     /* where the message starts in the data or in the buffer */
    uint8_t refusal;
    uint8_t kind;       /* MODEL_NOTHING, MODEL_SINGLE, MODEL_TRAIN */
    uint8_t from;       /* position the message came from; 0 with MODEL_NOTHING */
    uint8_t functional;
    uint8_t length;     /* of the message */
    uint8_t place;      /* MODEL_NOWHERE, MODEL_IN_DATA, MODEL_IN_BUFFER */
    uint8_t control;    /* flow control due: MODEL_NO_CONTROL, MODEL_CONTINUE, MODEL_OVERFLOW */
    uint8_t control_to; /* position it goes to; 0 with MODEL_NO_CONTROL */
} model_outcome;

/* 1 when the node keeps its rules, else 0. */
uint8_t model_node_keeps_rules(const model_node *node);

/* A node at position 1, all receptions closed. */
model_node model_start(uint8_t unit);

/* Makes the node fresh at a position 1 to 5; the answer is the refusal: 1, and the node as found. */
uint8_t model_fresh(model_node *node, uint32_t position, uint8_t unit);

/* Takes the address after that of the predecessor; the answer is the refusal: 1, then 15, and the node as found. */
uint8_t model_take_address(model_node *node, uint8_t predecessor);

/* Offers one frame to the receiver: 1 to 14. */
model_outcome model_receive(model_node *node, uint8_t *buffer, size_t buffer_length,
                            uint32_t number, const uint8_t *data, size_t data_length,
                            uint32_t stamp);

/* ---- cutter -------------------------------------------------------------------------------- */

typedef struct {
    uint32_t identifier;
    uint8_t data[8]; /* 0 past the length */
    uint8_t length;
    uint8_t refusal;
} model_frame;

/* The flow control frame MODEL_CONTINUE or MODEL_OVERFLOW: 16. */
model_frame model_flow_control(uint32_t kind, uint32_t own, uint32_t to, uint8_t unit);

/* Frames of a message of this length; 0 for a length that can't be cut. */
uint32_t model_frame_count(size_t length);

/* One frame of a message; the single or first frame is number 0: 16. */
model_frame model_cut(const uint8_t *message, size_t length, uint32_t frame, uint32_t sender,
                      uint32_t receiver, uint8_t unit);

/* ---- server -------------------------------------------------------------------------------- */

typedef struct {
    uint32_t codes[MODEL_CODES_MAX];
    uint8_t statuses[MODEL_CODES_MAX];
    uint8_t count;
    uint8_t availability;
    uint16_t identifiers[MODEL_IDENTIFIERS_MAX];
    uint8_t lengths[MODEL_IDENTIFIERS_MAX];
    uint8_t bytes[MODEL_IDENTIFIERS_MAX * MODEL_DATUM_MAX]; /* identifier k at 32 * k */
    uint8_t held;
} model_record;

typedef struct {
    uint8_t refusal;
    uint8_t sent; /* bytes of the response, 0 when silent */
} model_answer;

/* 1 when an availability mask keeps the mask rule, else 0. */
uint8_t model_mask_keeps_rule(uint8_t mask);

/* 1 when the record keeps its rules, else 0. */
uint8_t model_record_keeps_rules(const model_record *record);

/* Answers one request: 1, then 17. */
model_answer model_serve(model_record *record, const uint8_t *request, size_t request_length,
                         uint8_t functional, uint8_t *response, size_t response_length);

/* Sets the status of one code; the answer is the refusal: 1, 18, 19. */
uint8_t model_set_status(model_record *record, uint32_t code, uint8_t status);

/* ---- count sheet --------------------------------------------------------------------------- */

/*
 * Writes the sheet, or `refused N at OFFSET` with N 21 to 24, into a text buffer of
 * MODEL_SHEET_TEXT bytes and returns the text's length. No byte past the text is written, and the
 * text has no closing zero.
 */
size_t model_count_sheet(const uint8_t *input, size_t length, char *text);

/*
 * The same for the page of one mask: its readings whose basis is full, lowest count first, equal
 * counts as in the sheet, then its other readings as in the sheet.
 */
size_t model_ranking(const uint8_t *input, size_t length, uint8_t mask, char *text);

/* ---- mending ------------------------------------------------------------------------------- */

typedef struct {
    uint32_t kept;   /* bytes of the readings that are kept */
    uint32_t listed; /* bytes of the list of what is dropped */
    uint8_t refusal;
} model_mended;

/*
 * Writes the whole valid readings of a sheet with holes into an array of MODEL_SHEET_INPUT_MAX
 * bytes, and `dropped LENGTH at OFFSET` of each maximal dropped stretch into a list of
 * MODEL_SHEET_TEXT bytes: 21, and both as found. No byte past either is written.
 */
model_mended model_mend(const uint8_t *input, size_t length, uint8_t *kept, char *list);

/* ---- logs ---------------------------------------------------------------------------------- */

typedef struct {
    uint32_t identifier;
    uint32_t stamp;
    uint8_t refusal;
    uint8_t passed_over;
    uint8_t length; /* data bytes */
} model_log_frame;

typedef struct {
    uint8_t refusal;
    uint8_t length; /* bytes of the line, its newline included */
} model_log_line;

/*
 * Reads one line of a log, without its newline: 25, then 2. Of the eight bytes of data those past the
 * length stay, and all where the line is refused or passed over.
 */
model_log_frame model_log_read(const uint8_t *line, size_t length, uint8_t *data);

/*
 * Writes the line of a frame, and its newline, into a text buffer of MODEL_LOG_TEXT bytes: 2, 3. No
 * byte past the line is written.
 */
model_log_line model_log_write(uint32_t number, const uint8_t *data, size_t data_length,
                               uint32_t stamp, char *text);

#endif

/* Castanhiu: trailer diagnostics on the bus between towing and towed vehicle. Link libcastanhiu.a, which tools/archive
 * writes for the processor.
 *
 * Every function answers whatever it is handed: a refusal is one of the numbers below, 0 is none, and a refused answer has
 * all its other numbers 0, but for the control that refusal 11 says is due and to whom. A slice is a pointer and then its
 * length; the pointer leads to that many bytes and is not null. A node and a record are the host's, lent by a pointer that
 * is not null. What one call writes may not overlap with what else it is lent. No function keeps memory, allocates, or
 * calls out. Positions: 0 the towing vehicle, 1 to 5 the trailers.
 *
 * The rules stand in docs/RULES.md, numbered. */
#ifndef CASTANHIU_H
#define CASTANHIU_H

#include <stdbool.h>
#include <stddef.h>
#include <stdint.h>

enum { CASTANHIU_BUFFER = 1536, CASTANHIU_RESPONSE = 255, CASTANHIU_MESSAGE = 255, CASTANHIU_PAGE = 88701, CASTANHIU_SHEET = 65535,
       CASTANHIU_DATA = 8, CASTANHIU_LOG_TEXT = 48 };
enum { CASTANHIU_PREDECESSOR = 0, CASTANHIU_SUCCESSOR = 1 };                                         /* from a side */
enum { CASTANHIU_NOWHERE = 0, CASTANHIU_TO_PREDECESSOR = 1, CASTANHIU_TO_SUCCESSOR = 2 };            /* sent on */
enum { CASTANHIU_VALUE = 0, CASTANHIU_RESERVED = 1, CASTANHIU_ERROR = 2, CASTANHIU_NOT_AVAILABLE = 3,
       CASTANHIU_BEYOND_RANGE = 4, CASTANHIU_INDICATOR = 5 };                                        /* a reading's outcome */
enum { CASTANHIU_NOTHING = 0, CASTANHIU_SINGLE = 1, CASTANHIU_TRAIN = 2 };                           /* handed out */
enum { CASTANHIU_NO_CONTROL = 0, CASTANHIU_CONTINUE = 1, CASTANHIU_OVERFLOW = 2 };                   /* control due */

/* The refusals: docs/RULES.md, section 9, says when each is given, by whom, and what it leaves. */
enum {
    CASTANHIU_RULES_BROKEN = 1,          /* node, record, own position, side or buffer against its rules */
    CASTANHIU_IDENTIFIER_TOO_LARGE = 2,  /* 2^29 or more */
    CASTANHIU_TOO_MANY_DATA_BYTES = 3,   /* more than 8 */
    CASTANHIU_RESERVED_BIT_SET = 4,      /* R set: not for a receiver */
    CASTANHIU_NOT_DIAGNOSTIC = 5,        /* by DP or PF */
    CASTANHIU_NO_OTHER_VEHICLE = 6,      /* SA no vehicle's, or the own */
    CASTANHIU_OTHER_DESTINATION = 7,     /* PS not the own address (physical) or FF (functional) */
    CASTANHIU_OTHER_UNIT = 8,            /* no unit byte, or another unit */
    CASTANHIU_MALFORMED = 9,             /* second byte or lengths wrong, or functional and not single */
    CASTANHIU_FLOW_CONTROL = 10,         /* physical flow control: not for a receiver */
    CASTANHIU_OVER_LONG = 11,            /* a first frame of more than 255 bytes; overflow control is due */
    CASTANHIU_NOTHING_OPEN = 12,         /* a consecutive frame, nothing open */
    CASTANHIU_WRONG_NUMBER = 13,         /* a consecutive frame with another number */
    CASTANHIU_LATE = 14,                 /* a consecutive frame after more than 150 ms */
    CASTANHIU_NO_ADDRESS = 15,           /* no address to take */
    CASTANHIU_NOT_WRITABLE = 16,         /* no such identifier, frame or flow control to write */
    CASTANHIU_WRONG_LENGTH = 17,         /* request of 0 or over 255 bytes, or response buffer not 255 */
    CASTANHIU_CODE_NOT_HELD = 18,        /* no such fault code in the record */
    CASTANHIU_STATUS_OUTSIDE_MASK = 19,  /* a status with a bit outside the availability mask */
    CASTANHIU_NO_READING = 20,           /* kind over 7, or a raw number past its bytes or bits */
    CASTANHIU_INPUT_TOO_LONG = 21,       /* a sheet of more than 65,535 bytes */
    CASTANHIU_FIELD_CUT_SHORT = 22,      /* a sheet's field cut short */
    CASTANHIU_WRONG_TAG_OR_LENGTH = 23,  /* a sheet's field with another tag or length */
    CASTANHIU_WRONG_CONTENT = 24,        /* a sheet's field with wrong content */
    CASTANHIU_MALFORMED_LINE = 25        /* a log's line of another form */
};

typedef struct { uint8_t priority, reserved, data_page, format, specific, source; } castanhiu_identifier; /* P, R, DP, PF, PS, SA */
typedef struct { uint8_t refusal; castanhiu_identifier fields; } castanhiu_identifier_answer;
typedef struct { uint8_t refusal; uint32_t number; } castanhiu_number_answer;
typedef struct { uint8_t refusal, own; } castanhiu_position_answer;
typedef struct { uint8_t refusal; bool kept; uint8_t onward; } castanhiu_route_answer;
typedef struct { uint8_t refusal, outcome; float value; int32_t whole; } castanhiu_parameter_answer;
typedef struct { uint8_t refusal, outcome; } castanhiu_two_bits_answer;                              /* 0 no, 1 yes, 2 error, 3 not available */

/* A reception is closed when all its numbers are 0; open: L, 7 to 255, the consecutive frames taken, the last stamp. The
 * own position is 1 to 5, the unit 0 to 255. A node with another number there breaks its rules. */
typedef struct { uint32_t length, taken, last; } castanhiu_reception;
typedef struct { uint32_t own, unit; castanhiu_reception receptions[6]; } castanhiu_node;
typedef struct { uint8_t refusal; } castanhiu_node_answer;

/* The message lies in the frame's data (a single frame) or in the buffer (a train), `length` bytes from `start` on.
 * `from` is the position of the frame's vehicle, for every frame that is not refused and for refusal 11: there control 2,
 * overflow, is due to that vehicle. For every other refusal it is 0. */
typedef struct {
    uint8_t refusal, handed_out, from;
    bool functional;
    uint16_t start;
    uint8_t length, control; /* control: due to the vehicle `from` */
} castanhiu_outcome;

/* A frame to send: its identifier and its first `length` data bytes; those past them are 0. */
typedef struct { uint8_t refusal, length; uint32_t identifier; uint8_t data[8]; } castanhiu_frame;

/* Codes and identifiers ascend; identifier k has lengths[k] bytes from bytes[32 * k] on. Places past count and held are free. */
typedef struct {
    uint32_t codes[63];
    uint8_t statuses[63], count, availability;
    uint16_t identifiers[16];
    uint8_t lengths[16], bytes[512], held;
} castanhiu_record;
typedef struct { uint8_t refusal; } castanhiu_record_answer;
typedef struct { uint8_t refusal; bool silent; size_t length; } castanhiu_serve_answer;
typedef struct { uint8_t refusal; uint32_t kept, listed; } castanhiu_mended;
typedef struct { uint8_t refusal; bool passed_over; uint8_t length; uint32_t identifier, stamp; } castanhiu_log_frame;
typedef struct { uint8_t refusal, length; } castanhiu_log_line;

_Static_assert(sizeof(castanhiu_identifier) == 6 && sizeof(castanhiu_identifier_answer) == 7, "identifier");
_Static_assert(sizeof(castanhiu_number_answer) == 8 && offsetof(castanhiu_number_answer, number) == 4, "number");
_Static_assert(sizeof(castanhiu_position_answer) == 2 && sizeof(castanhiu_route_answer) == 3, "position, route");
_Static_assert(sizeof(castanhiu_parameter_answer) == 12 && sizeof(castanhiu_two_bits_answer) == 2, "readings");
_Static_assert(sizeof(castanhiu_reception) == 12 && sizeof(castanhiu_node) == 80, "node");
_Static_assert(offsetof(castanhiu_reception, length) == 0 && offsetof(castanhiu_reception, taken) == 4, "reception");
_Static_assert(offsetof(castanhiu_node, own) == 0 && offsetof(castanhiu_node, unit) == 4, "node");
_Static_assert(sizeof(castanhiu_node_answer) == 1 && sizeof(castanhiu_outcome) == 8, "node answer, outcome");
_Static_assert(sizeof(castanhiu_frame) == 16 && offsetof(castanhiu_frame, data) == 8, "frame");
_Static_assert(sizeof(castanhiu_record) == 880 && offsetof(castanhiu_record, bytes) == 366, "record");
_Static_assert(sizeof(castanhiu_record_answer) == 1 && sizeof(castanhiu_serve_answer) == 2 * sizeof(size_t), "record answers");
_Static_assert(sizeof(castanhiu_mended) == 12 && offsetof(castanhiu_mended, kept) == 4, "mended");
_Static_assert(sizeof(castanhiu_log_frame) == 12 && offsetof(castanhiu_log_frame, identifier) == 4, "log frame");
_Static_assert(sizeof(castanhiu_log_line) == 2, "log line");

/* Reads the six fields of a 29-bit identifier.
 * Refuses: 2 a number of 2^29 or more.
 * Memory: none. */
castanhiu_identifier_answer castanhiu_identifier_read(uint32_t number);

/* Writes an identifier from its six fields: R is set where the host sets it.
 * Refuses: 16 P over 7, R over 1 or DP over 1.
 * Memory: none. */
castanhiu_number_answer castanhiu_identifier_write(castanhiu_identifier fields);

/* The position after the vehicle that has this address.
 * Refuses: 15 address A9, or no vehicle's.
 * Memory: none. */
castanhiu_position_answer castanhiu_position_after(uint8_t source);

/* Whether a frame from a side is kept, and to which side it is sent on. One with R set is sent on as with R 0, and not kept.
 * Refuses: 1 another side, own position not 1 to 5 or 5 with a successor, then 2, 3 of the frame.
 * Memory: the data is left as found. */
castanhiu_route_answer castanhiu_route(uint8_t side, uint8_t own, bool successor, uint32_t identifier,
                                       const uint8_t *data, size_t data_length);

/* Reads a raw number of kind 0 to 7: a value exact in f32, and the same as a whole number of the kind's steps. An indicator
 * says something of its own parameter, as 251 of the gear, kind 0: park.
 * Refuses: 20 a kind over 7, a raw number past the kind's bytes.
 * Memory: none. */
castanhiu_parameter_answer castanhiu_read_parameter(uint8_t kind, uint32_t raw);

/* Reads two bits.
 * Refuses: 20 over 3.
 * Memory: none. */
castanhiu_two_bits_answer castanhiu_read_two_bits(uint8_t raw);

/* A trailer that starts: position 1, all receptions closed.
 * Refuses: nothing.
 * Memory: the whole node is written, whatever stood there. */
void castanhiu_start(castanhiu_node *node, uint8_t unit);

/* A fresh node at a position, all receptions closed.
 * Refuses: 1 a position that is not 1 to 5.
 * Memory: the whole node is written, whatever stood there; where refused, it is left as found. */
castanhiu_node_answer castanhiu_fresh(castanhiu_node *node, uint8_t own, uint8_t unit);

/* Takes the address after the predecessor's, from whose initialization frame `source` is; a new one closes all receptions.
 * Refuses: 1 a node that breaks its rules, 15 no address to take.
 * Memory: a new address writes the own position and all receptions; otherwise, and where refused, the node is left as found. */
castanhiu_node_answer castanhiu_take_address(castanhiu_node *node, uint8_t source);

/* Offers one frame to the node, with its buffer of CASTANHIU_BUFFER bytes.
 * Refuses: 1 the node or the buffer's length, 2 to 14 the frame; 11, 13 and 14 close that vehicle's reception.
 * Memory: of the node that one reception changes; a frame of a train writes its message bytes into the buffer, at 256 x position on;
 * all else is left as found. */
castanhiu_outcome castanhiu_receive(castanhiu_node *node, uint8_t *buffer, size_t buffer_length, uint32_t identifier,
                                    const uint8_t *data, size_t data_length, uint32_t stamp_ms);

/* The frame of flow control that an outcome says is due: CASTANHIU_CONTINUE or CASTANHIU_OVERFLOW.
 * Refuses: 16 another control, positions over 5 or equal.
 * Memory: none. */
castanhiu_frame castanhiu_flow_control(uint8_t control, uint8_t from, uint8_t to, uint8_t unit);

/* How many frames a message has; 0 for one that can't be cut, of 0 or over 255 bytes.
 * Refuses: nothing.
 * Memory: none. */
size_t castanhiu_frame_count(size_t length);

/* Frame `number` of a message; the single or first frame is number 0.
 * Refuses: 16 a message of 0 or over 255 bytes, a frame past the last, positions over 5 or equal.
 * Memory: the message is left as found. */
castanhiu_frame castanhiu_cut(const uint8_t *message, size_t length, size_t number, uint8_t from, uint8_t to, uint8_t unit);

/* Whether a record keeps its rules.
 * Refuses: 1 a record that does not.
 * Memory: the record is left as found. */
castanhiu_record_answer castanhiu_record_check(const castanhiu_record *record);

/* Answers one request; the response has CASTANHIU_RESPONSE bytes, of which `length` are sent, none where silent.
 * Refuses: 1 a record that breaks its rules, 17 a request of 0 or over 255 bytes, a response buffer of another length.
 * Memory: statuses change by service 14 alone; bytes past the response stay, all stay when silent or refused. */
castanhiu_serve_answer castanhiu_serve(castanhiu_record *record, const uint8_t *request, size_t request_length,
                                       bool functional, uint8_t *response, size_t response_length);

/* Sets the status of one code.
 * Refuses: 1 a record that breaks its rules, 18 a code not held, 19 a status outside the mask.
 * Memory: that one status changes, and nothing where refused. */
castanhiu_record_answer castanhiu_set_status(castanhiu_record *record, uint32_t code, uint8_t status);

/* Prints the count sheet of an input into a page of CASTANHIU_PAGE bytes; answers how many bytes the text has.
 * Refuses: in the text, `refused N at OFFSET`, with N 21 to 24.
 * Memory: bytes of the page past the text stay. */
size_t castanhiu_sheet_text(const uint8_t *input, size_t input_length, uint8_t page[CASTANHIU_PAGE]);

/* Prints the page of one mask from the same input: its readings whose basis is full, lowest count first, equal counts as in
 * the input; behind them its other readings, as in the input. Needs 31 kB of stack. Refuses and writes as above. */
size_t castanhiu_ranking_text(const uint8_t *input, size_t input_length, uint8_t mask, uint8_t page[CASTANHIU_PAGE]);

/* Mends a sheet with holes; answers how many bytes the kept readings have, and how many the list. From the start on, where a
 * whole valid reading of 17 bytes begins, it is kept and the walk goes on behind it; otherwise one byte is dropped. The kept
 * readings are written unchanged, a sheet that the count sheet accepts. The page lists each maximal dropped stretch, in order:
 * `dropped LENGTH at OFFSET`, of the input. A reading cut within its count borrows the first bytes behind it, so that a sound
 * neighbour may be dropped.
 * Refuses: 21 an input of more than CASTANHIU_SHEET bytes.
 * Memory: bytes past the kept readings and past the list stay, and all where refused. */
castanhiu_mended castanhiu_mend(const uint8_t *input, size_t input_length, uint8_t kept[CASTANHIU_SHEET],
                                uint8_t page[CASTANHIU_PAGE]);

/* Reads one line of a log, given without its newline: `(SECONDS.MICROSECONDS) INTERFACE ID#DATA`, as candump writes
 * `(12.003000) can0 18CEC9EB#05023E00`. It has one or more decimal digits of seconds, and six of microseconds; one or more
 * blanks before the interface, whose bytes are 21 to 7E, and one behind it; three or eight hexadecimal digits, then an even
 * number of them up to 16; no other byte, and at most 255 bytes: of a longer line the first 256 are enough. With eight digits
 * it is a frame, with `length` bytes in the data; its stamp is whole milliseconds, rounded down, modulo 2^32. With three it is
 * passed over, and all other numbers are 0.
 * Refuses: 25 a line of another form, then 2 an identifier of 2^29 or more.
 * Memory: the line is left as found; bytes of the data past the length stay, and all where refused or passed over. */
castanhiu_log_frame castanhiu_log_read(const uint8_t *line, size_t length, uint8_t data[CASTANHIU_DATA]);

/* Writes the line of a frame, of `length` bytes with its newline: `(SECONDS.MICROSECONDS) can0 ID#DATA`, seconds without padding,
 * hexadecimal digits in capitals. Without the newline it reads as that frame.
 * Refuses: 2 an identifier of 2^29 or more, 3 more than 8 data bytes.
 * Memory: the data is left as found; bytes of the text past the line stay, and all where refused. */
castanhiu_log_line castanhiu_log_write(uint32_t identifier, const uint8_t *data, size_t data_length, uint32_t stamp_ms,
                                       uint8_t text[CASTANHIU_LOG_TEXT]);

#endif

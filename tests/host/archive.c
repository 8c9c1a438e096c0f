/*
 * The archive behind the model's names: selftest.c, linked with this in place of model.c, puts the same checks to the
 * archive. Each function calls the exported one and says its answer in the model's form; what that form has no place for
 * is held here to what the archive's header says of it.
 */
#include "castanhiu.h"
#include "model.h"

#include <stdio.h>
#include <stdlib.h>
#include <string.h>

#define HOLDS(condition)                                                                                      \
    do {                                                                                                      \
        if (!(condition)) {                                                                                   \
            fprintf(stderr, "archive: failed at archive.c:%d: %s\n", __LINE__, #condition);                   \
            exit(1);                                                                                          \
        }                                                                                                     \
    } while (0)

/* The archive takes one byte where the model takes a wider number: the largest stands for all that are past it. */
static uint8_t byte(uint32_t number)
{
    return (uint8_t)(number > 255 ? 255 : number);
}

/* The archive is never handed null, nor a length without its bytes: both are given a part of this block, or the whole. */
static uint8_t block[1 << 17];

#define LENT(bytes) ((bytes) != NULL ? (bytes) : block)

static size_t within(const uint8_t *bytes, size_t length)
{
    return bytes == NULL && length > sizeof block ? sizeof block : length;
}

/* ---- identifier, vehicle, route, readings -------------------------------------------------- */

model_identifier model_identifier_read(uint32_t number)
{
    const castanhiu_identifier_answer a = castanhiu_identifier_read(number);
    return (model_identifier){
        .refusal = a.refusal,
        .priority = a.fields.priority,
        .reserved = a.fields.reserved,
        .data_page = a.fields.data_page,
        .format = a.fields.format,
        .specific = a.fields.specific,
        .source = a.fields.source,
    };
}

model_written model_identifier_write(uint32_t priority, uint32_t reserved, uint32_t data_page, uint8_t format, uint8_t specific,
                                     uint8_t source)
{
    const castanhiu_number_answer a = castanhiu_identifier_write(
        (castanhiu_identifier){byte(priority), byte(reserved), byte(data_page), format, specific, source});
    return (model_written){.number = a.number, .refusal = a.refusal};
}

model_next model_next_position(uint8_t predecessor)
{
    const castanhiu_position_answer a = castanhiu_position_after(predecessor);
    return (model_next){.refusal = a.refusal, .position = a.own};
}

/* By the position after it; position 5 has none, but a frame from it goes on towards the tractor. */
uint8_t model_position_of(uint8_t address)
{
    const castanhiu_position_answer after = castanhiu_position_after(address);
    if (after.refusal == 0) {
        return (uint8_t)(after.own - 1);
    }
    const castanhiu_route_answer a = castanhiu_route(CASTANHIU_SUCCESSOR, 4, true, 0x18F00000u | address, block, 0);
    return a.onward == CASTANHIU_TO_PREDECESSOR ? 5 : MODEL_NO_POSITION;
}

/* By the destination of a frame cut for it. */
uint8_t model_address_of(uint32_t position)
{
    return (uint8_t)(castanhiu_cut(block, 1, 0, position == 0, byte(position), 0).identifier >> 8);
}

model_routed model_route(uint32_t side, uint32_t own, uint8_t successor, uint32_t number, size_t data_length)
{
    const castanhiu_route_answer a =
        castanhiu_route(byte(side), byte(own), successor != 0, number, block, within(NULL, data_length));
    return (model_routed){.refusal = a.refusal, .kept = a.kept, .sent_on = a.onward};
}

model_reading model_read(uint32_t kind, uint32_t raw)
{
    const castanhiu_parameter_answer a = castanhiu_read_parameter(byte(kind), raw);
    return (model_reading){.value = a.value, .whole = a.whole, .refusal = a.refusal, .outcome = a.outcome};
}

model_two_bits model_read_two_bits(uint32_t raw)
{
    const castanhiu_two_bits_answer a = castanhiu_read_two_bits(byte(raw));
    return (model_two_bits){.refusal = a.refusal, .outcome = a.outcome};
}

/* ---- node and receiver --------------------------------------------------------------------- */

/*
 * The archive has no flag for an open reception: its length is not 0. A flag that says otherwise breaks the rules, and so
 * does what is handed in for it, a closed reception with a frame taken.
 */
static castanhiu_node handed(const model_node *node)
{
    castanhiu_node to = {.own = node->own, .unit = node->unit};
    for (unsigned p = 0; p < MODEL_POSITIONS; p++) {
        const model_reception r = node->receptions[p];
        to.receptions[p] = r.open == (r.length != 0) ? (castanhiu_reception){r.length, r.frames, r.stamp}
                                                     : (castanhiu_reception){0, 1, 0};
    }
    return to;
}

/* The node as the call left it: a reception that is as it was handed in stays as it stands. */
static void came_back(model_node *node, const castanhiu_node *back)
{
    const castanhiu_node was = handed(node);
    node->own = back->own;
    node->unit = back->unit;
    for (unsigned p = 0; p < MODEL_POSITIONS; p++) {
        const castanhiu_reception a = was.receptions[p], b = back->receptions[p];
        if (a.length != b.length || a.taken != b.taken || a.last != b.last) {
            node->receptions[p] =
                (model_reception){.stamp = b.last, .open = b.length != 0, .length = b.length, .frames = b.taken};
        }
    }
}

/* A node that breaks its rules takes no address, whatever the predecessor's. */
uint8_t model_node_keeps_rules(const model_node *node)
{
    castanhiu_node lent = handed(node);
    return castanhiu_take_address(&lent, 0xEB).refusal != CASTANHIU_RULES_BROKEN;
}

/* The whole node is written, whatever stood there. */
model_node model_start(uint8_t unit)
{
    castanhiu_node lent;
    memset(&lent, 0xA5, sizeof lent);
    castanhiu_start(&lent, unit);
    model_node node = {0};
    came_back(&node, &lent);
    return node;
}

uint8_t model_fresh(model_node *node, uint32_t position, uint8_t unit)
{
    castanhiu_node lent = handed(node);
    const castanhiu_node_answer a = castanhiu_fresh(&lent, byte(position), unit);
    came_back(node, &lent);
    return a.refusal;
}

uint8_t model_take_address(model_node *node, uint8_t predecessor)
{
    castanhiu_node lent = handed(node);
    const castanhiu_node_answer a = castanhiu_take_address(&lent, predecessor);
    came_back(node, &lent);
    return a.refusal;
}

model_outcome model_receive(model_node *node, uint8_t *buffer, size_t buffer_length, uint32_t number, const uint8_t *data,
                            size_t data_length, uint32_t stamp)
{
    castanhiu_node lent = handed(node);
    const castanhiu_outcome o = castanhiu_receive(&lent, LENT(buffer), buffer_length, number, LENT(data),
                                                  within(data, data_length), stamp);
    came_back(node, &lent);
    /* the sender is said of every frame that is taken and of an over-long one, and of no other */
    HOLDS(o.from == (o.refusal == 0 || o.refusal == CASTANHIU_OVER_LONG ? model_position_of((uint8_t)number) : 0));
    return (model_outcome){
        .start = o.start,
        .refusal = o.refusal,
        .kind = o.handed_out,
        .from = o.handed_out != CASTANHIU_NOTHING ? o.from : 0,
        .functional = o.functional,
        .length = o.length,
        .place = o.handed_out == CASTANHIU_SINGLE  ? MODEL_IN_DATA
                 : o.handed_out == CASTANHIU_TRAIN ? MODEL_IN_BUFFER
                                                   : MODEL_NOWHERE,
        .control = o.control,
        .control_to = o.control != CASTANHIU_NO_CONTROL ? o.from : 0,
    };
}

/* ---- cutter -------------------------------------------------------------------------------- */

static model_frame framed(castanhiu_frame a)
{
    model_frame frame = {.identifier = a.identifier, .length = a.length, .refusal = a.refusal};
    memcpy(frame.data, a.data, sizeof frame.data);
    return frame;
}

model_frame model_flow_control(uint32_t kind, uint32_t own, uint32_t to, uint8_t unit)
{
    return framed(castanhiu_flow_control(byte(kind), byte(own), byte(to), unit));
}

uint32_t model_frame_count(size_t length)
{
    return (uint32_t)castanhiu_frame_count(length);
}

model_frame model_cut(const uint8_t *message, size_t length, uint32_t frame, uint32_t sender, uint32_t receiver,
                      uint8_t unit)
{
    return framed(castanhiu_cut(LENT(message), length, frame, byte(sender), byte(receiver), unit));
}

/* ---- server -------------------------------------------------------------------------------- */

_Static_assert(sizeof(model_record) == sizeof(castanhiu_record), "one layout");
_Static_assert(offsetof(model_record, statuses) == offsetof(castanhiu_record, statuses), "one layout");
_Static_assert(offsetof(model_record, identifiers) == offsetof(castanhiu_record, identifiers), "one layout");
_Static_assert(offsetof(model_record, bytes) == offsetof(castanhiu_record, bytes), "one layout");
_Static_assert(offsetof(model_record, held) == offsetof(castanhiu_record, held), "one layout");

static castanhiu_record recorded(const model_record *record)
{
    castanhiu_record to;
    memcpy(&to, record, sizeof to);
    return to;
}

uint8_t model_record_keeps_rules(const model_record *record)
{
    const castanhiu_record lent = recorded(record);
    const castanhiu_record_answer a = castanhiu_record_check(&lent);
    HOLDS(memcmp(&lent, record, offsetof(castanhiu_record, held) + 1) == 0);
    return a.refusal == 0;
}

/* The mask of a record that holds nothing. */
uint8_t model_mask_keeps_rule(uint8_t mask)
{
    return castanhiu_record_check(&(castanhiu_record){.availability = mask}).refusal == 0;
}

model_answer model_serve(model_record *record, const uint8_t *request, size_t request_length, uint8_t functional,
                         uint8_t *response, size_t response_length)
{
    castanhiu_record lent_record = recorded(record);
    const castanhiu_serve_answer a = castanhiu_serve(&lent_record, LENT(request), request_length, functional != 0,
                                                     LENT(response), response_length);
    memcpy(record, &lent_record, sizeof lent_record);
    HOLDS(a.length <= CASTANHIU_RESPONSE && a.silent == (a.refusal == 0 && a.length == 0));
    return (model_answer){.refusal = a.refusal, .sent = (uint8_t)a.length};
}

uint8_t model_set_status(model_record *record, uint32_t code, uint8_t status)
{
    castanhiu_record lent_record = recorded(record);
    const castanhiu_record_answer a = castanhiu_set_status(&lent_record, code, status);
    memcpy(record, &lent_record, sizeof lent_record);
    return a.refusal;
}

/* ---- count sheet --------------------------------------------------------------------------- */

_Static_assert((int)MODEL_SHEET_TEXT == (int)CASTANHIU_PAGE, "one page");

size_t model_count_sheet(const uint8_t *input, size_t length, char *text)
{
    return castanhiu_sheet_text(LENT(input), within(input, length), (uint8_t *)text);
}

size_t model_ranking(const uint8_t *input, size_t length, uint8_t mask, char *text)
{
    return castanhiu_ranking_text(LENT(input), within(input, length), mask, (uint8_t *)text);
}

/* ---- mending ------------------------------------------------------------------------------- */

_Static_assert((int)MODEL_SHEET_INPUT_MAX == (int)CASTANHIU_SHEET, "one sheet");

model_mended model_mend(const uint8_t *input, size_t length, uint8_t *kept, char *list)
{
    const castanhiu_mended a = castanhiu_mend(LENT(input), within(input, length), kept, (uint8_t *)list);
    return (model_mended){.kept = a.kept, .listed = a.listed, .refusal = a.refusal};
}

/* ---- logs ---------------------------------------------------------------------------------- */

_Static_assert((int)MODEL_LOG_TEXT == (int)CASTANHIU_LOG_TEXT, "one text");

model_log_frame model_log_read(const uint8_t *line, size_t length, uint8_t *data)
{
    const castanhiu_log_frame a = castanhiu_log_read(LENT(line), within(line, length), data);
    return (model_log_frame){
        .identifier = a.identifier,
        .stamp = a.stamp,
        .refusal = a.refusal,
        .passed_over = a.passed_over,
        .length = a.length,
    };
}

model_log_line model_log_write(uint32_t number, const uint8_t *data, size_t data_length, uint32_t stamp, char *text)
{
    const castanhiu_log_line a = castanhiu_log_write(number, LENT(data), within(data, data_length), stamp, (uint8_t *)text);
    return (model_log_line){.refusal = a.refusal, .length = a.length};
}

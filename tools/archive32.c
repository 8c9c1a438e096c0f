/*
 * The functions of castanhiu.h on a processor with 32-bit addresses, over the module's inner ones, which take and give addresses and numbers
 * alone: a struct goes in and out by its address, but one of one or two numbers comes out as these; a slice goes in as its address and its
 * length, and a length has 64 bits. None is over 2^32 - 1 here: a size_t goes in whole, and what comes out is no more than what a slice or
 * a page has.
 */
#include "castanhiu.h"

#if __BYTE_ORDER__ != __ORDER_LITTLE_ENDIAN__
#error "the module is for little endian"
#endif
_Static_assert(sizeof(void *) == 4 && sizeof(size_t) == 4, "32-bit addresses");

typedef struct {
    uint8_t refusal;
    bool silent;
    _Alignas(8) uint64_t length;
} served;
_Static_assert(sizeof(served) == 16 && offsetof(served, silent) == 1 && offsetof(served, length) == 8, "served");

/* Two numbers that come out side by side: the first is in the low half, the second in the high one, and only their own bits count. */
typedef uint64_t two;

static uint8_t first(two numbers)
{
    return (uint8_t)numbers;
}

static uint32_t second(two numbers)
{
    return (uint32_t)(numbers >> 32);
}

void castanhiu_inner_identifier_read(castanhiu_identifier_answer *, uint32_t);
two castanhiu_inner_identifier_write(castanhiu_identifier *);
two castanhiu_inner_position_after(uint8_t);
void castanhiu_inner_route(castanhiu_route_answer *, uint8_t, uint8_t, bool, uint32_t, const uint8_t *, uint64_t);
void castanhiu_inner_read_parameter(castanhiu_parameter_answer *, uint8_t, uint32_t);
two castanhiu_inner_read_two_bits(uint8_t);
void castanhiu_inner_start(castanhiu_node *, uint8_t);
uint8_t castanhiu_inner_fresh(castanhiu_node *, uint8_t, uint8_t);
uint8_t castanhiu_inner_take_address(castanhiu_node *, uint8_t);
void castanhiu_inner_receive(castanhiu_outcome *, castanhiu_node *, uint8_t *, uint64_t, uint32_t, const uint8_t *, uint64_t, uint32_t);
void castanhiu_inner_flow_control(castanhiu_frame *, uint8_t, uint8_t, uint8_t, uint8_t);
uint64_t castanhiu_inner_frame_count(uint64_t);
void castanhiu_inner_cut(castanhiu_frame *, const uint8_t *, uint64_t, uint64_t, uint8_t, uint8_t, uint8_t);
uint8_t castanhiu_inner_record_check(const castanhiu_record *);
void castanhiu_inner_serve(served *, castanhiu_record *, const uint8_t *, uint64_t, bool, uint8_t *, uint64_t);
uint8_t castanhiu_inner_set_status(castanhiu_record *, uint32_t, uint8_t);
uint64_t castanhiu_inner_sheet_text(const uint8_t *, uint64_t, uint8_t *);
uint64_t castanhiu_inner_ranking_text(const uint8_t *, uint64_t, uint8_t, uint8_t *);
void castanhiu_inner_mend(castanhiu_mended *, const uint8_t *, uint64_t, uint8_t *, uint8_t *);
void castanhiu_inner_log_read(castanhiu_log_frame *, const uint8_t *, uint64_t, uint8_t *);
two castanhiu_inner_log_write(uint32_t, const uint8_t *, uint64_t, uint32_t, uint8_t *);

castanhiu_identifier_answer castanhiu_identifier_read(uint32_t number)
{
    castanhiu_identifier_answer answer;
    castanhiu_inner_identifier_read(&answer, number);
    return answer;
}

castanhiu_number_answer castanhiu_identifier_write(castanhiu_identifier fields)
{
    const two answer = castanhiu_inner_identifier_write(&fields);
    return (castanhiu_number_answer){first(answer), second(answer)};
}

castanhiu_position_answer castanhiu_position_after(uint8_t source)
{
    const two answer = castanhiu_inner_position_after(source);
    return (castanhiu_position_answer){first(answer), (uint8_t)second(answer)};
}

castanhiu_route_answer castanhiu_route(uint8_t side, uint8_t own, bool successor, uint32_t identifier, const uint8_t *data,
                                       size_t data_length)
{
    castanhiu_route_answer answer;
    castanhiu_inner_route(&answer, side, own, successor, identifier, data, data_length);
    return answer;
}

castanhiu_parameter_answer castanhiu_read_parameter(uint8_t kind, uint32_t raw)
{
    castanhiu_parameter_answer answer;
    castanhiu_inner_read_parameter(&answer, kind, raw);
    return answer;
}

castanhiu_two_bits_answer castanhiu_read_two_bits(uint8_t raw)
{
    const two answer = castanhiu_inner_read_two_bits(raw);
    return (castanhiu_two_bits_answer){first(answer), (uint8_t)second(answer)};
}

void castanhiu_start(castanhiu_node *node, uint8_t unit)
{
    castanhiu_inner_start(node, unit);
}

castanhiu_node_answer castanhiu_fresh(castanhiu_node *node, uint8_t own, uint8_t unit)
{
    return (castanhiu_node_answer){castanhiu_inner_fresh(node, own, unit)};
}

castanhiu_node_answer castanhiu_take_address(castanhiu_node *node, uint8_t source)
{
    return (castanhiu_node_answer){castanhiu_inner_take_address(node, source)};
}

castanhiu_outcome castanhiu_receive(castanhiu_node *node, uint8_t *buffer, size_t buffer_length, uint32_t identifier,
                                    const uint8_t *data, size_t data_length, uint32_t stamp_ms)
{
    castanhiu_outcome answer;
    castanhiu_inner_receive(&answer, node, buffer, buffer_length, identifier, data, data_length, stamp_ms);
    return answer;
}

castanhiu_frame castanhiu_flow_control(uint8_t control, uint8_t from, uint8_t to, uint8_t unit)
{
    castanhiu_frame answer;
    castanhiu_inner_flow_control(&answer, control, from, to, unit);
    return answer;
}

size_t castanhiu_frame_count(size_t length)
{
    return (size_t)castanhiu_inner_frame_count(length);
}

castanhiu_frame castanhiu_cut(const uint8_t *message, size_t length, size_t number, uint8_t from, uint8_t to, uint8_t unit)
{
    castanhiu_frame answer;
    castanhiu_inner_cut(&answer, message, length, number, from, to, unit);
    return answer;
}

castanhiu_record_answer castanhiu_record_check(const castanhiu_record *record)
{
    return (castanhiu_record_answer){castanhiu_inner_record_check(record)};
}

castanhiu_serve_answer castanhiu_serve(castanhiu_record *record, const uint8_t *request, size_t request_length, bool functional,
                                       uint8_t *response, size_t response_length)
{
    served answer;
    castanhiu_inner_serve(&answer, record, request, request_length, functional, response, response_length);
    return (castanhiu_serve_answer){answer.refusal, answer.silent, (size_t)answer.length};
}

castanhiu_record_answer castanhiu_set_status(castanhiu_record *record, uint32_t code, uint8_t status)
{
    return (castanhiu_record_answer){castanhiu_inner_set_status(record, code, status)};
}

size_t castanhiu_sheet_text(const uint8_t *input, size_t input_length, uint8_t page[CASTANHIU_PAGE])
{
    return (size_t)castanhiu_inner_sheet_text(input, input_length, page);
}

size_t castanhiu_ranking_text(const uint8_t *input, size_t input_length, uint8_t mask, uint8_t page[CASTANHIU_PAGE])
{
    return (size_t)castanhiu_inner_ranking_text(input, input_length, mask, page);
}

castanhiu_mended castanhiu_mend(const uint8_t *input, size_t input_length, uint8_t kept[CASTANHIU_SHEET],
                                uint8_t page[CASTANHIU_PAGE])
{
    castanhiu_mended answer;
    castanhiu_inner_mend(&answer, input, input_length, kept, page);
    return answer;
}

castanhiu_log_frame castanhiu_log_read(const uint8_t *line, size_t length, uint8_t data[CASTANHIU_DATA])
{
    castanhiu_log_frame answer;
    castanhiu_inner_log_read(&answer, line, length, data);
    return answer;
}

castanhiu_log_line castanhiu_log_write(uint32_t identifier, const uint8_t *data, size_t data_length, uint32_t stamp_ms,
                                       uint8_t text[CASTANHIU_LOG_TEXT])
{
    const two answer = castanhiu_inner_log_write(identifier, data, data_length, stamp_ms, text);
    return (castanhiu_log_line){first(answer), (uint8_t)second(answer)};
}

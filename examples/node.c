/* Two trailers and a tester behind them: addresses taken, two requests, two answers whose trains run beside each other,
 * cut here and read back there. Compile with -std=c11 -Iinclude and link libcastanhiu.a. */
#include "castanhiu.h"

#include <stdio.h>
#include <string.h>

typedef struct {
    castanhiu_node node;
    uint8_t buffer[CASTANHIU_BUFFER];
    castanhiu_record record;
} vehicle;

enum { UNIT = 5 };

static uint8_t position(const vehicle *of)
{
    return (uint8_t)of->node.own;
}

static void print_bytes(const uint8_t *bytes, size_t count)
{
    for (size_t i = 0; i < count; i++) {
        printf("%s%02X", i == 0 ? "" : " ", bytes[i]);
    }
    printf("\n");
}

/* A data identifier and its bytes, behind those that the record has. */
static void hold(castanhiu_record *record, uint16_t identifier, const char *bytes)
{
    const uint8_t k = record->held++;
    record->identifiers[k] = identifier;
    record->lengths[k] = (uint8_t)strlen(bytes);
    memcpy(record->bytes + 32 * k, bytes, strlen(bytes));
}

/* Offers one frame to a vehicle: where a message is complete, says where it lies and how long it is. */
static castanhiu_outcome offered(vehicle *to, castanhiu_frame frame, uint32_t stamp, const uint8_t **message)
{
    const castanhiu_outcome outcome = castanhiu_receive(&to->node, to->buffer, sizeof to->buffer, frame.identifier, frame.data,
                                                        frame.length, stamp);
    static uint8_t single[8];
    memcpy(single, frame.data, sizeof single);
    *message = (outcome.handed_out == CASTANHIU_TRAIN ? to->buffer : single) + outcome.start;
    return outcome;
}

/* A request goes to a trailer, frame by frame; its answer comes back: how many bytes it has. */
static size_t asked(vehicle *trailer, const char *name, const uint8_t *request, size_t length,
                    uint8_t response[CASTANHIU_RESPONSE])
{
    printf("the tester asks %s, %zu frame(s): ", name, castanhiu_frame_count(length));
    print_bytes(request, length);
    for (size_t i = 0; i < castanhiu_frame_count(length); i++) {
        const uint8_t *message;
        const castanhiu_outcome outcome = offered(trailer, castanhiu_cut(request, length, i, 3, position(trailer), UNIT),
                                                  (uint32_t)(100 + 10 * i), &message);
        if (outcome.handed_out != CASTANHIU_NOTHING) {
            const castanhiu_serve_answer served = castanhiu_serve(&trailer->record, message, outcome.length, outcome.functional,
                                                                  response, CASTANHIU_RESPONSE);
            printf("  %s answers with %zu bytes\n", name, served.length);
            return served.length;
        }
    }
    return 0;
}

/* What the tester makes of one frame. */
static void told(vehicle *tester, castanhiu_frame frame, uint32_t stamp)
{
    const uint8_t *message;
    printf("  %5u ms %08X  ", (unsigned)stamp, (unsigned)frame.identifier);
    const castanhiu_outcome outcome = offered(tester, frame, stamp, &message);
    for (unsigned i = 0; i < 8; i++) {
        printf(i < frame.length ? "%02X " : "   ", frame.data[i]);
    }
    if (outcome.refusal != 0) {
        printf(" refusal %u", outcome.refusal);
    }
    if (outcome.control != CASTANHIU_NO_CONTROL) { /* also at CASTANHIU_OVER_LONG: overflow */
        const castanhiu_frame due = castanhiu_flow_control(outcome.control, position(tester), outcome.from, UNIT);
        printf(" control due: ");
        print_bytes(due.data, due.length);
    } else if (outcome.handed_out == CASTANHIU_TRAIN) {
        printf(" %u bytes of position %u, at %u in the buffer:\n           ", outcome.length, outcome.from, outcome.start);
        print_bytes(message, outcome.length);
    } else {
        printf(outcome.refusal != 0 ? "\n" : " taken\n");
    }
}

int main(void)
{
    static vehicle one, two, tester;
    uint8_t first[CASTANHIU_RESPONSE], second[CASTANHIU_RESPONSE];

    /* each takes the address after that of the vehicle before it */
    castanhiu_start(&one.node, UNIT);
    castanhiu_start(&two.node, UNIT);
    castanhiu_start(&tester.node, UNIT);
    castanhiu_take_address(&one.node, 0xEB);
    castanhiu_take_address(&two.node, 0xC9);
    castanhiu_take_address(&tester.node, 0xC1);
    printf("positions: %u and %u, and the tester at %u\n", position(&one), position(&two), position(&tester));

    one.record.availability = two.record.availability = 0x7F;
    hold(&one.record, 0xF190, "9BWZZZ377VT004251");
    hold(&two.record, 0xF187, "TRAILER-EBS-0042");
    hold(&two.record, 0xF18C, "SERIAL-20-BYTES-LONG");
    hold(&two.record, 0xF190, "9BWZZZ377VT004252");

    const size_t short_length = asked(&one, "trailer 1", (const uint8_t[]){0x22, 0xF1, 0x90}, 3, first);
    const size_t length = asked(&two, "trailer 2", (const uint8_t[]){0x22, 0xF1, 0x87, 0xF1, 0x8C, 0xF1, 0x90}, 7, second);

    /* trailer 2 sends trailer 1's frames on to the tester, between its own */
    printf("on the tester's line:\n");
    uint32_t stamp = 1000;
    for (size_t i = 0; i < castanhiu_frame_count(length); i++, stamp += 20) {
        told(&tester, castanhiu_cut(second, length, i, position(&two), position(&tester), UNIT), stamp);
        const castanhiu_frame theirs = castanhiu_cut(first, short_length, i, position(&one), position(&tester), UNIT);
        const castanhiu_route_answer route = castanhiu_route(CASTANHIU_PREDECESSOR, position(&two), true, theirs.identifier,
                                                             theirs.data, theirs.length);
        if (theirs.refusal == 0 && route.onward == CASTANHIU_TO_SUCCESSOR) {
            told(&tester, theirs, stamp + 10);
        }
    }
    /* the second is refused, CASTANHIU_LATE, and closes the reception */
    printf("a first frame, and its next one 151 ms later:\n");
    told(&tester, castanhiu_cut(second, length, 0, position(&two), position(&tester), UNIT), stamp);
    told(&tester, castanhiu_cut(second, length, 1, position(&two), position(&tester), UNIT), stamp + 151);
    return 0;
}

/*
 * The archive and the independent model, side by side: every exported function, on random inputs that are mostly valid,
 * then damaged, then at the boundaries. Every number of an answer and every byte of lent memory is compared.
 *
 *     differential SEED CASES      CASES of each function; the first difference is printed and ends the run
 */
#include "castanhiu.h"
#include "model.h"

#include <stdio.h>
#include <stdlib.h>
#include <string.h>

/* ---- random numbers ------------------------------------------------------------------------ */

static uint64_t state;

static uint32_t any(void)
{
    state += UINT64_C(0x9E3779B97F4A7C15);
    uint64_t z = state;
    z = (z ^ (z >> 30)) * UINT64_C(0xBF58476D1CE4E5B9);
    z = (z ^ (z >> 27)) * UINT64_C(0x94D049BB133111EB);
    return (uint32_t)(z >> 32);
}

static uint32_t below(uint32_t limit)
{
    return any() % limit;
}

static int one_in(uint32_t n)
{
    return below(n) == 0;
}

static uint32_t of(const uint32_t *list, size_t count)
{
    return list[below((uint32_t)count)];
}

#define OF(...) of((const uint32_t[]){__VA_ARGS__}, sizeof((const uint32_t[]){__VA_ARGS__}) / sizeof(uint32_t))

/* ---- comparing ----------------------------------------------------------------------------- */

static const char *function;
static unsigned long cases;

#define SAME(ours, theirs)                                                                                    \
    do {                                                                                                      \
        const long long ours_ = (long long)(ours), theirs_ = (long long)(theirs);                             \
        if (ours_ != theirs_) {                                                                               \
            printf("%s, case %lu: %s is %lld in the archive, %lld in the model (differential.c:%d)\n",        \
                   function, cases, #ours, ours_, theirs_, __LINE__);                                         \
            exit(1);                                                                                          \
        }                                                                                                     \
    } while (0)

#define SAME_BYTES(ours, theirs, count)                                                                       \
    do {                                                                                                      \
        const uint8_t *ours_ = (const void *)(ours), *theirs_ = (const void *)(theirs);                       \
        if (memcmp(ours_, theirs_, (count)) != 0) {                                                           \
            size_t at_ = 0;                                                                                   \
            while (ours_[at_] == theirs_[at_]) {                                                              \
                at_++;                                                                                        \
            }                                                                                                 \
            printf("%s, case %lu: byte %zu of %s is %02X in the archive, %02X in the model (line %d)\n",      \
                   function, cases, at_, #ours, ours_[at_], theirs_[at_], __LINE__);                          \
            exit(1);                                                                                          \
        }                                                                                                     \
    } while (0)

/* What an answer of a function came to, so that the end of a run shows how the cases were spread. */
static unsigned long answers[32];

static void begin(const char *name)
{
    function = name;
    cases = 0;
    memset(answers, 0, sizeof answers);
}

static void answered(unsigned refusal)
{
    answers[refusal < 32 ? refusal : 31]++;
    cases++;
}

static void end(void)
{
    printf("%-26s %8lu cases; accepted %lu", function, cases, answers[0]);
    for (unsigned i = 1; i < 32; i++) {
        if (answers[i] != 0) {
            printf(", %u: %lu", i, answers[i]);
        }
    }
    printf("\n");
}

/* ---- parts of inputs ----------------------------------------------------------------------- */

static const uint8_t addresses[6] = {0xEB, 0xC9, 0xC1, 0xB9, 0xB1, 0xA9};

static uint8_t an_address(void)
{
    return one_in(8) ? (uint8_t)OF(0xFF, 0x00, 0xEA, 0xCA, 0xA8, 0xAA, any() & 0xFF) : addresses[below(6)];
}

static uint8_t a_position(void)
{
    return one_in(12) ? (uint8_t)OF(0, 6, 7, 200, 255, any() & 0xFF) : (uint8_t)(1 + below(5));
}

static uint32_t identifier_of(uint32_t format, uint32_t specific, uint32_t source)
{
    return (below(8) << 26) | (format << 16) | (specific << 8) | source;
}

static uint32_t an_identifier(void)
{
    uint32_t number = identifier_of(OF(205, 206, 239, 240, 241, any() & 0xFF), an_address(), an_address());
    if (one_in(8)) {
        number |= UINT32_C(1) << 24;
    }
    if (one_in(8)) {
        number ^= UINT32_C(1) << 25;
    }
    if (one_in(10)) {
        number = OF(0x20000000, 0x1FFFFFFF, 0x1DFFFFFF, 0, 0xFFFFFFFF, 0x02000000, 0x1AFE5DEB, any());
    }
    return number;
}

static void fill(uint8_t *bytes, size_t count)
{
    for (size_t i = 0; i < count; i++) {
        bytes[i] = (uint8_t)any();
    }
}

/* ---- identifier, vehicle, route, readings -------------------------------------------------- */

static void identifiers(unsigned long count)
{
    begin("identifier_read");
    while (cases < count) {
        const uint32_t number = one_in(3) ? any() : an_identifier();
        const castanhiu_identifier_answer a = castanhiu_identifier_read(number);
        const model_identifier m = model_identifier_read(number);
        SAME(a.refusal, m.refusal);
        SAME(a.fields.priority, m.priority);
        SAME(a.fields.reserved, m.reserved);
        SAME(a.fields.data_page, m.data_page);
        SAME(a.fields.format, m.format);
        SAME(a.fields.specific, m.specific);
        SAME(a.fields.source, m.source);
        if (a.refusal == 0) {
            SAME(castanhiu_identifier_write(a.fields).number, number);
        }
        answered(m.refusal);
    }
    end();

    begin("identifier_write");
    while (cases < count) {
        const castanhiu_identifier f = {
            (uint8_t)(one_in(8) ? OF(8, 9, 255, any() & 0xFF) : below(8)),
            (uint8_t)(one_in(8) ? OF(2, 3, 255, any() & 0xFF) : below(2)),
            (uint8_t)(one_in(8) ? OF(2, 3, 255, any() & 0xFF) : below(2)),
            (uint8_t)any(),
            (uint8_t)any(),
            (uint8_t)any(),
        };
        const castanhiu_number_answer a = castanhiu_identifier_write(f);
        const model_written m = model_identifier_write(f.priority, f.reserved, f.data_page, f.format, f.specific, f.source);
        SAME(a.refusal, m.refusal);
        SAME(a.number, m.number);
        answered(m.refusal);
    }
    end();
}

static void vehicles(unsigned long count)
{
    begin("position_after");
    while (cases < count) {
        const uint8_t source = one_in(2) ? (uint8_t)any() : an_address();
        const castanhiu_position_answer a = castanhiu_position_after(source);
        const model_next m = model_next_position(source);
        SAME(a.refusal, m.refusal);
        SAME(a.own, m.position);
        answered(m.refusal);
    }
    end();

    unsigned long set = 0, on = 0;
    begin("route");
    while (cases < count) {
        const uint8_t side = (uint8_t)(one_in(10) ? OF(2, 3, 9, 255, any() & 0xFF) : below(2));
        const uint8_t own = a_position();
        const bool successor = one_in(2);
        const uint32_t number = an_identifier();
        uint8_t data[64];
        const size_t length = one_in(6) ? OF(0, 8, 9, 10, 64) : below(9);
        fill(data, length);
        const castanhiu_route_answer a = castanhiu_route(side, own, successor, number, data, length);
        const model_routed m = model_route(side, own, successor, number, length);
        SAME(a.refusal, m.refusal);
        SAME(a.kept, m.kept);
        SAME(a.onward, m.sent_on);
        answered(m.refusal);
        if (a.refusal == 0 && (number >> 25 & 1) != 0) {
            set++;
            on += a.onward != CASTANHIU_NOWHERE;
        }
    }
    end();
    printf("    of them %lu with R set, %lu sent on\n", set, on);
}

static void readings(unsigned long count)
{
    unsigned long outcomes[6] = {0};
    begin("read_parameter");
    while (cases < count) {
        const uint8_t kind = (uint8_t)(one_in(12) ? OF(8, 9, 200, 255, any() & 0xFF) : below(8));
        const uint32_t raw = one_in(4)   ? OF(0, 1, 124, 125, 126, 127, 249, 250, 251, 252, 253, 254, 255, 256, 8735, 8736, 64255,
                                              64256, 64511, 64512, 65023, 65024, 65279, 65280, 65535, 65536, 0xFFFFFFFF)
                             : one_in(8) ? any()
                             : kind < 4  ? below(257)
                                         : below(65537);
        const castanhiu_parameter_answer a = castanhiu_read_parameter(kind, raw);
        const model_reading m = model_read(kind, raw);
        outcomes[m.outcome] += m.refusal == 0;
        SAME(a.refusal, m.refusal);
        SAME(a.outcome, m.outcome);
        SAME_BYTES(&a.value, &m.value, sizeof(float));
        SAME(a.whole, m.whole);
        answered(m.refusal);
    }
    end();
    printf("    of them %lu values, %lu reserved, %lu errors, %lu not available, %lu beyond range, %lu indicators\n", outcomes[MODEL_VALUE],
           outcomes[MODEL_RESERVED], outcomes[MODEL_ERROR], outcomes[MODEL_NOT_AVAILABLE], outcomes[MODEL_BEYOND_RANGE],
           outcomes[MODEL_INDICATOR]);

    begin("read_two_bits");
    while (cases < count) {
        const uint8_t raw = (uint8_t)(one_in(3) ? any() : below(6));
        const castanhiu_two_bits_answer a = castanhiu_read_two_bits(raw);
        const model_two_bits m = model_read_two_bits(raw);
        SAME(a.refusal, m.refusal);
        SAME(a.outcome, m.outcome);
        answered(m.refusal);
    }
    end();
}

/* ---- the node ------------------------------------------------------------------------------ */

/* The model says by a flag whether a reception is open; the archive by a length that is not 0. */
static model_node modelled(const castanhiu_node *n)
{
    model_node m = {.own = n->own, .unit = n->unit};
    for (unsigned p = 0; p < 6; p++) {
        m.receptions[p] = (model_reception){
            .stamp = n->receptions[p].last,
            .open = n->receptions[p].length != 0,
            .length = n->receptions[p].length,
            .frames = n->receptions[p].taken,
        };
    }
    return m;
}

static void same_node(const castanhiu_node *a, const model_node *m)
{
    SAME(a->own, m->own);
    SAME(a->unit, m->unit);
    for (unsigned p = 0; p < 6; p++) {
        SAME(a->receptions[p].length, m->receptions[p].length);
        SAME(a->receptions[p].taken, m->receptions[p].frames);
        SAME(a->receptions[p].last, m->receptions[p].stamp);
    }
}

/* One number where a byte is meant is none; where its low byte is what stood there, a reader of bytes would find nothing wrong. */
static void widen(castanhiu_node *n)
{
    castanhiu_reception *const r = &n->receptions[below(6)];
    uint32_t *const numbers[] = {&n->own, &n->unit, &r->length, &r->taken};
    uint32_t *const number = numbers[below(4)];
    *number = OF(*number + 256, *number + 65536, *number + 0xFFFFFF00, 256 + below(256), 256, 0xFFFFFFFF, 0x80000000 | any(),
                 256 + below(0x7FFFFFFF), 0x2AAAAAAB + below(42), 0x55555556 + below(42), 0xAAAAAAAB + below(42));
}

static int is_wide(const castanhiu_node *n)
{
    int wide = n->own > 255 || n->unit > 255;
    for (unsigned p = 0; p < 6; p++) {
        wide |= n->receptions[p].length > 255 || n->receptions[p].taken > 255;
    }
    return wide;
}

static unsigned long wide;

/* A node that mostly keeps its rules, with some receptions open at any of their frames. */
static castanhiu_node a_node(void)
{
    castanhiu_node n;
    castanhiu_start(&n, (uint8_t)OF(5, 0, 255, any() & 0xFF));
    n.own = one_in(20) ? a_position() : 1 + below(5);
    for (unsigned p = 0; p < 6; p++) {
        if (one_in(2)) {
            const uint32_t length = one_in(4) ? OF(7, 11, 12, 255, 254) : 7 + below(249);
            n.receptions[p] = (castanhiu_reception){length, below((length - 6) / 6 + 1), any()};
        }
    }
    if (one_in(10)) { /* one number damaged */
        castanhiu_reception *const r = &n.receptions[below(6)];
        switch (below(3)) {
        case 0:
            r->length = OF(0, 1, 6, 7, any() & 0xFF);
            break;
        case 1:
            r->taken = OF(0, 1, r->length / 6, r->length / 6 + 1, 41, 42, 255, any() & 0xFF);
            break;
        default:
            r->last = OF(0, 1, any());
        }
    }
    if (one_in(8)) {
        widen(&n);
    }
    return n;
}

static void nodes(unsigned long count)
{
    begin("start");
    while (cases < count) {
        const uint8_t unit = (uint8_t)any();
        castanhiu_node n = a_node();
        castanhiu_start(&n, unit);
        const model_node m = model_start(unit);
        same_node(&n, &m);
        answered(0);
    }
    end();

    begin("fresh");
    while (cases < count) {
        const uint8_t own = a_position(), unit = (uint8_t)any();
        castanhiu_node n = a_node();
        model_node m = modelled(&n);
        const castanhiu_node_answer a = castanhiu_fresh(&n, own, unit);
        SAME(a.refusal, model_fresh(&m, own, unit));
        same_node(&n, &m);
        answered(a.refusal);
    }
    end();

    begin("take_address");
    wide = 0;
    while (cases < count) {
        castanhiu_node n = a_node();
        model_node m = modelled(&n);
        const uint8_t source = one_in(4) && n.own < 6 && n.own > 0 ? addresses[n.own - 1] : an_address();
        wide += is_wide(&n);
        const castanhiu_node_answer a = castanhiu_take_address(&n, source);
        SAME(a.refusal, model_take_address(&m, source));
        same_node(&n, &m);
        answered(a.refusal);
    }
    end();
    printf("    of them %lu to nodes that hold a number over 255 where a byte is meant\n", wide);
}

/* ---- the receiver -------------------------------------------------------------------------- */

static uint8_t ours[CASTANHIU_BUFFER + 64], theirs[CASTANHIU_BUFFER + 64];
static unsigned long trains, singles, controls;

static unsigned offer(castanhiu_node *node, model_node *twin, size_t buffer_length, uint32_t number, const uint8_t *data,
                  size_t data_length, uint32_t stamp)
{
    uint8_t copy[64];
    memcpy(copy, data, data_length);
    wide += is_wide(node);
    const castanhiu_outcome a = castanhiu_receive(node, ours, buffer_length, number, data, data_length, stamp);
    const model_outcome m = model_receive(twin, theirs, buffer_length, number, data, data_length, stamp);
    SAME_BYTES(data, copy, data_length);
    SAME(a.refusal, m.refusal);
    SAME(a.handed_out, m.kind);
    SAME(a.functional, m.functional);
    SAME(a.start, m.start);
    SAME(a.length, m.length);
    SAME(a.control, m.control);
    /* whom the frame is from: the archive says so of every frame that is taken, and of an over-long one */
    SAME(a.from, m.refusal == 0 || m.refusal == 11 ? model_position_of(number & 0xFF) : 0);
    if (m.kind != MODEL_NOTHING) {
        SAME(a.from, m.from);
        SAME(a.handed_out == CASTANHIU_TRAIN ? MODEL_IN_BUFFER : MODEL_IN_DATA, m.place);
    }
    if (m.control != 0) {
        SAME(a.from, m.control_to);
        controls++;
    }
    same_node(node, twin);
    SAME_BYTES(ours, theirs, sizeof ours);
    trains += m.kind == MODEL_TRAIN;
    singles += m.kind == MODEL_SINGLE;
    answered(m.refusal);
    return m.refusal;
}

/* What a vehicle is about to send: the rest of a message of `length` bytes, frame `next` of it. */
typedef struct {
    uint32_t length, next;
} sender;

/* One more frame of a vehicle's train, or a new one: 0 where nothing is under way. */
static size_t next_frame(sender *s, uint8_t *data, uint8_t unit)
{
    data[0] = unit;
    if (s->length == 0) {
        s->length = one_in(12) ? (one_in(8) ? 4095 : OF(256, 257, 300)) : one_in(6) ? OF(7, 11, 12, 13, 255, 254, 251) : 7 + below(40);
        s->next = 0;
        data[1] = (uint8_t)(0x10 | (s->length >> 8));
        data[2] = (uint8_t)s->length;
        s->next = 1;
        return 8;
    }
    const uint32_t left = s->length - (5 + 6 * (s->next - 1));
    const uint32_t m = left < 6 ? left : 6;
    data[1] = (uint8_t)(0x20 | (s->next % 16));
    s->next++;
    if (left <= 6) {
        s->length = 0;
    }
    return one_in(3) ? 8 : 2 + m;
}

/* A frame that is no part of a train, or a damaged one. */
static size_t stray_frame(uint8_t *data, uint8_t unit, uint32_t *format, uint32_t *specific, uint32_t *source)
{
    const uint32_t single = 1 + below(6);
    size_t length = 8;
    data[0] = unit;
    data[1] = (uint8_t)single;
    switch (below(12)) {
    case 0: /* functional, single or not */
    case 1:
        *format = 205;
        *specific = one_in(6) ? addresses[below(6)] : 0xFF;
        data[1] = (uint8_t)(one_in(4) ? OF(0x10, 0x20, 0x21, 0x30, 0x40, any() & 0xFF) : single);
        break;
    case 2:
    case 3: /* physical single, its length at the boundary */
        length = 2 + single - one_in(3);
        break;
    case 4: /* flow control and reserved kinds */
        data[1] = (uint8_t)(0x30 + 16 * below(13) + below(4));
        break;
    case 5: /* a consecutive frame out of nowhere, or with a wrong number, or short */
        data[1] = (uint8_t)(0x20 + below(16));
        length = below(9);
        break;
    case 6: /* a first frame of any length */
        data[1] = (uint8_t)(0x10 + (one_in(2) ? 0 : below(16)));
        data[2] = (uint8_t)OF(0, 6, 7, 255, any() & 0xFF);
        length = one_in(4) ? below(9) : 8;
        break;
    case 7: /* another unit, or none */
        data[0] = (uint8_t)(unit + 1 + below(255));
        length = below(9);
        break;
    case 8: /* another destination, another format */
        *specific = an_address();
        *format = OF(206, 205, 204, 207, 218);
        break;
    case 9:
        *source = an_address();
        break;
    case 10: /* too short, too long */
        length = OF(0, 1, 2, 9, 10, 63);
        break;
    default:
        data[1] = (uint8_t)any();
        length = below(9);
    }
    return length;
}

/* One node through a long sequence in which several vehicles' trains run beside each other, complete and go wrong. */
static void sequence(unsigned long frames)
{
    castanhiu_node node = a_node();
    if (!one_in(4) || is_wide(&node)) {
        castanhiu_fresh(&node, (uint8_t)(1 + below(5)), (uint8_t)any());
    }
    if (model_node_keeps_rules(&(model_node){.own = node.own}) == 0) {
        node.own = 1;
    }
    model_node twin = modelled(&node);
    sender senders[6] = {{0, 0}};
    uint32_t stamp = one_in(2) ? UINT32_C(0xFFFFFF00) + below(512) : any();
    fill(ours, sizeof ours);
    memcpy(theirs, ours, sizeof ours);
    /* how often something goes wrong: a sequence that is nearly clean completes long trains */
    const uint32_t wrong = OF(4, 12, 60, 400);
    for (unsigned long i = 0; i < frames; i++) {
        uint8_t data[64];
        unsigned p = below(6);
        if (p == node.own && !one_in(8)) {
            p = (p + 1) % 6;
        }
        uint32_t format = 206, specific = node.own >= 1 && node.own <= 5 ? addresses[node.own] : 0xC9, source = addresses[p];
        fill(data, 10);
        size_t length;
        if (one_in(wrong)) {
            length = stray_frame(data, (uint8_t)node.unit, &format, &specific, &source);
        } else {
            length = next_frame(&senders[p], data, (uint8_t)node.unit);
        }
        uint32_t number = identifier_of(format, specific, source);
        if (one_in(wrong * 4)) {
            number ^= OF(UINT32_C(1) << 24, UINT32_C(1) << 25, UINT32_C(1) << 29, UINT32_C(1) << 31);
        }
        stamp += one_in(wrong * 2) ? OF(149, 150, 151, 152, 0xFFFFFFFF, 0x80000000) : below(12);
        const size_t buffer_length = one_in(400) ? OF(0, 1535, 1537, 1600) : CASTANHIU_BUFFER;
        if (one_in(60)) { /* the same frame to the node with one number too wide, first: it is refused, and the sequence goes on */
            castanhiu_node spoilt = node;
            widen(&spoilt);
            model_node other = modelled(&spoilt);
            offer(&spoilt, &other, buffer_length, number, data, length, stamp);
        }
        const unsigned refusal = offer(&node, &twin, buffer_length, number, data, length, stamp);
        if ((refusal == 13 || refusal == 14) && !one_in(4)) { /* most senders begin anew; some go on with what is lost */
            senders[p].length = 0;
        }
        if (one_in(300)) { /* an address is taken in the middle of it all */
            const uint8_t from = an_address();
            const castanhiu_node_answer a = castanhiu_take_address(&node, from);
            SAME(a.refusal, model_take_address(&twin, from));
            same_node(&node, &twin);
        }
        if (one_in(200)) {
            senders[below(6)].length = 0;
        }
    }
}

static void receiver(unsigned long count)
{
    begin("receive");
    wide = 0;
    while (cases < count) {
        if (one_in(20)) { /* any node, once: damaged states, receptions at any of their frames */
            castanhiu_node node = a_node();
            model_node twin = modelled(&node);
            const unsigned p = below(6);
            uint8_t data[64];
            fill(data, 10);
            data[0] = (uint8_t)node.unit;
            data[1] = (uint8_t)(0x20 + (node.receptions[p].taken + 1) % 16);
            const uint32_t specific = node.own < 6 ? addresses[node.own] : 0xFF;
            offer(&node, &twin, CASTANHIU_BUFFER, identifier_of(206, specific, addresses[p]), data, one_in(3) ? below(10) : 8,
                  node.receptions[p].last + OF(0, 150, 151, below(200), any()));
        } else {
            sequence(50 + below(400));
        }
    }
    end();
    printf("    of them %lu trains and %lu single frames handed out, %lu flow controls due\n", trains, singles, controls);
    printf("    of them %lu to nodes that hold a number over 255 where a byte is meant\n", wide);
}

/* ---- the cutter ---------------------------------------------------------------------------- */

static void same_frame(const castanhiu_frame *a, const model_frame *m)
{
    SAME(a->refusal, m->refusal);
    SAME(a->length, m->length);
    SAME(a->identifier, m->identifier);
    SAME_BYTES(a->data, m->data, 8);
    answered(m->refusal);
}

static uint8_t any_position(void)
{
    return (uint8_t)(one_in(12) ? OF(6, 7, 200, 255, any() & 0xFF) : below(6));
}

static void cutter(unsigned long count)
{
    begin("flow_control");
    while (cases < count) {
        const uint8_t control = (uint8_t)(one_in(6) ? OF(0, 3, 9, 255, any() & 0xFF) : 1 + below(2));
        const uint8_t from = any_position(), to = any_position(), unit = (uint8_t)any();
        const castanhiu_frame a = castanhiu_flow_control(control, from, to, unit);
        const model_frame m = model_flow_control(control, from, to, unit);
        same_frame(&a, &m);
    }
    end();

    begin("frame_count");
    while (cases < count) {
        const size_t length = one_in(3) ? OF(0, 1, 6, 7, 11, 12, 255, 256, 0xFFFFFFFF) : one_in(6) ? any() : below(260);
        const size_t far = one_in(50) ? (size_t)(length + ((uint64_t)any() << 32)) : length; /* with 32 bits, the same */
        SAME(castanhiu_frame_count(far), model_frame_count(far));
        answered(castanhiu_frame_count(far) == 0 ? 16 : 0);
    }
    end();

    begin("cut");
    while (cases < count) {
        uint8_t message[300], copy[300];
        const size_t length = one_in(10) ? OF(0, 255, 256, 257, 300) : one_in(4) ? 1 + below(8) : 1 + below(255);
        fill(message, length);
        memcpy(copy, message, length);
        const uint32_t frames = model_frame_count(length);
        const size_t number = one_in(8)    ? OF(frames, frames + 1, 255, 256, 0xFFFFFFFF)
                              : one_in(40) ? SIZE_MAX
                                           : below(frames + 1);
        const uint8_t from = any_position(), to = any_position(), unit = (uint8_t)any();
        const castanhiu_frame a = castanhiu_cut(message, length, number, from, to, unit);
        const model_frame m = model_cut(copy, length, number > UINT32_MAX ? UINT32_MAX : (uint32_t)number, from, to, unit);
        SAME_BYTES(message, copy, length);
        same_frame(&a, &m);
    }
    end();
}

/* ---- the server ---------------------------------------------------------------------------- */

_Static_assert(sizeof(castanhiu_record) == sizeof(model_record), "one layout");

static int ascending(const void *a, const void *b)
{
    const uint32_t x = *(const uint32_t *)a, y = *(const uint32_t *)b;
    return (x > y) - (x < y);
}

static const uint8_t masks[] = {0x49, 0x4B, 0x4F, 0x79, 0x7B, 0x7F, 0xC9, 0xCB, 0xCF, 0xF9, 0xFB, 0xFF};

/* A record that keeps its rules, with anything in its free places; codes and identifiers lie close together. */
static castanhiu_record a_record(void)
{
    castanhiu_record r;
    uint32_t codes[63], identifiers[16];
    fill((uint8_t *)&r, sizeof r);
    r.availability = masks[below(sizeof masks)];
    r.count = (uint8_t)(one_in(3) ? OF(0, 1, 62, 63) : below(64));
    r.held = (uint8_t)(one_in(3) ? OF(0, 1, 15, 16) : below(17));
    const uint32_t from = OF(0, 0xFFFF00, 0x123400), wide = OF(80, 200, 255);
    for (unsigned i = 0; i < r.count; i++) {
        codes[i] = from + below(wide);
        for (unsigned j = 0; j < i; j++) {
            if (codes[j] == codes[i]) {
                codes[i] = from + (codes[i] - from + 1) % wide;
                j = (unsigned)-1;
            }
        }
    }
    qsort(codes, r.count, sizeof codes[0], ascending);
    for (unsigned i = 0; i < r.count; i++) {
        r.codes[i] = codes[i];
        r.statuses[i] = (uint8_t)any() & r.availability & (uint8_t)(one_in(3) ? any() : 0xFF);
    }
    for (unsigned k = 0; k < r.held; k++) {
        identifiers[k] = 0xF180 + below(32);
        for (unsigned j = 0; j < k; j++) {
            if (identifiers[j] == identifiers[k]) {
                identifiers[k] = 0xF180 + (identifiers[k] - 0xF180 + 1) % 32;
                j = (unsigned)-1;
            }
        }
    }
    qsort(identifiers, r.held, sizeof identifiers[0], ascending);
    const uint32_t longest = OF(1, 8, 32);
    for (unsigned k = 0; k < r.held; k++) {
        r.identifiers[k] = (uint16_t)identifiers[k];
        r.lengths[k] = (uint8_t)(1 + below(longest));
    }
    return r;
}

/* One number of it changed: often at a place that counts. */
static void damage(castanhiu_record *r)
{
    const unsigned i = r->count > 0 && r->count <= 63 && !one_in(4) ? below(r->count) : below(63);
    const unsigned k = r->held > 0 && r->held <= 16 && !one_in(4) ? below(r->held) : below(16);
    switch (below(8)) {
    case 0:
        r->count = (uint8_t)OF(63, 64, 255, any() & 0xFF);
        break;
    case 1:
        r->held = (uint8_t)OF(16, 17, 255, any() & 0xFF);
        break;
    case 2:
        r->availability = (uint8_t)any();
        break;
    case 3:
        r->codes[i] = OF(0xFFFFFF, 0x1000000, 0xFFFFFFFF, r->codes[i > 0 ? i - 1 : 1], r->codes[i] + 1, 0);
        break;
    case 4:
        r->statuses[i] = (uint8_t)any();
        break;
    case 5:
        r->identifiers[k] = (uint16_t)OF(r->identifiers[k > 0 ? k - 1 : 1], any() & 0xFFFF, 0, 0xFFFF);
        break;
    case 6:
        r->lengths[k] = (uint8_t)OF(0, 1, 32, 33, 255);
        break;
    default:
        r->codes[i] ^= UINT32_C(1) << below(32);
    }
}

static size_t a_request(const castanhiu_record *r, uint8_t *request)
{
    fill(request, 300);
    size_t length = 2;
    switch (below(8)) {
    case 0: {
        request[0] = 0x14;
        const uint32_t code = one_in(3) ? 0xFFFFFF : r->codes[below(63)] ^ (one_in(5) ? 1 : 0);
        request[1] = (uint8_t)(code >> 16);
        request[2] = (uint8_t)(code >> 8);
        request[3] = (uint8_t)code;
        length = 4;
        break;
    }
    case 1:
    case 2:
    case 3:
        request[0] = 0x19;
        request[1] = (uint8_t)(OF(0x01, 0x02, 0x0A) | (one_in(6) ? 0x80 : 0));
        request[2] = (uint8_t)(one_in(2) ? OF(0x00, 0x01, 0x08, 0x80, 0xFF) : any());
        length = (request[1] & 0x7F) == 0x0A ? 2 : 3;
        break;
    case 4:
    case 5: {
        request[0] = 0x22;
        const unsigned asked = one_in(8) ? 127 : 1 + below(OF(4, 10, 40));
        for (unsigned j = 0; j < asked; j++) {
            const uint32_t identifier = one_in(4) ? 0xF180 + below(34) : r->identifiers[below(16)];
            request[1 + 2 * j] = (uint8_t)(identifier >> 8);
            request[2 + 2 * j] = (uint8_t)identifier;
        }
        length = 1 + 2 * asked;
        break;
    }
    case 6:
        request[0] = 0x3E;
        request[1] = (uint8_t)OF(0x00, 0x80, 0x01, 0x81, any() & 0xFF);
        break;
    default:
        request[0] = (uint8_t)OF(0x10, 0x14, 0x19, 0x22, 0x3E, 0x7F, any() & 0xFF);
        length = 1 + below(5);
    }
    if (one_in(8)) { /* the length, or a byte, is another */
        if (one_in(2)) {
            length = OF(0, 1, 2, 3, 4, 5, 254, 255, 256, 300);
        } else {
            request[below(3)] = (uint8_t)any();
        }
    }
    return length;
}

static unsigned long silences, sent_bytes;

static void server(unsigned long count)
{
    begin("record_check");
    while (cases < count) {
        castanhiu_record r = a_record();
        for (unsigned i = below(3); i > 0; i--) {
            damage(&r);
        }
        model_record m;
        memcpy(&m, &r, sizeof m);
        const castanhiu_record_answer a = castanhiu_record_check(&r);
        SAME(a.refusal, model_record_keeps_rules(&m) ? 0 : 1);
        SAME_BYTES(&r, &m, offsetof(castanhiu_record, held) + 1);
        answered(a.refusal);
    }
    end();

    begin("serve");
    while (cases < count) { /* one record through a row of requests, so that what they leave behind counts */
        castanhiu_record r = a_record();
        if (one_in(8)) {
            damage(&r);
        }
        model_record m;
        memcpy(&m, &r, sizeof m);
        for (unsigned i = 0; i < 12; i++) {
            uint8_t request[300], copy[300], answer[300], twin[300];
            const size_t length = a_request(&r, request);
            const size_t room = one_in(40) ? OF(0, 254, 256, 300) : CASTANHIU_RESPONSE;
            const bool functional = one_in(3);
            memcpy(copy, request, sizeof copy);
            fill(answer, sizeof answer);
            memcpy(twin, answer, sizeof twin);
            const castanhiu_serve_answer a = castanhiu_serve(&r, request, length, functional, answer, room);
            const model_answer b = model_serve(&m, copy, length, functional, twin, room);
            SAME(a.refusal, b.refusal);
            SAME(a.silent, b.refusal == 0 && b.sent == 0);
            SAME(a.length, b.sent);
            SAME_BYTES(answer, twin, sizeof answer);
            SAME_BYTES(request, copy, sizeof request);
            SAME_BYTES(&r, &m, offsetof(castanhiu_record, held) + 1);
            silences += a.silent;
            sent_bytes += a.length;
            answered(b.refusal);
        }
    }
    end();
    printf("    of them %lu silent, and %lu bytes sent\n", silences, sent_bytes);

    begin("set_status");
    while (cases < count) {
        castanhiu_record r = a_record();
        if (one_in(8)) {
            damage(&r);
        }
        model_record m;
        memcpy(&m, &r, sizeof m);
        for (unsigned i = 0; i < 6; i++) {
            const uint32_t code = one_in(5) ? any() & 0xFFFFFF : r.codes[r.count > 0 && r.count <= 63 ? below(r.count) : 0];
            const uint8_t status = (uint8_t)(one_in(4) ? any() : any() & r.availability);
            const castanhiu_record_answer a = castanhiu_set_status(&r, code, status);
            SAME(a.refusal, model_set_status(&m, code, status));
            SAME_BYTES(&r, &m, offsetof(castanhiu_record, held) + 1);
            answered(a.refusal);
        }
    }
    end();
}

/* ---- the count sheet ----------------------------------------------------------------------- */

static uint8_t input[65600], page[CASTANHIU_PAGE + 64];
static char text[CASTANHIU_PAGE + 64];

static void put_reading(uint8_t *to)
{
    const uint32_t counted = one_in(3) ? OF(0, 9, 10, 99, 100, 999, 1000, 9999, 10000, 65535) : below(64);
    const uint8_t reading[17] = {
        1, 0, 1, (uint8_t)(1 + below(5)), 2, 0, 1, (uint8_t)any(), 3, 0, 6, 0x59, 0x01, masks[below(sizeof masks)], 0x03,
        (uint8_t)(counted >> 8), (uint8_t)counted,
    };
    memcpy(to, reading, sizeof reading);
}

/* A sheet: whole readings, or with a cut, stray bytes, another byte, or too long; how many bytes it has. */
static size_t put_sheet(void)
{
    const unsigned readings_in = cases % 20000 == 0 ? OF(3855, 3854, 400) : below(OF(1, 3, 8));
    size_t length = 17u * readings_in;
    for (unsigned i = 0; i < readings_in; i++) {
        put_reading(input + 17 * i);
    }
    if (one_in(2)) {
        switch (below(4)) {
        case 0:
            return length > 0 ? below((uint32_t)length + 1) : 0;
        case 1:
            return length + below(18);
        case 2:
            if (length > 0) {
                input[below((uint32_t)length)] = (uint8_t)(one_in(2) ? any() : below(8));
            }
            break;
        default:
            if (cases % 64 == 0) {
                return OF(65535, 65536, 65537, 65600);
            }
        }
    }
    return length;
}

static void fresh_pages(void)
{
    memset(input, 0, sizeof input);
    memset(page, 0xEE, sizeof page);
    memset(text, (char)0xEE, sizeof text);
}

/* Both texts, and the bytes behind them; then both pages as before. */
static void same_pages(size_t length, size_t a, size_t m)
{
    SAME(a, m);
    SAME_BYTES(page, text, m + 64);
    if (length > 60000 || cases % 512 == 0) {
        SAME_BYTES(page, text, sizeof page);
    }
    answered(text[0] == 'r' ? (unsigned)(10 * (text[8] - '0') + text[9] - '0') : 0);
    memset(page, 0xEE, m);
    memset(text, (char)0xEE, m);
}

static void sheet(unsigned long count)
{
    begin("sheet_text");
    fresh_pages();
    while (cases < count) {
        const size_t length = put_sheet();
        const size_t a = castanhiu_sheet_text(input, length, page);
        same_pages(length, a, model_count_sheet(input, length, text));
    }
    end();
}

/* The readings of a sheet with few masks, so that many are asked for and some counts are equal. */
static void fewer_masks(size_t length)
{
    for (size_t at = 7; at < length; at += 17) {
        input[at] = (uint8_t)OF(0x00, 0x08, 0x08, 0x0C);
    }
}

static void ranking(unsigned long count)
{
    begin("ranking_text");
    fresh_pages();
    while (cases < count) {
        const size_t length = put_sheet();
        if (!one_in(4)) {
            fewer_masks(length);
        }
        const uint8_t mask = (uint8_t)(one_in(16) ? any() : OF(0x00, 0x08, 0x08, 0x0C));
        const size_t a = castanhiu_ranking_text(input, length, mask, page);
        same_pages(length, a, model_ranking(input, length, mask, text));
    }
    end();
}

/* ---- mending ------------------------------------------------------------------------------- */

static uint8_t our_kept[CASTANHIU_SHEET + 64], their_kept[CASTANHIU_SHEET + 64];

/* A reading, or what is left of one, or stray bytes: at most 18 bytes. */
static uint8_t *put_torn(uint8_t *to)
{
    put_reading(to);
    const uint32_t place = below(17);
    const uint8_t byte = (uint8_t)(one_in(2) ? any() : below(8));
    switch (below(9)) {
    case 0: /* cut behind: what looks like a reading's front */
        return to + place;
    case 1: /* cut in front */
        memmove(to, to + place, 17 - place);
        return to + 17 - place;
    case 2: /* a byte dropped */
        memmove(to + place, to + place + 1, 16 - place);
        return to + 16;
    case 3: /* a byte too many */
        memmove(to + place + 1, to + place, 17 - place);
        to[place] = byte;
        return to + 18;
    case 4: /* a byte altered */
        to[place] = byte;
        return to + 17;
    case 5: /* one byte again and again */
        memset(to, byte, place);
        return to + place;
    case 6:
        fill(to, place);
        return to + place;
    default:
        return to + 17;
    }
}

/* A sheet with holes, or a sound one, or one byte again and again; now and then as long as a sheet can be, or a byte longer. */
static size_t put_torn_sheet(void)
{
    const int longest = cases % 1024 == 0;
    const size_t least = longest ? OF(65518, 65534, 65535, 65535, 65536, 65536) : below(OF(1, 40, 200));
    const uint32_t kind = below(12);
    if (kind == 0) {
        memset(input, (int)below(4), least);
        return least;
    }
    uint8_t *to = input;
    while (to < input + least) {
        if (kind == 1) {
            put_reading(to);
            to += 17;
        } else {
            to = put_torn(to);
        }
    }
    return longest || one_in(3) ? least : (size_t)(to - input);
}

static void mending(unsigned long count)
{
    unsigned long kept = 0, mixed = 0;
    begin("mend");
    fresh_pages();
    memset(our_kept, 0xEE, sizeof our_kept);
    memset(their_kept, 0xEE, sizeof their_kept);
    while (cases < count) {
        const size_t length = put_torn_sheet();
        const castanhiu_mended a = castanhiu_mend(input, length, our_kept, page);
        const model_mended m = model_mend(input, length, their_kept, text);
        SAME(a.refusal, m.refusal);
        SAME(a.kept, m.kept);
        SAME(a.listed, m.listed);
        /* both arrays, and the bytes behind what is written; all of them now and then, and at the end */
        const int all = length > 60000 || cases % 512 == 0 || cases + 1 == count;
        SAME_BYTES(our_kept, their_kept, all ? sizeof our_kept : m.kept + 64);
        SAME_BYTES(page, text, all ? sizeof page : m.listed + 64);
        memset(our_kept, 0xEE, m.kept);
        memset(their_kept, 0xEE, m.kept);
        memset(page, 0xEE, m.listed);
        memset(text, (char)0xEE, m.listed);
        kept += m.kept / 17;
        mixed += m.kept != 0 && m.listed != 0;
        answered(m.refusal);
    }
    end();
    printf("    of them %lu with bytes kept and bytes dropped; %lu readings kept\n", mixed, kept);
}

/* ---- logs ---------------------------------------------------------------------------------- */

enum { LOG_LINE = 640 };

static uint8_t *put_some(uint8_t *to, const char *bytes, uint32_t of_bytes, uint32_t count)
{
    for (uint32_t i = 0; i < count; i++) {
        *to++ = (uint8_t)bytes[below(of_bytes)];
    }
    return to;
}

static const char hexadecimal[] = "0123456789ABCDEFabcdef";

/* One blank, a name of three or eight digits, the mark and the data. */
static size_t put_named_data(uint8_t *line)
{
    uint8_t *to = line;
    *to++ = ' ';
    if (one_in(4)) {
        to = put_some(to, hexadecimal, 22, 3);
    } else {
        const uint32_t number = one_in(4) ? OF(0x1FFFFFFE, 0x1FFFFFFF, 0x20000000, 0x20000001, 0x2FFFFFFF, 0, 0xFFFFFFFF) : an_identifier();
        const uint32_t small = one_in(3) ? any() : 0;
        for (unsigned i = 0; i < 8; i++) {
            const uint32_t digit = number >> (28 - 4 * i) & 15;
            *to++ = (uint8_t)hexadecimal[digit > 9 && (small >> i & 1) != 0 ? digit + 6 : digit];
        }
    }
    *to++ = '#';
    to = put_some(to, hexadecimal, one_in(3) ? 22 : 16, one_in(2) ? 16 : 2 * below(9));
    return (size_t)(to - line);
}

/* A line by its form, all parts varied; now and then one part is so long that the line has 250 to 258 bytes. */
static size_t put_log_line(uint8_t *line)
{
    uint8_t named[32];
    const size_t rest = put_named_data(named);
    uint32_t seconds = one_in(8) ? 1 + below(40) : OF(1, 2, 7, 10, 10, 10);
    uint32_t blanks = one_in(4) ? 1 + below(6) : 1;
    uint32_t interface = 1 + below(6);
    if (one_in(10)) {
        uint32_t *const parts[3] = {&seconds, &blanks, &interface};
        *parts[below(3)] += 250 + below(9) - (9 + seconds + blanks + interface + (uint32_t)rest);
    }
    uint8_t *to = line;
    *to++ = '(';
    to = put_some(to, hexadecimal, 10, seconds);
    *to++ = '.';
    to = put_some(to, hexadecimal, 10, 6);
    *to++ = ')';
    memset(to, ' ', blanks);
    to += blanks;
    for (uint32_t i = 0; i < interface; i++) {
        *to++ = (uint8_t)(one_in(3) ? OF(0x21, 0x7E, '#', '(', ')', '.', '0', 'A') : 0x21 + below(0x5E));
    }
    memcpy(to, named, rest);
    return (size_t)(to - line) + rest;
}

/* One thing wrong with it; how many bytes it then has, at most as many more as another line and a byte. */
static size_t damage_line(uint8_t *line, size_t length)
{
    const size_t place = length == 0 ? 0 : one_in(4) ? length - 1 : below((uint32_t)length);
    const uint8_t byte = (uint8_t)(one_in(3)   ? any()
                                   : one_in(2) ? OF('(', ')', '.', ' ', '#', '0', '9', 'A', 'f')
                                               : OF('\r', '\n', '\t', 'R', 'T', 'g', 'G', '/', ':', '@', '`', 0x7F, 0, 0x80));
    switch (length == 0 ? 7 : below(8)) {
    case 0: /* a byte replaced */
    case 1:
        line[place] = byte;
        return length;
    case 2: /* removed */
        memmove(line + place, line + place + 1, length - place - 1);
        return length - 1;
    case 3: /* inserted, or one twice */
        memmove(line + place + 1, line + place, length - place);
        line[place] = one_in(4) ? line[place] : byte;
        return length + 1;
    case 4: /* cut behind, or in front */
        if (one_in(2)) {
            return place;
        }
        memmove(line, line + place, length - place);
        return length - place;
    case 5: { /* two bytes exchanged */
        const size_t other = one_in(2) ? below((uint32_t)length) : place > 0 ? place - 1 : 0;
        const uint8_t was = line[place];
        line[place] = line[other];
        line[other] = was;
        return length;
    }
    case 6: /* two lines joined */
        if (length < LOG_LINE / 3) {
            line[length] = (uint8_t)OF('\n', ' ', '\r');
            length += one_in(2);
            return length + put_log_line(line + length);
        }
        return length;
    default: /* more behind */
        put_some(line + length, " R", 2, 2);
        line[length] = one_in(2) ? byte : line[length];
        return length + 1 + below(2);
    }
}

static void logs(unsigned long count)
{
    unsigned long frames = 0, bytes = 0, passed = 0, sound = 0, longest = 0;
    begin("log_read");
    while (cases < count) {
        uint8_t line[LOG_LINE], copy[LOG_LINE], data[8 + CASTANHIU_DATA + 8], twin[8 + CASTANHIU_DATA + 8];
        size_t length = put_log_line(line);
        unsigned wrong = one_in(2) ? 0 : one_in(3) ? 1 + below(3) : 1;
        const int damaged = wrong != 0;
        for (; wrong > 0; wrong--) {
            length = damage_line(line, length);
        }
        memcpy(copy, line, length);
        fill(data, sizeof data);
        memcpy(twin, data, sizeof twin);
        const castanhiu_log_frame a = castanhiu_log_read(line, length, data + 8);
        const model_log_frame m = model_log_read(copy, length, twin + 8);
        SAME(a.refusal, m.refusal);
        SAME(a.passed_over, m.passed_over);
        SAME(a.length, m.length);
        SAME(a.identifier, m.identifier);
        SAME(a.stamp, m.stamp);
        SAME_BYTES(data, twin, sizeof data);
        SAME_BYTES(line, copy, length);
        passed += m.passed_over;
        frames += m.refusal == 0 && !m.passed_over;
        bytes += m.length;
        sound += damaged && m.refusal != 25;
        longest += length == 255 || length == 256;
        answered(m.refusal);
    }
    end();
    printf("    of them %lu frames with %lu data bytes, and %lu passed over; %lu damaged, and of the form; %lu of 255 or 256 bytes\n",
           frames, bytes, passed, sound, longest);

    begin("log_write");
    while (cases < count) {
        uint8_t data[300], copy[300], line[8 + CASTANHIU_LOG_TEXT + 8], twin[8 + CASTANHIU_LOG_TEXT + 8];
        const uint32_t number = one_in(4) ? any() & 0x1FFFFFFF : an_identifier();
        const size_t length = one_in(10) ? OF(9, 10, 16, 64, 255, 256, 264, 300) : below(9);
        const uint32_t stamp = one_in(3) ? OF(0, 1, 999, 1000, 9999, 10000, 99999, 100000, 999999, 1000000, 9999999, 10000000, 99999999,
                                              100000000, 999999999, 1000000000, 4294966999, 4294967000, 4294967295)
                                         : any() >> below(32);
        fill(data, length);
        memcpy(copy, data, length);
        fill(line, sizeof line);
        memcpy(twin, line, sizeof twin);
        const castanhiu_log_line a = castanhiu_log_write(number, data, length, stamp, line + 8);
        const model_log_line m = model_log_write(number, copy, length, stamp, (char *)twin + 8);
        SAME(a.refusal, m.refusal);
        SAME(a.length, m.length);
        SAME_BYTES(line, twin, sizeof line);
        SAME_BYTES(data, copy, length);
        if (a.refusal == 0) {
            uint8_t again[CASTANHIU_DATA];
            const castanhiu_log_frame f = castanhiu_log_read(line + 8, a.length - 1u, again);
            SAME(f.refusal, 0);
            SAME(f.passed_over, 0);
            SAME(f.length, length);
            SAME(f.identifier, number);
            SAME(f.stamp, stamp);
            SAME_BYTES(again, data, length);
        }
        answered(m.refusal);
    }
    end();
}

int main(int argc, char **argv)
{
    if (argc != 3) {
        fprintf(stderr, "differential SEED CASES\n");
        return 2;
    }
    state = strtoull(argv[1], NULL, 0);
    const unsigned long count = strtoul(argv[2], NULL, 0);
    printf("seed %s, %lu cases a function\n", argv[1], count);
    identifiers(count);
    vehicles(count);
    readings(count);
    nodes(count);
    receiver(count);
    cutter(count);
    server(count);
    sheet(count);
    ranking(count);
    mending(count);
    logs(count);
    printf("the archive and the model agree\n");
    return 0;
}

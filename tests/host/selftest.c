/*
 * The documents put to the independent model, and to the archive: every worked number, both sides of
 * the boundaries in the rules, and random runs that check what must stay as it was. The checks
 * stand over the model's names; linked with archive.c, these are the archive's.
 *
 *     selftest NAME      whose functions they are, for the line that it prints
 */
#include "model.h"

#include <math.h>
#include <stdio.h>
#include <stdlib.h>
#include <string.h>

static unsigned long checks;

#define CHECK(condition)                                                                    \
    do {                                                                                    \
        checks++;                                                                           \
        if (!(condition)) {                                                                 \
            fprintf(stderr, "selftest: failed at line %d: %s\n", __LINE__, #condition);     \
            exit(1);                                                                        \
        }                                                                                   \
    } while (0)

static uint64_t seed = UINT64_C(0x9E3779B97F4A7C15);

static uint32_t any(void)
{
    seed ^= seed << 13;
    seed ^= seed >> 7;
    seed ^= seed << 17;
    return (uint32_t)(seed >> 32);
}

static uint32_t below(uint32_t limit)
{
    return any() % limit;
}

static const uint8_t vehicle[6] = {0xEB, 0xC9, 0xC1, 0xB9, 0xB1, 0xA9};

static uint8_t place_of(uint8_t address)
{
    for (uint8_t p = 0; p < 6; p++) {
        if (vehicle[p] == address) {
            return p;
        }
    }
    return MODEL_NO_POSITION;
}

/* ---- comparing ----------------------------------------------------------------------------- */

static int same_reception(const model_reception *a, const model_reception *b)
{
    return a->open == b->open && a->length == b->length && a->frames == b->frames &&
           a->stamp == b->stamp;
}

static int same_node(const model_node *a, const model_node *b)
{
    if (a->own != b->own || a->unit != b->unit) {
        return 0;
    }
    for (int p = 0; p < 6; p++) {
        if (!same_reception(&a->receptions[p], &b->receptions[p])) {
            return 0;
        }
    }
    return 1;
}

static int same_outcome(model_outcome a, model_outcome b)
{
    return a.start == b.start && a.refusal == b.refusal && a.kind == b.kind && a.from == b.from &&
           a.functional == b.functional && a.length == b.length && a.place == b.place &&
           a.control == b.control && a.control_to == b.control_to;
}

static int is_refusal(model_outcome a, uint8_t refusal)
{
    return same_outcome(a, (model_outcome){.refusal = refusal});
}

static int is_overflow(model_outcome a, uint8_t to)
{
    return same_outcome(
        a, (model_outcome){.refusal = 11, .control = MODEL_OVERFLOW, .control_to = to});
}

static int is_continue(model_outcome a, uint8_t to)
{
    return same_outcome(a, (model_outcome){.control = MODEL_CONTINUE, .control_to = to});
}

static int is_taken(model_outcome a)
{
    return same_outcome(a, (model_outcome){0});
}

static int is_single(model_outcome a, uint8_t from, uint8_t functional, uint8_t length)
{
    return same_outcome(a, (model_outcome){.start = 2,
                                           .kind = MODEL_SINGLE,
                                           .from = from,
                                           .functional = functional,
                                           .length = length,
                                           .place = MODEL_IN_DATA});
}

static int is_train(model_outcome a, uint8_t from, uint8_t length)
{
    return same_outcome(a, (model_outcome){.start = (uint16_t)(256 * from),
                                           .kind = MODEL_TRAIN,
                                           .from = from,
                                           .length = length,
                                           .place = MODEL_IN_BUFFER});
}

static int is_closed(const model_reception *a)
{
    const model_reception closed = {0};
    return same_reception(a, &closed);
}

static int is_open(const model_reception *a, uint32_t length, uint32_t frames, uint32_t stamp)
{
    const model_reception open = {.open = 1, .length = length, .frames = frames, .stamp = stamp};
    return same_reception(a, &open);
}

/* ---- identifier, vehicle, route ------------------------------------------------------------ */

static void test_identifier(void)
{
    model_identifier id = model_identifier_read(0x18CEC9EB);
    CHECK(id.refusal == 0 && id.priority == 6 && id.reserved == 0 && id.data_page == 0 && id.format == 206);
    CHECK(id.specific == 0xC9 && id.source == 0xEB);
    CHECK(model_position_of(id.specific) == 1 && model_position_of(id.source) == 0);

    const struct {
        uint32_t number;
        size_t length;
        uint8_t alone, routed;
    } cases[] = {
        {0x20000000, 0, 2, 2},          {0x20000000, 8, 2, 2}, {0x20000000, 9, 2, 2},
        {0x1FFFFFFF, 0, 0, 0},          {0x1FFFFFFF, 8, 0, 0}, {0x1FFFFFFF, 9, 0, 3},
        {0x1DFFFFFF, 8, 0, 0},          {0x1DFFFFFF, 9, 0, 3}, {0x02000000, 8, 0, 0},
        {0x01FFFFFF, 8, 0, 0},          {0xFFFFFFFF, 9, 2, 2}, {0, 0, 0, 0},
        {0x18CEC9EB, SIZE_MAX, 0, 3},   {0x04000000, 0, 0, 0}, {0x06000000, 0, 0, 0},
    };
    for (size_t i = 0; i < sizeof cases / sizeof cases[0]; i++) {
        const model_identifier a = model_identifier_read(cases[i].number);
        CHECK(a.refusal == cases[i].alone);
        CHECK(model_route(MODEL_SIDE_PREDECESSOR, 1, 1, cases[i].number, cases[i].length).refusal == cases[i].routed);
        if (a.refusal != 0) {
            CHECK(!a.priority && !a.reserved && !a.data_page && !a.format && !a.specific && !a.source);
        }
    }
    id = model_identifier_read(0x1FFFFFFF);
    CHECK(id.priority == 7 && id.reserved == 1 && id.data_page == 1 && id.format == 255 && id.specific == 255 && id.source == 255);
    id = model_identifier_read(0x1AFE5DEB);
    CHECK(id.priority == 6 && id.reserved == 1 && id.data_page == 0 && id.format == 254 && id.specific == 93 && id.source == 0xEB);

    model_written w = model_identifier_write(6, 0, 0, 206, 0xC9, 0xEB);
    CHECK(w.refusal == 0 && w.number == 0x18CEC9EB);
    w = model_identifier_write(7, 0, 1, 255, 255, 255);
    CHECK(w.refusal == 0 && w.number == 0x1DFFFFFF);
    w = model_identifier_write(7, 1, 1, 255, 255, 255);
    CHECK(w.refusal == 0 && w.number == 0x1FFFFFFF);
    w = model_identifier_write(6, 1, 0, 254, 93, 0xEB);
    CHECK(w.refusal == 0 && w.number == 0x1AFE5DEB);
    w = model_identifier_write(8, 0, 0, 1, 1, 1);
    CHECK(w.refusal == 16 && w.number == 0);
    w = model_identifier_write(0, 2, 0, 1, 1, 1);
    CHECK(w.refusal == 16 && w.number == 0);
    w = model_identifier_write(0, 0, 2, 1, 1, 1);
    CHECK(w.refusal == 16 && w.number == 0);
    w = model_identifier_write(UINT32_MAX, UINT32_MAX, UINT32_MAX, 1, 1, 1);
    CHECK(w.refusal == 16 && w.number == 0);

    for (int i = 0; i < 20000; i++) {
        const uint32_t p = below(10), r = below(3), dp = below(4);
        const uint8_t pf = (uint8_t)any(), ps = (uint8_t)any(), sa = (uint8_t)any();
        w = model_identifier_write(p, r, dp, pf, ps, sa);
        CHECK((w.refusal == 16) == (p > 7 || r > 1 || dp > 1));
        if (w.refusal == 0) {
            CHECK(w.number ==
                  p * 67108864u + r * 33554432u + dp * 16777216u + pf * 65536u + ps * 256u + sa);
            id = model_identifier_read(w.number);
            CHECK(id.refusal == 0 && id.priority == p && id.reserved == r && id.data_page == dp && id.format == pf &&
                  id.specific == ps && id.source == sa);
            CHECK(model_identifier_read(w.number | 0x20000000u).refusal == 2);
        }
        /* every number below 2^29 is read, and what is read is written as it */
        const uint32_t number = any() & 0x1FFFFFFFu;
        id = model_identifier_read(number);
        w = model_identifier_write(id.priority, id.reserved, id.data_page, id.format, id.specific, id.source);
        CHECK(id.refusal == 0 && w.refusal == 0 && w.number == number);
    }
}

static void test_vehicle(void)
{
    unsigned found = 0;
    for (unsigned a = 0; a < 256; a++) {
        const uint8_t expected = place_of((uint8_t)a);
        CHECK(model_position_of((uint8_t)a) == expected);
        const model_next next = model_next_position((uint8_t)a);
        if (expected < 5) {
            CHECK(next.refusal == 0 && next.position == expected + 1);
            found++;
        } else {
            CHECK(next.refusal == 15 && next.position == 0);
        }
    }
    CHECK(found == 5);
    for (uint32_t p = 0; p < 300; p++) {
        CHECK(model_address_of(p) == (p < 6 ? vehicle[p] : 0));
    }
    CHECK(model_address_of(UINT32_MAX) == 0);
    CHECK(model_next_position(0xB1).position == 5 && model_address_of(5) == 0xA9);
    CHECK(model_next_position(0xA9).refusal == 15);
    CHECK(model_next_position(0xFF).refusal == 15);
}

static void check_route(uint32_t side, uint32_t own, uint8_t successor, uint32_t number,
                        size_t length)
{
    const model_routed r = model_route(side, own, successor, number, length);
    uint8_t refusal = 0, kept = 0, sent_on = 0;
    if (side > 1 || own == 0 || own > 5 || (own == 5 && successor)) {
        refusal = 1;
    } else if (number >= 0x20000000u) {
        refusal = 2;
    } else if (length > 8) {
        refusal = 3;
    } else {
        const uint8_t sa = (uint8_t)number, ps = (uint8_t)(number >> 8), pf = (uint8_t)(number >> 16);
        for (uint32_t p = 0; p < 6; p++) {
            if (vehicle[p] != sa) {
                continue;
            }
            if ((side == 0 && p < own) || (side == 1 && p > own && successor)) {
                kept = !(number & 0x02000000u) && (pf >= 240 || ps == vehicle[own] || ps == 255);
                sent_on = side == 1 ? 1 : successor ? 2 : 0;
            }
        }
    }
    CHECK(r.refusal == refusal && r.kept == kept && r.sent_on == sent_on);
    /* the same frame with R set: the same, but not kept */
    const model_routed s = model_route(side, own, successor, number | 0x02000000u, length);
    CHECK(s.refusal == refusal && !s.kept && s.sent_on == sent_on);
}

static void test_route(void)
{
    static const uint8_t formats[] = {0, 205, 206, 239, 240, 255};
    static const uint8_t specifics[] = {0, 0xEB, 0xC9, 0xC1, 0xB9, 0xB1, 0xA9, 0xFE, 0xFF, 200};
    for (uint32_t side = 0; side < 4; side++) {
        for (uint32_t own = 0; own < 9; own++) {
            for (uint8_t successor = 0; successor < 3; successor++) {
                for (uint32_t sa = 0; sa < 256; sa++) {
                    for (size_t f = 0; f < sizeof formats; f++) {
                        for (size_t s = 0; s < sizeof specifics; s++) {
                            check_route(side, own, successor,
                                        below(8) << 26 | below(2) << 24 |
                                            (uint32_t)formats[f] << 16 |
                                            (uint32_t)specifics[s] << 8 | sa,
                                        8);
                        }
                    }
                }
            }
        }
    }
    for (int i = 0; i < 200000; i++) {
        uint32_t number = below(3) ? any() & 0x3FFFFFFFu : any() & 0x1DFFFFFFu;
        if (below(2)) {
            number = (number & ~0xFFu) | vehicle[below(6)];
        }
        check_route(below(3), below(7), (uint8_t)below(2), number, below(11));
    }
    /* sent on also when it names this vehicle */
    model_routed r = model_route(0, 1, 1, 0x18CEC9EB, 8);
    CHECK(r.refusal == 0 && r.kept == 1 && r.sent_on == MODEL_SENT_SUCCESSOR);
    r = model_route(0, 1, 0, 0x18CEC9EB, 8);
    CHECK(r.refusal == 0 && r.kept == 1 && r.sent_on == MODEL_SENT_NOWHERE);
    r = model_route(1, 1, 1, 0x18CEC9C1, 8);
    CHECK(r.refusal == 0 && r.kept == 1 && r.sent_on == MODEL_SENT_PREDECESSOR);
    r = model_route(1, 1, 0, 0x18CEC9C1, 8);
    CHECK(r.refusal == 0 && r.kept == 0 && r.sent_on == 0);
    CHECK(model_route(1, 1, 0, 0x20000000, 8).refusal == 2);
    CHECK(model_route(9, 1, 0, 0x20000000, 9).refusal == 1);
    CHECK(model_route(0, 5, 1, 0x20000000, 9).refusal == 1);
    CHECK(model_route(0, 5, 0, 0x20000000, 9).refusal == 2);
    CHECK(model_route(0, 1, 1, 0x1FFFFFFF, 9).refusal == 3);
    /* R set: sent on, and not kept; its source is no vehicle: neither */
    r = model_route(0, 1, 1, 0x1AFE5DEB, 8);
    CHECK(r.refusal == 0 && r.kept == 0 && r.sent_on == MODEL_SENT_SUCCESSOR);
    r = model_route(0, 1, 1, 0x18FE5DEB, 8);
    CHECK(r.refusal == 0 && r.kept == 1 && r.sent_on == MODEL_SENT_SUCCESSOR);
    r = model_route(1, 1, 1, 0x1ACEC9C1, 8);
    CHECK(r.refusal == 0 && r.kept == 0 && r.sent_on == MODEL_SENT_PREDECESSOR);
    r = model_route(0, 1, 1, 0x1FFFFFFF, 8);
    CHECK(r.refusal == 0 && r.kept == 0 && r.sent_on == MODEL_SENT_NOWHERE);
    CHECK(model_route(UINT32_MAX, 1, 1, 0, 0).refusal == 1);
    CHECK(model_route(0, UINT32_MAX, 1, 0, 0).refusal == 1);
}

/* ---- a whole train ------------------------------------------------------------------------- */

/* Document 02, 2026-14: a frame passed hand to hand through the towing vehicle and its trailers, and where it came, in order. */
typedef struct {
    uint32_t trailers, number;
    size_t length;
    uint8_t own[6];
    struct {
        uint32_t at;
        uint8_t kept;
    } arrivals[16];
    size_t count;
} train;

/* "if the frame names it, is global or is a group message"; with R set no vehicle keeps it */
static uint8_t is_kept(uint32_t number, uint8_t address)
{
    const uint8_t specific = (uint8_t)(number >> 8), format = (uint8_t)(number >> 16);
    return !(number & 0x02000000u) && (format >= 240 || specific == address || specific == 255);
}

/* The vehicle at a place is handed the frame from that side of it; a trailer hands it on as its route says, the towing vehicle to nobody. */
static void hand(train *t, uint32_t place, uint32_t side)
{
    CHECK(t->count < 16 && place <= t->trailers);
    t->arrivals[t->count].at = place;
    if (place == 0) {
        t->arrivals[t->count++].kept = t->number < 0x20000000u && t->length <= 8 && is_kept(t->number, vehicle[0]);
        return;
    }
    const model_routed r = model_route(side, t->own[place], place < t->trailers, t->number, t->length);
    t->arrivals[t->count++].kept = r.kept;
    if (r.sent_on == MODEL_SENT_PREDECESSOR) {
        hand(t, place - 1, MODEL_SIDE_SUCCESSOR);
    } else if (r.sent_on == MODEL_SENT_SUCCESSOR) {
        hand(t, place + 1, MODEL_SIDE_PREDECESSOR);
    }
}

/* The sender hands the frame to each neighbour that it has. */
static void hand_out(train *t, uint32_t sender)
{
    if (sender > 0) {
        hand(t, sender - 1, MODEL_SIDE_SUCCESSOR);
    }
    if (sender < t->trailers) {
        hand(t, sender + 1, MODEL_SIDE_PREDECESSOR);
    }
}

/* Sent in a train where each trailer has taken its address from the vehicle before it. */
static train sent(uint32_t trailers, uint32_t sender, uint32_t number, size_t length)
{
    train t = {.trailers = trailers, .number = number, .length = length};
    for (uint32_t place = 1; place <= trailers; place++) {
        t.own[place] = model_next_position(model_address_of(t.own[place - 1])).position;
        CHECK(t.own[place] == place);
    }
    hand_out(&t, sender);
    return t;
}

/* How often it came to the vehicle at a place. */
static uint32_t times_at(const train *t, uint32_t place)
{
    uint32_t times = 0;
    for (size_t i = 0; i < t->count; i++) {
        times += t->arrivals[i].at == place;
    }
    return times;
}

/* "it comes to every other vehicle exactly once", each keeps it or not, "A frame never returns to its sender." */
static void check_delivery(uint32_t trailers, uint32_t sender, uint32_t number, size_t length)
{
    const train t = sent(trailers, sender, number, length);
    for (uint32_t place = 0; place < 6; place++) {
        CHECK(times_at(&t, place) == (place <= trailers && place != sender));
    }
    for (size_t i = 0; i < t.count; i++) {
        CHECK(t.arrivals[i].kept == is_kept(number, vehicle[t.arrivals[i].at]));
    }
}

/* Whatever SA it bears and whatever positions the trailers have, it comes to no vehicle twice and never to its sender. */
static void check_once(uint32_t trailers, uint32_t sender, uint32_t number, size_t length)
{
    train t = {.trailers = trailers, .number = number, .length = length};
    const uint8_t same = (uint8_t)below(2);
    for (uint32_t place = 1; place <= trailers; place++) {
        t.own[place] = same ? 1 : (uint8_t)below(7);
    }
    hand_out(&t, sender);
    for (uint32_t place = 0; place < 6; place++) {
        CHECK(times_at(&t, place) <= (place <= trailers && place != sender));
    }
}

/* Where it comes, in order, and who of them keeps it. */
static void check_arrivals(train t, const char *at, const char *kept)
{
    char came[17] = "", keeps[17] = "";
    for (size_t i = 0; i < t.count; i++) {
        came[i] = (char)('0' + t.arrivals[i].at);
        keeps[i] = t.arrivals[i].kept ? '+' : '-';
    }
    CHECK(strcmp(came, at) == 0 && strcmp(keeps, kept) == 0);
}

static void test_train(void)
{
    static const uint8_t formats[] = {0, 205, 206, 239, 240, 254, 255};
    for (uint32_t trailers = 0; trailers <= 5; trailers++) {
        for (uint32_t sender = 0; sender <= trailers; sender++) {
            for (size_t f = 0; f < sizeof formats; f++) {
                for (uint32_t specific = 0; specific < 256; specific++) {
                    const uint32_t rest = any(), other = any();
                    const uint32_t number = (rest & 0x1D000000u) | (uint32_t)formats[f] << 16 | specific << 8;
                    check_delivery(trailers, sender, number | vehicle[sender], rest % 9);
                    check_delivery(trailers, sender, number | 0x02000000u | vehicle[sender], rest % 9);
                    check_once(trailers, sender, number | specific, rest % 11);
                    check_once(trailers, sender, other, rest % 11);
                }
            }
        }
    }
    check_arrivals(sent(5, 2, 0x18CEB9C1, 8), "10345", "--+--");
    check_arrivals(sent(5, 2, 0x18CDFFC1, 8), "10345", "+++++");
    check_arrivals(sent(5, 2, 0x1ACDFFC1, 8), "10345", "-----");
    check_arrivals(sent(2, 0, 0x18FE5DEB, 8), "12", "++");
    check_arrivals(sent(2, 1, 0x18CEC9C9, 8), "02", "--");
    check_arrivals(sent(5, 5, 0x18CEEBA9, 8), "43210", "----+");
    check_arrivals(sent(0, 0, 0x18CEC9EB, 8), "", "");
    /* two at position 1, before they have taken their addresses: the first stops what the second sends */
    train alike = {.trailers = 2, .number = 0x18CEEBC9, .length = 8, .own = {0, 1, 1}};
    hand_out(&alike, 2);
    check_arrivals(alike, "1", "-");
    /* what 2 or 3 refuses comes to the sender's neighbours alone, and nobody keeps it */
    check_arrivals(sent(5, 2, 0x38CDFFC1, 8), "13", "--");
    check_arrivals(sent(5, 2, 0x18CDFFC1, 9), "13", "--");
    check_arrivals(sent(5, 1, 0x18CDFFC9, 9), "02", "--");
}

/* ---- readings ------------------------------------------------------------------------------ */

static void test_readings(void)
{
    static const int bytes[8] = {1, 1, 1, 1, 2, 2, 2, 2};
    static const int divisor[8] = {1, 1, 1, 1, 256, 8, 1, 32};
    static const int offset[8] = {-125, -125, 0, 0, 0, 0, 0, -273};
    for (uint32_t kind = 0; kind < 10; kind++) {
        for (uint32_t raw = 0; raw < 70000; raw++) {
            const model_reading r = model_read(kind, raw);
            if (kind > 7 || raw > (bytes[kind] == 1 ? 255u : 65535u)) {
                CHECK(r.refusal == 20 && r.outcome == 0 && r.whole == 0 && r.value == 0.0f &&
                      !signbit(r.value));
                continue;
            }
            const uint32_t unit = bytes[kind] == 1 ? 1 : 256;
            const uint8_t outcome = raw < 251 * unit ? (kind == 2 && raw >= 126 ? 4 : 0)
                                    : raw < 252 * unit ? 5
                                    : raw < 254 * unit ? 1
                                    : raw < 255 * unit ? 2
                                                       : 3;
            CHECK(r.refusal == 0 && r.outcome == outcome);
            if (outcome == 0) {
                const int whole = (int)raw + offset[kind] * divisor[kind];
                CHECK(r.whole == whole);
                CHECK((double)r.value * divisor[kind] == (double)whole);
            } else {
                CHECK(r.whole == 0 && r.value == 0.0f);
            }
            if (r.value == 0.0f) {
                CHECK(!signbit(r.value));
            }
        }
        CHECK(model_read(kind, UINT32_MAX).refusal == 20);
        CHECK(model_read(kind, 65536).refusal == 20);
    }
    CHECK(model_read(200, 0).refusal == 20 && model_read(UINT32_MAX, 0).refusal == 20);
    CHECK(model_read(0, 125).value == 0.0f && model_read(0, 125).whole == 0);
    CHECK(model_read(0, 0).value == -125.0f);
    CHECK(model_read(7, 8736).value == 0.0f);
    CHECK(model_read(7, 8735).value == -1.0f / 32.0f && model_read(7, 8735).whole == -1);
    CHECK(model_read(7, 64255).value == 55519.0f / 32.0f && model_read(7, 64255).whole == 55519);
    CHECK(model_read(7, 64256).outcome == MODEL_INDICATOR && model_read(7, 64511).outcome == MODEL_INDICATOR);
    CHECK(model_read(7, 64512).outcome == MODEL_RESERVED && model_read(7, 65023).outcome == MODEL_RESERVED);
    CHECK(model_read(7, 65024).outcome == MODEL_ERROR);
    CHECK(model_read(7, 65279).outcome == MODEL_ERROR);
    CHECK(model_read(7, 65280).outcome == MODEL_NOT_AVAILABLE);
    CHECK(model_read(2, 125).outcome == 0 && model_read(2, 125).value == 125.0f);
    CHECK(model_read(2, 126).outcome == 4 && model_read(2, 250).outcome == 4);
    CHECK(model_read(2, 251).outcome == 5 && model_read(2, 252).outcome == 1 && model_read(2, 253).outcome == 1);
    CHECK(model_read(2, 254).outcome == 2 && model_read(2, 255).outcome == 3);
    CHECK(model_read(3, 250).value == 250.0f && model_read(3, 251).outcome == 5);
    CHECK(model_read(0, 250).outcome == 0 && model_read(0, 250).value == 125.0f);
    CHECK(model_read(0, 251).outcome == 5 && model_read(0, 252).outcome == 1);
    CHECK(model_read(0, 253).outcome == 1 && model_read(0, 254).outcome == 2);
    for (uint32_t raw = 0; raw < 300; raw++) {
        const model_two_bits r = model_read_two_bits(raw);
        CHECK(raw < 4 ? r.refusal == 0 && r.outcome == raw : r.refusal == 20 && r.outcome == 0);
    }
    CHECK(model_read_two_bits(UINT32_MAX).refusal == 20);
}

/* ---- node ---------------------------------------------------------------------------------- */

static model_node fresh_at(uint32_t position, uint8_t unit)
{
    model_node node = {0};
    CHECK(model_fresh(&node, position, unit) == 0);
    return node;
}

static void test_node(void)
{
    for (unsigned unit = 0; unit < 256; unit++) {
        const model_node node = model_start((uint8_t)unit);
        CHECK(node.own == 1 && node.unit == unit && model_node_keeps_rules(&node));
        for (int p = 0; p < 6; p++) {
            CHECK(is_closed(&node.receptions[p]));
        }
        /* whatever stood in the node, a fresh one has it no more, and a refused one has it still */
        model_node found = {.own = 77, .unit = 300};
        found.receptions[4] = (model_reception){.open = 1, .length = 900, .frames = 400, .stamp = 12};
        for (uint32_t p = 0; p < 12; p++) {
            const uint32_t position = p < 9 ? p : p == 9 ? 257 : p == 10 ? 261 : UINT32_MAX;
            const int is_made = position >= 1 && position <= 5;
            const model_node expected = {.own = position, .unit = unit};
            model_node made = found;
            CHECK(model_fresh(&made, position, (uint8_t)unit) == (is_made ? 0 : 1));
            CHECK(same_node(&made, is_made ? &expected : &found));
        }
    }

    /* the rules of a reception, all lengths and frames */
    for (unsigned p = 0; p < 6; p++) {
        for (unsigned open = 0; open < 4; open++) {
            for (unsigned length = 0; length < 256; length++) {
                for (unsigned frames = 0; frames < 256; frames++) {
                    model_node node = model_start(5);
                    node.receptions[p] = (model_reception){.open = (uint8_t)open,
                                                           .length = length,
                                                           .frames = frames,
                                                           .stamp = 0};
                    const int keeps = open == 1 ? length >= 7 && 5 + 6 * frames < length
                                                : open == 0 && length == 0 && frames == 0;
                    CHECK(model_node_keeps_rules(&node) == keeps);
                    if (keeps) {
                        node.receptions[p].stamp = 1;
                        CHECK(model_node_keeps_rules(&node) == (open == 1));
                    }
                }
            }
        }
    }
    for (unsigned own = 0; own < 600; own++) {
        model_node node = model_start(5);
        node.own = own;
        CHECK(model_node_keeps_rules(&node) == (own >= 1 && own <= 5));
    }
    /* an open reception at the own position breaks no rule */
    model_node node = model_start(5);
    node.receptions[1] = (model_reception){.open = 1, .length = 7, .stamp = 3};
    CHECK(model_node_keeps_rules(&node) == 1);

    /* taking an address */
    for (unsigned own = 1; own <= 5; own++) {
        for (unsigned sa = 0; sa < 256; sa++) {
            model_node before = fresh_at(own, 9);
            before.receptions[0] = (model_reception){.open = 1, .length = 255, .frames = 41, .stamp = 7};
            before.receptions[5] = (model_reception){.open = 1, .length = 7, .frames = 0, .stamp = 0};
            model_node after = before;
            const uint8_t refusal = model_take_address(&after, (uint8_t)sa);
            const uint8_t from = place_of((uint8_t)sa);
            if (from >= 5) {
                CHECK(refusal == 15 && same_node(&before, &after));
            } else if (from + 1u == own) {
                CHECK(refusal == 0 && same_node(&before, &after));
            } else {
                const model_node fresh = fresh_at(from + 1u, 9);
                CHECK(refusal == 0 && same_node(&fresh, &after));
            }
            before.receptions[3].stamp = 1;
            after = before;
            CHECK(model_take_address(&after, (uint8_t)sa) == 1 && same_node(&before, &after));
        }
    }
}

/* ---- receiver ------------------------------------------------------------------------------ */

static uint8_t buffer[MODEL_BUFFER_LENGTH];

static uint32_t physical(uint32_t to, uint32_t from)
{
    return 0x18CE0000u | (uint32_t)vehicle[to] << 8 | vehicle[from];
}

static uint32_t functional(uint32_t from)
{
    return 0x18CDFF00u | vehicle[from];
}

/* The data lies in a block of its own size, so that a read past it is found. */
static model_outcome offer(model_node *node, uint32_t number, const uint8_t *data, size_t length,
                           uint32_t stamp)
{
    uint8_t *own = malloc(length ? length : 1);
    if (own == NULL) {
        abort();
    }
    if (length) {
        memcpy(own, data, length);
    }
    const model_outcome r = model_receive(node, buffer, sizeof buffer, number, own, length, stamp);
    free(own);
    return r;
}

#define OFFER(node, number, stamp, ...)                                                     \
    offer(node, number, (const uint8_t[]){__VA_ARGS__}, sizeof((const uint8_t[]){__VA_ARGS__}), \
          stamp)

static void test_receiver_worked(void)
{
    /* the 11-byte request */
    model_node node = model_start(5);
    memset(buffer, 0xEE, sizeof buffer);
    CHECK(is_continue(OFFER(&node, 0x18CEC9EB, 10, 5, 0x10, 0x0B, 0x22, 0xF1, 0x90, 0xF1, 0x87), 0));
    CHECK(is_open(&node.receptions[0], 11, 0, 10));
    model_node second = node;
    CHECK(is_train(OFFER(&node, 0x18CEC9EB, 20, 5, 0x21, 0xF1, 0x8C, 0xF1, 0x95, 0xF1, 0x97), 0, 11));
    CHECK(is_closed(&node.receptions[0]));
    CHECK(memcmp(buffer, "\x22\xF1\x90\xF1\x87\xF1\x8C\xF1\x95\xF1\x97\xEE", 12) == 0);
    for (size_t i = 11; i < sizeof buffer; i++) {
        CHECK(buffer[i] == 0xEE);
    }
    /* number 2 instead */
    CHECK(is_refusal(OFFER(&second, 0x18CEC9EB, 20, 5, 0x22, 0xF1, 0x8C, 0xF1, 0x95, 0xF1, 0x97), 13));
    CHECK(is_closed(&second.receptions[0]));

    /* stamps that run round */
    node = model_start(5);
    CHECK(is_continue(OFFER(&node, 0x18CEC9EB, 0xFFFFFFF0, 5, 0x10, 7, 1, 2, 3, 4, 5), 0));
    second = node;
    CHECK(is_train(OFFER(&node, 0x18CEC9EB, 0x00000086, 5, 0x21, 6, 7), 0, 7));
    CHECK(is_refusal(OFFER(&second, 0x18CEC9EB, 0x00000087, 5, 0x21, 6, 7), 14));
    CHECK(is_closed(&second.receptions[0]));

    /* a stamp that goes back is late; the same stamp is in time */
    node = model_start(5);
    OFFER(&node, 0x18CEC9EB, 100, 5, 0x10, 7, 1, 2, 3, 4, 5);
    second = node;
    CHECK(is_refusal(OFFER(&node, 0x18CEC9EB, 99, 5, 0x21, 6, 7), 14));
    CHECK(is_train(OFFER(&second, 0x18CEC9EB, 100, 5, 0x21, 6, 7), 0, 7));
}

static void test_receiver_order(void)
{
    const uint8_t single[9] = {5, 1, 0x3E};
    model_node node = model_start(5);
    const model_node start = node;

    /* 1 */
    CHECK(is_refusal(model_receive(&node, buffer, 1535, 0x20000000, single, 9, 0), 1));
    CHECK(is_refusal(model_receive(&node, buffer, 0, 0x18CEC9EB, single, 3, 0), 1));
    CHECK(is_refusal(model_receive(&node, NULL, 0, 0x18CEC9EB, NULL, 0, 0), 1));
    node.own = 0;
    CHECK(is_refusal(offer(&node, 0x18CEC9EB, single, 3, 0), 1));
    node.own = 6;
    CHECK(is_refusal(offer(&node, 0x18CEC9EB, single, 3, 0), 1));
    node.own = 1;
    for (unsigned p = 0; p < 6; p++) {
        node.receptions[p].frames = 1;
        CHECK(is_refusal(offer(&node, 0x20000000, single, 3, 0), 1));
        node.receptions[p].frames = 0;
    }
    CHECK(same_node(&node, &start));
    /* 2, 3, 4 */
    const uint8_t nine[9] = {5, 1, 0x3E};
    CHECK(is_refusal(offer(&node, 0x20000000, nine, 9, 0), 2));
    CHECK(is_refusal(offer(&node, 0x1FFFFFFF, nine, 9, 0), 3));
    CHECK(is_refusal(offer(&node, 0x18CEC9EB, nine, 9, 0), 3));
    CHECK(is_refusal(model_receive(&node, buffer, 1536, 0x18CEC9EB, NULL, SIZE_MAX, 0), 3));
    CHECK(is_refusal(offer(&node, 0x1ACEC9EB, nine, 8, 0), 4));
    CHECK(is_refusal(offer(&node, 0x1FFFFFFF, nine, 8, 0), 4));
    CHECK(is_refusal(offer(&node, 0x1AFE5DEB, nine, 8, 0), 4));
    for (int i = 0; i < 2000; i++) {
        CHECK(is_refusal(offer(&node, (any() & 0x1FFFFFFFu) | 0x02000000u, nine, below(9), any()), 4));
    }
    CHECK(is_single(offer(&node, 0x18CEC9EB, nine, 8, 0), 0, 0, 1));
    /* 5 before 6 before 7 before 8 */
    CHECK(is_refusal(offer(&node, 0x19CEC900, single, 0, 0), 5));
    CHECK(is_refusal(offer(&node, 0x19CEC9EB, single, 3, 0), 5));
    CHECK(is_refusal(offer(&node, 0x19CDFFEB, single, 3, 0), 5));
    CHECK(is_refusal(offer(&node, 0x18CCC9EB, single, 3, 0), 5));
    CHECK(is_refusal(offer(&node, 0x18CFC9EB, single, 3, 0), 5));
    CHECK(is_refusal(offer(&node, 0x18CE0000, single, 0, 0), 6));
    CHECK(is_refusal(offer(&node, 0x18CEC9C9, single, 3, 0), 6));
    CHECK(is_refusal(offer(&node, 0x18CEC9FF, single, 3, 0), 6));
    CHECK(is_refusal(offer(&node, 0x18CDFFC9, single, 3, 0), 6));
    CHECK(is_refusal(offer(&node, 0x18CEFFEB, single, 0, 0), 7));
    CHECK(is_refusal(offer(&node, 0x18CEC1EB, single, 3, 0), 7));
    CHECK(is_refusal(offer(&node, 0x18CDC9EB, single, 3, 0), 7));
    CHECK(is_refusal(model_receive(&node, buffer, 1536, 0x18CEC9EB, NULL, 0, 0), 8));
    CHECK(is_refusal(OFFER(&node, 0x18CEC9EB, 0, 4), 8));
    CHECK(is_refusal(OFFER(&node, 0x18CEC9EB, 0, 4, 1, 1), 8));
    CHECK(is_refusal(OFFER(&node, 0x18CEC9EB, 0, 5), 9));
    CHECK(is_refusal(OFFER(&node, 0x18CDFFEB, 0, 5), 9));
    CHECK(same_node(&node, &start));

    /* every priority is taken */
    for (uint32_t p = 0; p < 8; p++) {
        CHECK(is_single(offer(&node, p << 26 | 0x00CEC9EB, single, 3, 0), 0, 0, 1));
        CHECK(is_single(offer(&node, p << 26 | 0x00CDFFEB, single, 3, 0), 0, 1, 1));
    }

    /* every second byte with every length, nothing open, physical and functional */
    for (unsigned second = 0; second < 256; second++) {
        for (size_t length = 2; length <= 8; length++) {
            for (unsigned third = 0; third < 256; third++) {
                const uint8_t data[8] = {5, (uint8_t)second, (uint8_t)third, 1, 2, 3, 4, 5};
                const unsigned high = second / 16, low = second % 16;
                const int single_fits = high == 0 && low >= 1 && low <= 6 && length >= 2 + low;
                node = start;
                model_outcome r = offer(&node, functional(2), data, length, 77);
                CHECK(single_fits ? is_single(r, 2, 1, (uint8_t)low) : is_refusal(r, 9));
                CHECK(same_node(&node, &start));
                r = offer(&node, physical(1, 2), data, length, 77);
                if (high == 0) {
                    CHECK(single_fits ? is_single(r, 2, 0, (uint8_t)low) : is_refusal(r, 9));
                } else if (high == 1 && length == 8 && low * 256 + third > 255) {
                    CHECK(is_overflow(r, 2));
                } else if (high == 1 && length == 8 && third >= 7) {
                    CHECK(is_continue(r, 2) && is_open(&node.receptions[2], third, 0, 77));
                    continue;
                } else {
                    CHECK(is_refusal(r, high == 2 ? 12 : high == 3 ? 10 : 9));
                }
                CHECK(same_node(&node, &start));
            }
        }
    }
}

static void test_receiver_open(void)
{
    /* what ends an open reception, and what does not */
    model_node open = model_start(5);
    open.receptions[0] = (model_reception){.open = 1, .length = 20, .frames = 0, .stamp = 1000};
    open.receptions[3] = (model_reception){.open = 1, .length = 20, .frames = 1, .stamp = 900};
    model_node node;
    model_node expected;

#define STAYS(refusal_, number, stamp, ...)                               \
    do {                                                                  \
        node = open;                                                      \
        CHECK(is_refusal(OFFER(&node, number, stamp, __VA_ARGS__), refusal_)); \
        CHECK(same_node(&node, &open));                                   \
    } while (0)

    STAYS(9, physical(1, 0), 1001, 5);
    STAYS(9, physical(1, 0), 1001, 5, 0x00, 1);
    STAYS(9, physical(1, 0), 1001, 5, 0x02, 1);
    STAYS(9, physical(1, 0), 1001, 5, 0x07, 1, 2, 3, 4, 5, 6);
    STAYS(9, physical(1, 0), 1001, 5, 0x10, 0x0B, 1, 2, 3, 4);
    STAYS(9, physical(1, 0), 1001, 5, 0x1F, 0xFF, 1, 2, 3, 4);
    STAYS(9, physical(1, 0), 1001, 5, 0x10, 0x06, 1, 2, 3, 4, 5);
    STAYS(9, physical(1, 0), 1001, 5, 0x21, 1, 2, 3, 4, 5);
    STAYS(9, physical(1, 0), 9999, 5, 0x22, 1, 2, 3, 4, 5);
    STAYS(9, physical(1, 0), 1001, 5, 0x21);
    STAYS(9, physical(1, 0), 1001, 5, 0x40, 2, 3, 4, 5, 6, 7);
    STAYS(9, physical(1, 0), 1001, 5, 0xF0, 2, 3, 4, 5, 6, 7);
    STAYS(10, physical(1, 0), 1001, 5, 0x30, 0, 0);
    STAYS(10, physical(1, 0), 1001, 5, 0x3F);
    STAYS(12, physical(1, 2), 1001, 5, 0x21, 1, 2, 3, 4, 5, 6);
    STAYS(12, physical(1, 2), 1001, 5, 0x21);
    STAYS(9, functional(0), 1001, 5, 0x21, 1, 2, 3, 4, 5, 6);
    STAYS(9, functional(0), 1001, 5, 0x10, 0x0B, 1, 2, 3, 4, 5);
    STAYS(9, functional(0), 1001, 5, 0x11, 0x00, 1, 2, 3, 4, 5);
    STAYS(9, functional(0), 1001, 5, 0x30, 0, 0);
    STAYS(9, functional(2), 1001, 5, 0x21, 1, 2, 3, 4, 5, 6);
#undef STAYS

    node = open;
    CHECK(is_single(OFFER(&node, functional(0), 1001, 5, 0x02, 1, 2), 0, 1, 2));
    CHECK(same_node(&node, &open));
    CHECK(is_single(OFFER(&node, physical(1, 2), 1001, 5, 0x02, 1, 2), 2, 0, 2));
    CHECK(same_node(&node, &open));

    expected = open;
    expected.receptions[0] = (model_reception){0};
    CHECK(is_single(OFFER(&node, physical(1, 0), 1001, 5, 0x02, 1, 2), 0, 0, 2));
    CHECK(same_node(&node, &expected));
    node = open;
    CHECK(is_overflow(OFFER(&node, physical(1, 0), 1001, 5, 0x11, 0x00, 1, 2, 3, 4, 5), 0));
    CHECK(same_node(&node, &expected));
    node = open;
    CHECK(is_refusal(OFFER(&node, physical(1, 0), 1001, 5, 0x20, 1, 2, 3, 4, 5, 6), 13));
    CHECK(same_node(&node, &expected));
    node = open;
    CHECK(is_refusal(OFFER(&node, physical(1, 0), 1151, 5, 0x22, 1, 2, 3, 4, 5, 6), 13));
    CHECK(same_node(&node, &expected));
    node = open;
    CHECK(is_refusal(OFFER(&node, physical(1, 0), 1151, 5, 0x21, 1, 2, 3, 4, 5, 6), 14));
    CHECK(same_node(&node, &expected));
    node = open;
    CHECK(is_taken(OFFER(&node, physical(1, 0), 1150, 5, 0x21, 1, 2, 3, 4, 5, 6)));
    expected.receptions[0] =
        (model_reception){.open = 1, .length = 20, .frames = 1, .stamp = 1150};
    CHECK(same_node(&node, &expected));
    node = open;
    CHECK(is_continue(OFFER(&node, physical(1, 0), 5, 5, 0x10, 0x07, 1, 2, 3, 4, 5), 0));
    expected.receptions[0] = (model_reception){.open = 1, .length = 7, .frames = 0, .stamp = 5};
    CHECK(same_node(&node, &expected));

    /* two messages of two vehicles, interleaved; a frame passed over sets no stamp */
    node = open;
    CHECK(is_taken(OFFER(&node, physical(1, 0), 1010, 5, 0x21, 1, 2, 3, 4, 5, 6)));
    CHECK(is_taken(OFFER(&node, physical(1, 3), 1011, 5, 0x22, 1, 2, 3, 4, 5, 6)));
    CHECK(is_refusal(OFFER(&node, physical(1, 3), 1161, 5, 0x23, 1, 2), 9));
    model_node late = node;
    CHECK(is_refusal(OFFER(&late, physical(1, 3), 1162, 5, 0x23, 1, 2, 3), 14));
    CHECK(is_train(OFFER(&node, physical(1, 3), 1161, 5, 0x23, 1, 2, 3), 3, 20));
    CHECK(is_open(&node.receptions[0], 20, 1, 1010));

    /* a last frame with more bytes than it needs */
    node = model_start(5);
    memset(buffer, 0xEE, sizeof buffer);
    OFFER(&node, physical(1, 4), 0, 5, 0x10, 7, 1, 2, 3, 4, 5);
    CHECK(is_train(OFFER(&node, physical(1, 4), 0, 5, 0x21, 6, 7, 8, 9, 10, 11), 4, 7));
    CHECK(memcmp(buffer + 1024, "\1\2\3\4\5\6\7\xEE\xEE", 9) == 0);
    CHECK(buffer[1023] == 0xEE);

    /* an open reception at the own position changes nothing */
    node = model_start(5);
    node.receptions[1] = (model_reception){.open = 1, .length = 20, .frames = 0, .stamp = 1000};
    expected = node;
    CHECK(is_refusal(OFFER(&node, physical(1, 1), 1000, 5, 0x21, 1, 2, 3, 4, 5, 6), 6));
    CHECK(is_single(OFFER(&node, physical(1, 0), 1000, 5, 1, 1), 0, 0, 1));
    CHECK(same_node(&node, &expected));
}

/* ---- numbers that are no bytes -------------------------------------------------------------- */

/* Refusal 1, whatever is asked; the node and the buffer stay. */
static void check_broken(const model_node *broken)
{
    static const uint8_t offered[][8] = {
        {5, 0x01, 0x3E},                         /* single */
        {5, 0x10, 0x0B, 1, 2, 3, 4, 5},          /* first */
        {5, 0x11, 0x00, 1, 2, 3, 4, 5},          /* over-long */
        {5, 0x21, 1, 2, 3, 4, 5, 6},             /* consecutive, in order after none and after one */
        {5, 0x22, 1, 2, 3, 4, 5, 6},
        {5, 0x2F, 1, 2, 3, 4, 5, 6},             /* out of order */
        {5, 0x30},                               /* flow control */
    };
    static uint8_t before[MODEL_BUFFER_LENGTH];
    model_node node = *broken;
    CHECK(model_node_keeps_rules(&node) == 0);
    for (unsigned from = 0; from < 6; from++) {
        CHECK(model_take_address(&node, vehicle[from]) == 1 && same_node(&node, broken));
    }
    CHECK(model_take_address(&node, 0xFF) == 1 && same_node(&node, broken));
    for (unsigned i = 0; i < sizeof buffer; i++) {
        buffer[i] = (uint8_t)any();
    }
    memcpy(before, buffer, sizeof before);
    for (uint32_t from = 0; from < 6; from++) {
        for (size_t k = 0; k < sizeof offered / sizeof offered[0]; k++) {
            for (uint32_t to = 1; to < 6; to++) {
                CHECK(is_refusal(offer(&node, physical(to, from), offered[k], 8, 1000), 1));
            }
            CHECK(is_refusal(offer(&node, functional(from), offered[k], 8, 1000), 1));
            CHECK(same_node(&node, broken));
        }
        CHECK(is_refusal(offer(&node, 0x20000000, offered[0], 8, 1000), 1));
    }
    CHECK(same_node(&node, broken) && memcmp(buffer, before, sizeof before) == 0);
}

static void test_no_bytes(void)
{
    /* the least, the most, those whose low byte is what the node has, and those whose sixfold is small in 32 bits */
    static const uint32_t numbers[] = {256,        257,        261,        256 + 20,   512,        65536 + 1,
                                       65536 + 5,  65536 + 20, 0x2AAAAAAB, 0x55555556, 0x7FFFFFFF, 0x80000000,
                                       0x80000001, 0xAAAAAAAB, 0xFFFFFF01, 0xFFFFFF05, UINT32_MAX};
    for (uint32_t own = 1; own < 6; own++) {
        model_node whole = fresh_at(own, 5);
        whole.receptions[0] = (model_reception){.open = 1, .length = 20, .frames = 1, .stamp = 1000};
        whole.receptions[3] = (model_reception){.open = 1, .length = 255, .frames = 0, .stamp = 950};
        for (size_t i = 0; i < sizeof numbers / sizeof numbers[0]; i++) {
            const uint32_t number = numbers[i];
            model_node node = whole;
            CHECK(model_node_keeps_rules(&node) == 1);
            node.own = number;
            check_broken(&node);
            node = whole;
            node.unit = number;
            check_broken(&node);
            for (unsigned p = 0; p < 6; p++) {
                const model_reception taken[] = {
                    {.open = 1, .length = number, .frames = 0, .stamp = 1000},
                    {.open = 1, .length = number, .frames = 1, .stamp = 1000},
                    {.open = 1, .length = 20, .frames = number, .stamp = 1000},
                    {.open = 1, .length = 255, .frames = number, .stamp = 1000},
                    {.open = 1, .length = number, .frames = number, .stamp = 1000},
                    {.open = 0, .length = 0, .frames = number, .stamp = 0},
                };
                for (size_t k = 0; k < sizeof taken / sizeof taken[0]; k++) {
                    node = whole;
                    node.receptions[p] = taken[k];
                    check_broken(&node);
                }
                /* the stamp is any number */
                node = whole;
                node.receptions[p] = (model_reception){.open = 1, .length = 255, .frames = 41, .stamp = number};
                CHECK(model_node_keeps_rules(&node) == 1);
            }
        }
    }
    for (uint32_t unit = 0; unit < 600; unit++) {
        model_node node = model_start(5);
        node.unit = unit;
        CHECK(model_node_keeps_rules(&node) == (unit <= 255));
    }
}

/* ---- cutter, and back through the receiver ------------------------------------------------- */

static void test_cutter(void)
{
    uint8_t message[256];
    for (unsigned i = 0; i < sizeof message; i++) {
        message[i] = (uint8_t)any();
    }
    CHECK(model_frame_count(0) == 0 && model_frame_count(256) == 0);
    CHECK(model_frame_count(SIZE_MAX) == 0);
#if SIZE_MAX > UINT32_MAX
    CHECK(model_frame_count((size_t)UINT32_MAX + 2) == 0);
#endif
    CHECK(model_frame_count(1) == 1 && model_frame_count(6) == 1);
    CHECK(model_frame_count(7) == 2 && model_frame_count(11) == 2 && model_frame_count(12) == 3);
    CHECK(model_frame_count(17) == 3 && model_frame_count(18) == 4);
    CHECK(model_frame_count(255) == 43);

    const model_frame last = model_cut(message, 255, 42, 0, 1, 5);
    CHECK(last.refusal == 0 && last.length == 6 && last.data[1] == 0x2A && last.data[0] == 5);
    CHECK(memcmp(last.data + 2, message + 251, 4) == 0 && last.data[6] == 0 && last.data[7] == 0);
    CHECK(model_cut(message, 255, 15, 0, 1, 5).data[1] == 0x2F);
    CHECK(model_cut(message, 255, 16, 0, 1, 5).data[1] == 0x20);
    CHECK(model_cut(message, 255, 17, 0, 1, 5).data[1] == 0x21);
    CHECK(model_cut(message, 7, 1, 0, 1, 5).length == 4);
    CHECK(model_cut(message, 7, 1, 0, 1, 5).identifier == 0x18CEC9EB);

    const model_frame none = {.refusal = 16};
#define REFUSED(...)                                                                   \
    do {                                                                               \
        const model_frame f_ = __VA_ARGS__;                                            \
        CHECK(f_.refusal == 16 && f_.identifier == 0 && f_.length == 0 &&              \
              memcmp(f_.data, none.data, 8) == 0);                                     \
    } while (0)
    REFUSED(model_cut(message, 0, 0, 0, 1, 5));
    REFUSED(model_cut(NULL, 0, 0, 0, 1, 5));
    REFUSED(model_cut(message, 256, 0, 0, 1, 5));
    REFUSED(model_cut(message, 6, 1, 0, 1, 5));
    REFUSED(model_cut(message, 7, 2, 0, 1, 5));
    REFUSED(model_cut(message, 255, 43, 0, 1, 5));
    REFUSED(model_cut(message, 255, UINT32_MAX, 0, 1, 5));
    REFUSED(model_cut(message, 7, 0, 6, 1, 5));
    REFUSED(model_cut(message, 7, 0, 1, 6, 5));
    REFUSED(model_cut(message, 7, 0, 3, 3, 5));
    REFUSED(model_cut(message, 7, 0, UINT32_MAX, 1, 5));
    REFUSED(model_flow_control(0, 1, 0, 5));
    REFUSED(model_flow_control(3, 1, 0, 5));
    REFUSED(model_flow_control(UINT32_MAX, 1, 0, 5));
    REFUSED(model_flow_control(1, 6, 0, 5));
    REFUSED(model_flow_control(1, 0, 6, 5));
    REFUSED(model_flow_control(2, 4, 4, 5));
#undef REFUSED
    const model_frame go = model_flow_control(MODEL_CONTINUE, 1, 0, 5);
    CHECK(go.refusal == 0 && go.identifier == 0x18CEEBC9 && go.length == 4);
    CHECK(memcmp(go.data, "\x05\x30\0\0\0\0\0\0", 8) == 0);
    const model_frame stop = model_flow_control(MODEL_OVERFLOW, 5, 0, 0xFF);
    CHECK(stop.refusal == 0 && stop.identifier == 0x18CEEBA9 && stop.length == 4);
    CHECK(memcmp(stop.data, "\xFF\x32\0\0\0\0\0\0", 8) == 0);
    CHECK(model_flow_control(MODEL_CONTINUE, 0, 5, 0).refusal == 0);

    for (unsigned length = 1; length <= 255; length++) {
        uint8_t *exact = malloc(length);
        if (exact == NULL) {
            abort();
        }
        memcpy(exact, message, length);
        const uint32_t count = model_frame_count(length);
        const uint32_t naive = length <= 6 ? 1 : 1 + (length - 5 + 5) / 6;
        CHECK(count == naive);
        for (uint32_t sender = 0; sender < 6; sender++) {
            for (uint32_t receiver = 1; receiver < 6; receiver++) {
                if (sender == receiver) {
                    continue;
                }
                model_node node = fresh_at(receiver, (uint8_t)length);
                const model_node start = node;
                uint32_t stamp = any();
                memset(buffer, 0xEE, sizeof buffer);
                unsigned total = 0;
                for (uint32_t i = 0; i < count; i++) {
                    const model_frame f =
                        model_cut(exact, length, i, sender, receiver, (uint8_t)length);
                    CHECK(f.refusal == 0 && f.identifier == physical(receiver, sender));
                    for (unsigned b = f.length; b < 8; b++) {
                        CHECK(f.data[b] == 0);
                    }
                    /* one byte less is refused, and changes nothing */
                    if (length > 6) {
                        model_node other = node;
                        CHECK(is_refusal(offer(&other, f.identifier, f.data, f.length - 1u, stamp), 9));
                        CHECK(same_node(&other, &node));
                    }
                    const model_outcome r = offer(&node, f.identifier, f.data, f.length, stamp);
                    total += f.length - (length > 6 && i == 0 ? 3u : 2u);
                    if (length <= 6) {
                        CHECK(is_single(r, (uint8_t)sender, 0, (uint8_t)length));
                        CHECK(memcmp(f.data + 2, exact, length) == 0);
                    } else if (i == 0) {
                        CHECK(is_continue(r, (uint8_t)sender));
                    } else if (i + 1 < count) {
                        CHECK(is_taken(r));
                        CHECK(is_open(&node.receptions[sender], length, i, stamp));
                    } else {
                        CHECK(is_train(r, (uint8_t)sender, (uint8_t)length));
                        CHECK(memcmp(buffer + r.start, exact, length) == 0);
                    }
                    CHECK(model_node_keeps_rules(&node));
                    stamp += below(151);
                }
                CHECK(total == length && same_node(&node, &start));
                for (size_t b = 0; b < sizeof buffer; b++) {
                    if (length <= 6 || b < 256 * sender || b >= 256 * sender + length) {
                        CHECK(buffer[b] == 0xEE);
                    }
                }
            }
        }
        free(exact);
    }
}

/* ---- random frames: what must stay, and complete trains by the sequence alone --------------- */

typedef struct {
    uint32_t number;
    uint8_t data[9];
    size_t length;
    uint32_t stamp;
} test_frame;

static test_frame some_frame(const model_node *node, uint32_t now)
{
    test_frame f = {.stamp = now};
    const uint32_t from = below(3);
    for (int i = 0; i < 9; i++) {
        f.data[i] = (uint8_t)any();
    }
    f.length = below(4) ? 8 : below(10);
    f.data[0] = (uint8_t)(below(40) ? node->unit : any());
    f.number = below(12) ? physical(node->own, from) : functional(from);
    switch (below(60)) {
    case 0:
        f.number = any();
        break;
    case 1:
        f.number ^= UINT32_C(1) << below(30);
        break;
    default:
        break;
    }
    switch (below(20)) {
    case 0:
        f.data[1] = (uint8_t)below(9);
        break;
    case 1:
        f.data[1] = (uint8_t)(0x30u + below(16));
        break;
    case 2:
        f.data[1] = (uint8_t)any();
        break;
    case 3:
        f.data[1] = (uint8_t)(0x20u + below(16));
        break;
    case 4:
    case 5:
        f.data[1] = below(12) ? 0x10 : (uint8_t)(0x10u + below(16));
        f.data[2] = (uint8_t)(below(3) ? 5u + below(30) : below(256));
        break;
    default:
        f.data[1] = (uint8_t)(0x20u + ((node->receptions[from].frames + 1u) & 15u));
        break;
    }
    return f;
}

/* A physical frame of that vehicle that refusals 2 to 8 do not name, with a second byte. */
static int of_vehicle(const test_frame *f, uint8_t own, uint32_t unit, uint32_t p)
{
    return (f->number & ~UINT32_C(0x1C000000)) ==
               (UINT32_C(206) << 16 | (uint32_t)vehicle[own] << 8 | vehicle[p]) &&
           f->length >= 2 && f->length <= 8 && f->data[0] == unit;
}

enum { SEQUENCE = 400 };

static void test_trains(void)
{
    static test_frame frames[SEQUENCE];
    static model_outcome outcomes[SEQUENCE];
    static uint8_t shown[SEQUENCE][256];
    unsigned long trains = 0;

    for (int run = 0; run < 300; run++) {
        const uint8_t own = (uint8_t)(3 + below(3));
        model_node node = fresh_at(own, (uint8_t)any());
        uint32_t now = any();
        for (int i = 0; i < SEQUENCE; i++) {
            now += below(100) ? below(20) : 120u + below(60);
            if (below(300) == 0) {
                now -= below(5);
            }
            frames[i] = some_frame(&node, now);
            const model_node before = node;
            uint8_t old[MODEL_BUFFER_LENGTH];
            memcpy(old, buffer, sizeof old);
            const model_outcome r =
                offer(&node, frames[i].number, frames[i].data, frames[i].length, now);
            outcomes[i] = r;
            CHECK(model_node_keeps_rules(&node));
            CHECK(node.own == before.own && node.unit == before.unit);
            const uint8_t from = place_of((uint8_t)frames[i].number);
            /* what must stay */
            for (uint32_t p = 0; p < 6; p++) {
                if (p != from) {
                    CHECK(same_reception(&node.receptions[p], &before.receptions[p]));
                }
            }
            size_t low = 0, high = 0;
            if (r.refusal != 0) {
                CHECK(r.refusal <= 14);
                if (r.refusal == 11 || r.refusal == 13 || r.refusal == 14) {
                    CHECK(is_closed(&node.receptions[from]));
                    CHECK(r.refusal == 11 ? is_overflow(r, from) : is_refusal(r, r.refusal));
                } else {
                    CHECK(is_refusal(r, r.refusal) && same_node(&node, &before));
                }
            } else if (r.kind == MODEL_SINGLE) {
                CHECK(is_single(r, from, r.functional, frames[i].data[1]));
                if (r.functional) {
                    CHECK(same_node(&node, &before));
                } else {
                    CHECK(is_closed(&node.receptions[from]));
                }
            } else if (r.control == MODEL_CONTINUE) {
                CHECK(is_continue(r, from));
                low = 256u * from;
                high = low + 5;
                CHECK(memcmp(buffer + low, frames[i].data + 3, 5) == 0);
            } else {
                const model_reception *const b = &before.receptions[from];
                const size_t taken = 5 + 6 * (size_t)b->frames;
                const size_t left = b->length - taken;
                CHECK(b->open == 1);
                low = 256u * from + taken;
                high = low + (left < 6 ? left : 6);
                CHECK(memcmp(buffer + low, frames[i].data + 2, high - low) == 0);
                if (r.kind == MODEL_TRAIN) {
                    CHECK(left <= 6 && is_train(r, from, (uint8_t)b->length));
                    CHECK(is_closed(&node.receptions[from]));
                    memcpy(shown[i], buffer + r.start, r.length);
                    trains++;
                } else {
                    CHECK(left > 6 && is_taken(r));
                    CHECK(is_open(&node.receptions[from], b->length, b->frames + 1, now));
                }
            }
            CHECK(memcmp(buffer, old, low) == 0);
            CHECK(memcmp(buffer + high, old + high, sizeof old - high) == 0);
        }

        /* the complete trains of the sequence alone are the trains handed out, no more, no less */
        static uint8_t ends[SEQUENCE];
        memset(ends, 0, sizeof ends);
        for (int s = 0; s < SEQUENCE; s++) {
            for (uint32_t p = 0; p < 6; p++) {
                const test_frame *const first = &frames[s];
                if (p == own || !of_vehicle(first, own, node.unit, p) || first->length != 8 ||
                    first->data[1] != 0x10 || first->data[2] < 7) {
                    continue;
                }
                const unsigned length = first->data[2];
                uint8_t message[256];
                unsigned count = 5, k = 0;
                uint32_t last = first->stamp;
                memcpy(message, first->data + 3, 5);
                for (int i = s + 1; i < SEQUENCE; i++) {
                    const test_frame *const f = &frames[i];
                    if (!of_vehicle(f, own, node.unit, p)) {
                        continue;
                    }
                    const unsigned high = f->data[1] >> 4, low = f->data[1] & 15u;
                    if (high >= 3) {
                        continue;
                    }
                    if (high == 0) {
                        if (low < 1 || low > 6 || f->length < 2 + low) {
                            continue;
                        }
                        break;
                    }
                    if (high == 1) {
                        if (f->length < 8 || low * 256 + f->data[2] < 7) {
                            continue;
                        }
                        break;
                    }
                    const unsigned need = length - count < 6 ? length - count : 6;
                    if (f->length < 2 + need) {
                        continue;
                    }
                    if (low != (k + 1) % 16 || (uint32_t)(f->stamp - last) > 150) {
                        break;
                    }
                    memcpy(message + count, f->data + 2, need);
                    count += need;
                    k++;
                    last = f->stamp;
                    if (count == length) {
                        CHECK(!ends[i]);
                        ends[i] = 1;
                        CHECK(is_train(outcomes[i], (uint8_t)p, (uint8_t)length));
                        CHECK(memcmp(shown[i], message, length) == 0);
                        break;
                    }
                }
            }
        }
        for (int i = 0; i < SEQUENCE; i++) {
            CHECK((outcomes[i].kind == MODEL_TRAIN) == ends[i]);
        }
    }
    CHECK(trains > 1000);

    /* states that are no states: always 1, nothing changes; states of any kind are answered */
    unsigned long broken = 0, whole = 0;
    for (int i = 0; i < 300000; i++) {
        model_node node = {.own = below(7), .unit = below(3)};
        for (int p = 0; p < 6; p++) {
            if (below(2)) {
                const uint32_t length = below(30) ? 7 + below(249) : below(512);
                node.receptions[p] = (model_reception){
                    .open = (uint8_t)(below(40) ? 1 : below(256)),
                    .length = length,
                    .frames = below(30) ? (length > 5 ? below((length - 1u - 5u) / 6 + 1) : 0) : below(512),
                    .stamp = any(),
                };
            }
        }
        const model_node before = node;
        const int keeps = model_node_keeps_rules(&node);
        const uint32_t own = node.own < 6 ? node.own : 0;
        test_frame f = some_frame(&(model_node){.own = own, .unit = node.unit}, any());
        if (below(4)) {
            const uint32_t p = place_of((uint8_t)f.number);
            if (p < 6) {
                f.stamp = node.receptions[p].stamp + below(200);
                if (below(2)) {
                    f.data[1] = (uint8_t)(0x20u + ((node.receptions[p].frames + 1u) & 15u));
                }
            }
        }
        const model_outcome r = offer(&node, f.number, f.data, f.length, f.stamp);
        if (!keeps) {
            CHECK(is_refusal(r, 1) && same_node(&node, &before));
            broken++;
        } else {
            CHECK(r.refusal != 1 && model_node_keeps_rules(&node));
            whole++;
        }
    }
    CHECK(broken > 10000 && whole > 10000);
}

/* ---- server -------------------------------------------------------------------------------- */

static uint8_t response[MODEL_RESPONSE_LENGTH];
static uint8_t response_before[MODEL_RESPONSE_LENGTH];

static model_answer ask(model_record *record, int is_functional, const uint8_t *request, size_t length)
{
    uint8_t *own = malloc(length ? length : 1);
    if (own == NULL) {
        abort();
    }
    memcpy(own, request, length);
    for (unsigned i = 0; i < sizeof response; i++) {
        response[i] = (uint8_t)any();
    }
    memcpy(response_before, response, sizeof response);
    const model_answer a =
        model_serve(record, own, length, (uint8_t)is_functional, response, sizeof response);
    free(own);
    CHECK(memcmp(response + a.sent, response_before + a.sent, sizeof response - a.sent) == 0);
    return a;
}

static int answered(model_record *record, int is_functional, const uint8_t *request, size_t length,
                    const uint8_t *expected, size_t expected_length)
{
    const model_answer a = ask(record, is_functional, request, length);
    return a.refusal == 0 && a.sent == expected_length &&
           memcmp(response, expected, expected_length) == 0;
}

#define BYTES(...) (const uint8_t[]){__VA_ARGS__}, sizeof((const uint8_t[]){__VA_ARGS__})
#define SILENT (const uint8_t[]){0}, 0

static int same_record(const model_record *a, const model_record *b)
{
    return memcmp(a->codes, b->codes, sizeof a->codes) == 0 &&
           memcmp(a->statuses, b->statuses, sizeof a->statuses) == 0 && a->count == b->count &&
           a->availability == b->availability &&
           memcmp(a->identifiers, b->identifiers, sizeof a->identifiers) == 0 &&
           memcmp(a->lengths, b->lengths, sizeof a->lengths) == 0 &&
           memcmp(a->bytes, b->bytes, sizeof a->bytes) == 0 && a->held == b->held;
}

static model_record some_record(void)
{
    model_record r;
    for (unsigned i = 0; i < 63; i++) {
        r.codes[i] = any();
        r.statuses[i] = (uint8_t)any();
    }
    for (unsigned i = 0; i < 16; i++) {
        r.identifiers[i] = (uint16_t)any();
        r.lengths[i] = (uint8_t)any();
    }
    for (unsigned i = 0; i < 512; i++) {
        r.bytes[i] = (uint8_t)any();
    }
    do {
        r.availability = (uint8_t)(any() | 0x49u);
    } while (!model_mask_keeps_rule(r.availability));
    r.count = (uint8_t)(below(4) ? below(64) : 63 * below(2));
    r.held = (uint8_t)below(17);
    uint32_t code = below(3);
    for (unsigned i = 0; i < r.count; i++) {
        r.codes[i] = code;
        r.statuses[i] = (uint8_t)(any() & r.availability);
        code += 1 + below(below(2) ? 3 : 200000);
    }
    uint32_t identifier = below(3);
    for (unsigned i = 0; i < r.held; i++) {
        r.identifiers[i] = (uint16_t)identifier;
        r.lengths[i] = (uint8_t)(1 + below(32));
        identifier += 1 + below(below(2) ? 3 : 4000);
    }
    return r;
}

static void test_record_rules(void)
{
    for (unsigned mask = 0; mask < 256; mask++) {
        const int b[8] = {mask & 1,         mask >> 1 & 1, mask >> 2 & 1, mask >> 3 & 1,
                          mask >> 4 & 1, mask >> 5 & 1, mask >> 6 & 1, mask >> 7 & 1};
        const int keeps = b[0] && b[3] && b[6] && (!b[2] || b[1]) && b[4] == b[5];
        CHECK(model_mask_keeps_rule((uint8_t)mask) == keeps);
        model_record r = {.availability = (uint8_t)mask};
        CHECK(model_record_keeps_rules(&r) == keeps);
    }
    CHECK(model_mask_keeps_rule(0x7F) && model_mask_keeps_rule(0x4B) && model_mask_keeps_rule(0x49));

    for (int i = 0; i < 2000; i++) {
        const model_record good = some_record();
        CHECK(model_record_keeps_rules(&good));
    }
    const model_record good = {
        .codes = {0, 1, 0xFFFFFE}, .statuses = {0x49, 0, 0x4B}, .count = 3, .availability = 0x4B,
        .identifiers = {0, 1, 0xFFFF}, .lengths = {1, 32, 32}, .held = 3};
    CHECK(model_record_keeps_rules(&good));
    model_record bad;
#define BROKEN(change)                                                     \
    do {                                                                   \
        bad = good;                                                        \
        change;                                                            \
        const model_record before_ = bad;                                  \
        CHECK(!model_record_keeps_rules(&bad));                            \
        const model_answer a_ = ask(&bad, 0, BYTES(0x3E, 0x00));           \
        CHECK(a_.refusal == 1 && a_.sent == 0);                            \
        CHECK(model_serve(&bad, NULL, 0, 0, NULL, 0).refusal == 1);        \
        CHECK(model_set_status(&bad, 0x77, 0xFF) == 1);                    \
        CHECK(same_record(&bad, &before_));                                \
    } while (0)
    BROKEN(bad.statuses[0] = 0x04);
    BROKEN(bad.statuses[0] = 0x80);
    BROKEN((bad.codes[0] = 0xFFFFFF, bad.count = 1));
    BROKEN((bad.codes[0] = UINT32_MAX, bad.count = 1));
    BROKEN((bad.lengths[0] = 0, bad.held = 1));
    BROKEN(bad.codes[2] = 0xFFFFFF);
    BROKEN(bad.codes[2] = 0x1000000);
    BROKEN(bad.codes[1] = 0);
    BROKEN(bad.codes[0] = 2);
    BROKEN(bad.statuses[1] = 0x04);
    BROKEN(bad.statuses[2] = 0x80);
    BROKEN(bad.count = 64);
    BROKEN(bad.count = 255);
    BROKEN(bad.count = 4);
    BROKEN(bad.availability = 0x4F & ~0x02);
    BROKEN(bad.availability = 0x5B);
    BROKEN(bad.identifiers[1] = 0);
    BROKEN(bad.identifiers[0] = 1);
    BROKEN(bad.lengths[0] = 0);
    BROKEN(bad.lengths[2] = 33);
    BROKEN(bad.held = 17);
    BROKEN(bad.held = 255);
    BROKEN(bad.held = 4);
#undef BROKEN
    /* full to the last place, and one more than that */
    model_record full = {.count = 63, .held = 16, .availability = 0x7F};
    for (unsigned i = 0; i < 63; i++) {
        full.codes[i] = i;
        full.statuses[i] = 0x01;
    }
    for (unsigned i = 0; i < 16; i++) {
        full.identifiers[i] = (uint16_t)i;
        full.lengths[i] = 1;
    }
    memset(full.bytes, 1, sizeof full.bytes);
    full.statuses[2] = full.statuses[3] = 0;
    CHECK(model_record_keeps_rules(&full));
    full.count = 64;
    CHECK(!model_record_keeps_rules(&full));
    full.count = 63;
    full.held = 17;
    CHECK(!model_record_keeps_rules(&full));
    full.held = 16;
    CHECK(model_record_keeps_rules(&full));
    full.codes[62] = 0xFFFFFE;
    full.identifiers[15] = 0xFFFF;
    full.lengths[15] = 32;
    CHECK(model_record_keeps_rules(&full));
    full.codes[62] = 61;
    CHECK(!model_record_keeps_rules(&full));
    full.codes[62] = 62;
    full.lengths[15] = 33;
    CHECK(!model_record_keeps_rules(&full));
    full.lengths[15] = 0;
    CHECK(!model_record_keeps_rules(&full));
    full.lengths[15] = 1;
    full.statuses[62] = 0x80;
    CHECK(!model_record_keeps_rules(&full));

    /* places past the counts are free */
    bad = good;
    bad.codes[3] = UINT32_MAX;
    bad.statuses[3] = 0xFF;
    bad.lengths[3] = 200;
    bad.identifiers[3] = 0;
    CHECK(model_record_keeps_rules(&bad));
}

static void test_server_worked(void)
{
    model_record r = {
        .codes = {0x010203, 0x010204, 0xA00000},
        .statuses = {0x08, 0x50, 0x09},
        .count = 3,
        .availability = 0x7F,
        .identifiers = {0x0000, 0xF187, 0xF190},
        .lengths = {32, 1, 3},
        .held = 3,
    };
    r.bytes[32] = 0x77;
    r.bytes[64] = 1;
    r.bytes[65] = 2;
    r.bytes[66] = 3;
    const model_record start = r;

    CHECK(answered(&r, 0, BYTES(0x19, 0x01, 0x08), BYTES(0x59, 0x01, 0x7F, 0x03, 0x00, 0x02)));
    CHECK(answered(&r, 0, BYTES(0x19, 0x01, 0x80), BYTES(0x59, 0x01, 0x7F, 0x03, 0x00, 0x00)));
    CHECK(answered(&r, 0, BYTES(0x19, 0x01, 0x00), BYTES(0x59, 0x01, 0x7F, 0x03, 0x00, 0x00)));
    CHECK(answered(&r, 1, BYTES(0x19, 0x01, 0xFF), BYTES(0x59, 0x01, 0x7F, 0x03, 0x00, 0x03)));
    CHECK(answered(&r, 0, BYTES(0x19, 0x02, 0x08),
                   BYTES(0x59, 0x02, 0x7F, 1, 2, 3, 0x08, 0xA0, 0, 0, 0x09)));
    CHECK(answered(&r, 0, BYTES(0x19, 0x02, 0x00), BYTES(0x59, 0x02, 0x7F)));
    CHECK(answered(&r, 0, BYTES(0x19, 0x0A),
                   BYTES(0x59, 0x0A, 0x7F, 1, 2, 3, 0x08, 1, 2, 4, 0x50, 0xA0, 0, 0, 0x09)));
    CHECK(answered(&r, 0, BYTES(0x19, 0x81, 0x08), SILENT));
    CHECK(answered(&r, 0, BYTES(0x19, 0x82, 0x08), SILENT));
    CHECK(answered(&r, 0, BYTES(0x19, 0x8A), SILENT));
    CHECK(answered(&r, 0, BYTES(0x19), BYTES(0x7F, 0x19, 0x13)));
    CHECK(answered(&r, 1, BYTES(0x19), BYTES(0x7F, 0x19, 0x13)));
    CHECK(answered(&r, 0, BYTES(0x19, 0x03), BYTES(0x7F, 0x19, 0x12)));
    CHECK(answered(&r, 0, BYTES(0x19, 0x83), BYTES(0x7F, 0x19, 0x12)));
    CHECK(answered(&r, 1, BYTES(0x19, 0x03), SILENT));
    CHECK(answered(&r, 0, BYTES(0x19, 0x01), BYTES(0x7F, 0x19, 0x13)));
    CHECK(answered(&r, 0, BYTES(0x19, 0x81), BYTES(0x7F, 0x19, 0x13)));
    CHECK(answered(&r, 0, BYTES(0x19, 0x02, 1, 1), BYTES(0x7F, 0x19, 0x13)));
    CHECK(answered(&r, 0, BYTES(0x19, 0x0A, 1), BYTES(0x7F, 0x19, 0x13)));

    CHECK(answered(&r, 0, BYTES(0x3E, 0x80), SILENT));
    CHECK(answered(&r, 0, BYTES(0x3E, 0x01), BYTES(0x7F, 0x3E, 0x12)));
    CHECK(answered(&r, 0, BYTES(0x3E, 0x81), BYTES(0x7F, 0x3E, 0x12)));
    CHECK(answered(&r, 1, BYTES(0x3E, 0x81), SILENT));
    CHECK(answered(&r, 0, BYTES(0x3E), BYTES(0x7F, 0x3E, 0x13)));
    CHECK(answered(&r, 1, BYTES(0x3E), BYTES(0x7F, 0x3E, 0x13)));
    CHECK(answered(&r, 0, BYTES(0x3E, 0x00), BYTES(0x7E, 0x00)));
    CHECK(answered(&r, 1, BYTES(0x3E, 0x00), BYTES(0x7E, 0x00)));
    CHECK(answered(&r, 0, BYTES(0x3E, 0x01, 0x00), BYTES(0x7F, 0x3E, 0x12)));
    CHECK(answered(&r, 0, BYTES(0x3E, 0x00, 0x00), BYTES(0x7F, 0x3E, 0x13)));
    CHECK(answered(&r, 0, BYTES(0x3E, 0x80, 0x00), BYTES(0x7F, 0x3E, 0x13)));

    for (unsigned service = 0; service < 256; service++) {
        if (service != 0x14 && service != 0x19 && service != 0x22 && service != 0x3E) {
            CHECK(answered(&r, 0, BYTES((uint8_t)service), BYTES(0x7F, (uint8_t)service, 0x11)));
            CHECK(answered(&r, 0, BYTES((uint8_t)service, 0x80), BYTES(0x7F, (uint8_t)service, 0x11)));
            CHECK(answered(&r, 1, BYTES((uint8_t)service), SILENT));
        }
    }

    CHECK(answered(&r, 0, BYTES(0x22, 0xF1, 0x90), BYTES(0x62, 0xF1, 0x90, 1, 2, 3)));
    CHECK(answered(&r, 1, BYTES(0x22, 0xF1, 0x90, 0x12, 0x34, 0xF1, 0x87, 0xF1, 0x90),
                   BYTES(0x62, 0xF1, 0x90, 1, 2, 3, 0xF1, 0x87, 0x77, 0xF1, 0x90, 1, 2, 3)));
    CHECK(answered(&r, 0, BYTES(0x22, 0xF1, 0x91), BYTES(0x7F, 0x22, 0x31)));
    CHECK(answered(&r, 1, BYTES(0x22, 0xF1, 0x91), SILENT));
    CHECK(answered(&r, 0, BYTES(0x22), BYTES(0x7F, 0x22, 0x13)));
    CHECK(answered(&r, 0, BYTES(0x22, 0xF1), BYTES(0x7F, 0x22, 0x13)));
    CHECK(answered(&r, 1, BYTES(0x22, 0xF1, 0x90, 0xF1), BYTES(0x7F, 0x22, 0x13)));

    CHECK(answered(&r, 0, BYTES(0x14), BYTES(0x7F, 0x14, 0x13)));
    CHECK(answered(&r, 0, BYTES(0x14, 0xFF, 0xFF), BYTES(0x7F, 0x14, 0x13)));
    CHECK(answered(&r, 1, BYTES(0x14, 0xFF, 0xFF, 0xFF, 0xFF), BYTES(0x7F, 0x14, 0x13)));
    CHECK(answered(&r, 0, BYTES(0x14, 0xFF, 0xFF, 0xFE), BYTES(0x7F, 0x14, 0x31)));
    CHECK(answered(&r, 0, BYTES(0x14, 0x01, 0x02, 0x02), BYTES(0x7F, 0x14, 0x31)));
    CHECK(answered(&r, 1, BYTES(0x14, 0x00, 0x00, 0x00), SILENT));
    CHECK(same_record(&r, &start));

    model_record expected = start;
    expected.statuses[2] = 0x50;
    CHECK(answered(&r, 0, BYTES(0x14, 0xA0, 0x00, 0x00), BYTES(0x54)));
    CHECK(same_record(&r, &expected));
    expected.statuses[0] = 0x50;
    CHECK(answered(&r, 1, BYTES(0x14, 0xFF, 0xFF, 0xFF), BYTES(0x54)));
    CHECK(same_record(&r, &expected));

    /* 50 AND an availability mask without bit 4; the places past the count stay */
    r = (model_record){.codes = {7}, .statuses = {0x0B, 0xFF}, .count = 1, .availability = 0x4B};
    expected = r;
    expected.statuses[0] = 0x40;
    CHECK(answered(&r, 0, BYTES(0x14, 0xFF, 0xFF, 0xFF), BYTES(0x54)));
    CHECK(same_record(&r, &expected));
    r.count = 0;
    expected.count = 0;
    CHECK(answered(&r, 0, BYTES(0x14, 0xFF, 0xFF, 0xFF), BYTES(0x54)));
    CHECK(answered(&r, 0, BYTES(0x14, 0, 0, 7), BYTES(0x7F, 0x14, 0x31)));
    CHECK(answered(&r, 0, BYTES(0x19, 0x0A), BYTES(0x59, 0x0A, 0x4B)));
    CHECK(same_record(&r, &expected));

    /* a code 000000 that lies past the count, and one held */
    r = (model_record){.availability = 0x49};
    CHECK(answered(&r, 0, BYTES(0x14, 0, 0, 0), BYTES(0x7F, 0x14, 0x31)));
    CHECK(answered(&r, 0, BYTES(0x22, 0, 0), BYTES(0x7F, 0x22, 0x31)));
    CHECK(model_set_status(&r, 0, 0) == 18);
    r.count = 1;
    CHECK(answered(&r, 0, BYTES(0x14, 0, 0, 0), BYTES(0x54)));
    CHECK(r.statuses[0] == 0x40);

    /* the longest report: 63 codes just fit, with status 00 too */
    r = (model_record){.count = 63, .availability = 0x7F};
    for (unsigned i = 0; i < 63; i++) {
        r.codes[i] = i;
        r.statuses[i] = i == 0 ? 0 : 0x01;
    }
    CHECK(ask(&r, 0, BYTES(0x19, 0x0A)).sent == 255 && response[6] == 0 && response[253] == 62);
    CHECK(ask(&r, 0, BYTES(0x19, 0x02, 0x01)).sent == 251);

    /* data just fit: 7 x 34 + 1 = 239; with 13 + 2 and 14 + 2 more bytes */
    r = (model_record){.availability = 0x49, .identifiers = {1, 2, 3}, .lengths = {32, 14, 15}, .held = 3};
    uint8_t request[255] = {0x22};
    for (unsigned i = 0; i < 7; i++) {
        request[2 + 2 * i] = 1;
    }
    request[16] = 2;
    model_answer a = ask(&r, 0, request, 17);
    CHECK(a.refusal == 0 && a.sent == 255);
    request[16] = 3;
    CHECK(answered(&r, 0, request, 17, BYTES(0x7F, 0x22, 0x14)));
    CHECK(answered(&r, 1, request, 17, BYTES(0x7F, 0x22, 0x14)));
    CHECK(answered(&r, 1, request, 255, BYTES(0x7F, 0x22, 0x14)));
    /* 84 of 3 bytes fit, 85 do not (1 + 255); 127 asked */
    r.lengths[0] = 1;
    for (unsigned i = 0; i < 127; i++) {
        request[1 + 2 * i] = 0;
        request[2 + 2 * i] = 1;
    }
    CHECK(ask(&r, 0, request, 1 + 2 * 84).sent == 253);
    CHECK(answered(&r, 0, request, 1 + 2 * 85, BYTES(0x7F, 0x22, 0x14)));
    CHECK(answered(&r, 0, request, 255, BYTES(0x7F, 0x22, 0x14)));
    for (unsigned i = 84; i < 127; i++) {
        request[2 + 2 * i] = 9;
    }
    CHECK(ask(&r, 0, request, 255).sent == 253);

    /* 17 */
    const model_record kept = r;
    uint8_t long_request[256] = {0x3E, 0x00}, long_response[256] = {0};
    const uint8_t none[256] = {0};
    memcpy(response_before, response, sizeof response);
    a = model_serve(&r, long_request, 0, 0, response, 255);
    CHECK(a.refusal == 17 && a.sent == 0);
    a = model_serve(&r, NULL, 0, 1, response, 255);
    CHECK(a.refusal == 17 && a.sent == 0);
    a = model_serve(&r, long_request, 256, 0, response, 255);
    CHECK(a.refusal == 17 && a.sent == 0);
    a = model_serve(&r, long_request, 2, 0, response, 254);
    CHECK(a.refusal == 17 && a.sent == 0);
    a = model_serve(&r, long_request, 2, 0, long_response, 256);
    CHECK(a.refusal == 17 && a.sent == 0 && memcmp(long_response, none, 256) == 0);
    CHECK(memcmp(response, response_before, sizeof response) == 0 && same_record(&r, &kept));
    a = ask(&r, 0, long_request, 255);
    CHECK(a.refusal == 0 && a.sent == 3 && response[2] == 0x13);

    /* the status of one code */
    r = start;
    CHECK(model_set_status(&r, 0x010202, 0x80) == 18);
    CHECK(model_set_status(&r, 0x1010203, 0x00) == 18);
    CHECK(model_set_status(&r, 0xFFFFFF, 0x00) == 18);
    CHECK(model_set_status(&r, UINT32_MAX, 0x00) == 18);
    CHECK(model_set_status(&r, 0x010203, 0x80) == 19);
    CHECK(same_record(&r, &start));
    CHECK(model_set_status(&r, 0x010203, 0x7F) == 0 && r.statuses[0] == 0x7F);
    expected = start;
    expected.statuses[0] = 0x7F;
    CHECK(same_record(&r, &expected));
}

/* A plain reading of the server's rules, into a byte string; its length, 0 when silent. */
static int plain_server(model_record *r, const uint8_t *q, int n, int is_functional, uint8_t *out)
{
    int code = 0, length = 0;
    const int sub = n > 1 ? q[1] % 128 : -1;
    const int quiet = n > 1 && q[1] >= 128 && (q[0] == 0x19 || q[0] == 0x3E);
    uint8_t big[127 * 34 + 1];
    if (q[0] != 0x14 && q[0] != 0x19 && q[0] != 0x22 && q[0] != 0x3E) {
        code = 0x11;
    } else if ((q[0] == 0x19 || q[0] == 0x3E) && n < 2) {
        code = 0x13;
    } else if ((q[0] == 0x19 && sub != 1 && sub != 2 && sub != 10) || (q[0] == 0x3E && sub != 0)) {
        code = 0x12;
    } else if ((q[0] == 0x14 && n != 4) || (q[0] == 0x19 && sub == 10 && n != 2) ||
               (q[0] == 0x19 && sub != 10 && n != 3) || (q[0] == 0x22 && (n < 3 || n % 2 == 0)) ||
               (q[0] == 0x3E && n != 2)) {
        code = 0x13;
    } else if (q[0] == 0x14) {
        const uint32_t group = q[1] * 65536u + q[2] * 256u + q[3];
        int hit = group == 0xFFFFFF;
        for (int i = 0; i < r->count; i++) {
            if (group == 0xFFFFFF || r->codes[i] == group) {
                r->statuses[i] = 0x50 & r->availability;
                hit = 1;
            }
        }
        code = hit ? 0 : 0x31;
        big[length++] = 0x54;
    } else if (q[0] == 0x19) {
        int count = 0;
        big[length++] = 0x59;
        big[length++] = (uint8_t)sub;
        big[length++] = r->availability;
        for (int i = 0; i < r->count; i++) {
            if (sub == 10 || (r->statuses[i] & q[2])) {
                count++;
                if (sub != 1) {
                    big[length++] = (uint8_t)(r->codes[i] / 65536);
                    big[length++] = (uint8_t)(r->codes[i] / 256 % 256);
                    big[length++] = (uint8_t)(r->codes[i] % 256);
                    big[length++] = r->statuses[i];
                }
            }
        }
        if (sub == 1) {
            big[length++] = 3;
            big[length++] = (uint8_t)(count / 256);
            big[length++] = (uint8_t)(count % 256);
        }
    } else if (q[0] == 0x22) {
        big[length++] = 0x62;
        for (int i = 1; i < n; i += 2) {
            for (int k = 0; k < r->held; k++) {
                if (r->identifiers[k] == q[i] * 256 + q[i + 1]) {
                    big[length++] = q[i];
                    big[length++] = q[i + 1];
                    for (int b = 0; b < r->lengths[k]; b++) {
                        big[length++] = r->bytes[32 * k + b];
                    }
                }
            }
        }
        code = length == 1 ? 0x31 : length > 255 ? 0x14 : 0;
    } else {
        big[length++] = 0x7E;
        big[length++] = 0;
    }
    if (code != 0) {
        if (is_functional && code != 0x13 && code != 0x14) {
            return 0;
        }
        out[0] = 0x7F;
        out[1] = q[0];
        out[2] = (uint8_t)code;
        return 3;
    }
    if (quiet) {
        return 0;
    }
    memcpy(out, big, (size_t)length);
    return length;
}

static void test_server_random(void)
{
    unsigned long kinds[4] = {0};
    for (int i = 0; i < 100000; i++) {
        model_record r = some_record();
        model_record plain = r;
        static const uint8_t services[] = {0x14, 0x19, 0x22, 0x22, 0x3E};
        uint8_t q[255];
        for (unsigned b = 0; b < sizeof q; b++) {
            q[b] = (uint8_t)any();
        }
        size_t n = 1 + below(below(4) ? 6 : 255);
        if (below(20)) {
            q[0] = services[below(5)];
        }
        if (q[0] == 0x19 && below(8)) {
            static const uint8_t subs[] = {1, 2, 10, 0x81, 0x82, 0x8A, 0, 3};
            q[1] = subs[below(8)];
            n = below(4) ? (q[1] % 128 == 10 ? 2 : 3) : n;
        } else if (q[0] == 0x3E && below(8)) {
            q[1] = (uint8_t)(128 * below(2) + (below(4) ? 0 : 1));
            n = below(4) ? 2 : n;
        } else if (q[0] == 0x14 && below(8)) {
            const uint32_t code = r.count && below(2) ? r.codes[below(r.count)] : 0xFFFFFF;
            q[1] = (uint8_t)(code >> 16);
            q[2] = (uint8_t)(code >> 8);
            q[3] = (uint8_t)(code + (below(6) ? 0 : 1));
            n = below(4) ? 4 : n;
        } else if (q[0] == 0x22 && r.held) {
            const uint32_t misses = below(3);
            for (size_t at = 1; at + 1 < sizeof q; at += 2) {
                if (below(3) >= misses) {
                    const unsigned id = r.identifiers[below(r.held)];
                    q[at] = (uint8_t)(id >> 8);
                    q[at + 1] = (uint8_t)id;
                }
            }
            n = below(6) ? n | 1 : n;
        }
        const int is_functional = (int)below(2);
        uint8_t expected[255];
        const int length = plain_server(&plain, q, (int)n, is_functional, expected);
        CHECK(answered(&r, is_functional, q, n, expected, (size_t)length));
        CHECK(same_record(&r, &plain));
        CHECK(model_record_keeps_rules(&r));
        kinds[length == 0 ? 0 : expected[0] == 0x7F ? 1 : length < 200 ? 2 : 3]++;

        const uint32_t code = r.count && below(3) ? r.codes[below(r.count)] : any() & 0xFFFFFF;
        const uint8_t status = (uint8_t)(below(2) ? any() & r.availability : any());
        model_record set = r;
        const uint8_t refusal = model_set_status(&set, code, status);
        int place = -1;
        for (int k = 0; k < r.count; k++) {
            if (r.codes[k] == code) {
                place = k;
            }
        }
        CHECK(refusal == (place < 0 ? 18 : (status & ~r.availability) != 0 ? 19 : 0));
        if (refusal == 0) {
            r.statuses[place] = status;
        }
        CHECK(same_record(&set, &r));
    }
    for (int k = 0; k < 4; k++) {
        CHECK(kinds[k] > 500);
    }
}

/* ---- count sheet --------------------------------------------------------------------------- */

static char text[MODEL_SHEET_TEXT];

/*
 * Between two calls a page has no byte but this: of each text only its own bytes are taken back. So the rest of the page is looked
 * at now and then, and at the end, and a byte that any call wrote there is found. The same of the readings that a mending keeps.
 */
enum { UNWRITTEN = '#' };
static char page[MODEL_SHEET_TEXT];
static uint8_t kept[MODEL_SHEET_INPUT_MAX];
static char unwritten[MODEL_SHEET_TEXT];
static unsigned long calls;

static int rest_is_unwritten(size_t from, size_t kept_from)
{
    return memcmp(page + from, unwritten, sizeof page - from) == 0 &&
           memcmp(kept + kept_from, unwritten, sizeof kept - kept_from) == 0;
}

/* An input at the end of its own memory, for one call. */
static uint8_t *lent(const uint8_t *input, size_t length)
{
    uint8_t *own = malloc(length ? length : 1);
    if (own == NULL) {
        abort();
    }
    memcpy(own, input, length);
    if (calls == 0) {
        memset(page, UNWRITTEN, sizeof page);
        memset(kept, UNWRITTEN, sizeof kept);
        memset(unwritten, UNWRITTEN, sizeof unwritten);
    }
    calls++;
    return own;
}

#define HEADER "position mask available count basis\n"

/* The count sheet, or the page of a mask. */
static int gives(const uint8_t *input, size_t length, const uint8_t *mask, const char *expected)
{
    uint8_t *own = lent(input, length);
    const size_t n = mask == NULL ? model_count_sheet(own, length, page) : model_ranking(own, length, *mask, page);
    free(own);
    const int same = n == strlen(expected) && memcmp(page, expected, n) == 0 && page[n] == UNWRITTEN;
    if (!same || (calls % 32 == 0 && !rest_is_unwritten(n, 0))) {
        return 0;
    }
    memset(page, UNWRITTEN, n);
    return 1;
}

static int prints(const uint8_t *input, size_t length, const char *expected)
{
    return gives(input, length, NULL, expected);
}

static void test_sheet(void)
{
    const uint8_t worked[34] = {0x01, 0x00, 0x01, 0x01, 0x02, 0x00, 0x01, 0x08, 0x03,
                                0x00, 0x06, 0x59, 0x01, 0x7F, 0x03, 0x00, 0x02, 0x01,
                                0x00, 0x01, 0x02, 0x02, 0x00, 0x01, 0x8C, 0x03, 0x00,
                                0x06, 0x59, 0x01, 0x4B, 0x03, 0x00, 0x05};
    CHECK(prints(worked, 34, HEADER "1 08 7F 2 full\n2 8C 4B 5 part\n"));
    CHECK(prints(worked, 0, HEADER));
    CHECK(model_count_sheet(NULL, 0, text) == strlen(HEADER));
    CHECK(prints(worked, 17, HEADER "1 08 7F 2 full\n"));

    /* cut at every place */
    for (size_t n = 1; n < 34; n++) {
        char expected[40];
        const size_t in = n % 17;
        const size_t field = n - in + (in < 4 ? 0u : in < 8 ? 4u : 8u);
        if (in != 0) {
            snprintf(expected, sizeof expected, "refused 22 at %zu\n", field);
            CHECK(prints(worked, n, expected));
        }
    }

    uint8_t input[40];
#define WITH(at, value, expected)            \
    do {                                     \
        memcpy(input, worked, 34);           \
        input[at] = value;                   \
        CHECK(prints(input, 34, expected));  \
    } while (0)
    WITH(0, 2, "refused 23 at 0\n");
    WITH(0, 0, "refused 23 at 0\n");
    WITH(2, 0, "refused 23 at 0\n");
    WITH(2, 2, "refused 23 at 0\n");
    WITH(2, 31, "refused 23 at 0\n");
    WITH(2, 32, "refused 22 at 0\n");
    WITH(1, 1, "refused 22 at 0\n");
    WITH(3, 0, "refused 24 at 0\n");
    WITH(3, 5, HEADER "5 08 7F 2 full\n2 8C 4B 5 part\n");
    WITH(3, 6, "refused 24 at 0\n");
    WITH(3, 255, "refused 24 at 0\n");
    WITH(4, 1, "refused 23 at 4\n");
    WITH(4, 3, "refused 23 at 4\n");
    WITH(6, 0, "refused 23 at 4\n");
    WITH(6, 27, "refused 23 at 4\n");
    WITH(6, 28, "refused 22 at 4\n");
    WITH(7, 0x00, HEADER "1 00 7F 2 none\n2 8C 4B 5 part\n");
    WITH(7, 0x80, HEADER "1 80 7F 2 none\n2 8C 4B 5 part\n");
    WITH(7, 0xFF, HEADER "1 FF 7F 2 part\n2 8C 4B 5 part\n");
    WITH(7, 0x7F, HEADER "1 7F 7F 2 full\n2 8C 4B 5 part\n");
    WITH(8, 2, "refused 23 at 8\n");
    WITH(10, 5, "refused 23 at 8\n");
    WITH(10, 7, "refused 23 at 8\n");
    WITH(10, 23, "refused 23 at 8\n");
    WITH(10, 24, "refused 22 at 8\n");
    WITH(11, 0x7F, "refused 24 at 8\n");
    WITH(12, 0x02, "refused 24 at 8\n");
    WITH(12, 0x81, "refused 24 at 8\n");
    WITH(13, 0x7E, "refused 24 at 8\n");
    WITH(13, 0x7D, "refused 24 at 8\n");
    WITH(13, 0x6F, "refused 24 at 8\n");
    WITH(13, 0x00, "refused 24 at 8\n");
    WITH(13, 0xFF, HEADER "1 08 FF 2 full\n2 8C 4B 5 part\n");
    WITH(14, 0x02, "refused 24 at 8\n");
    WITH(15, 0xFF, HEADER "1 08 7F 65282 full\n2 8C 4B 5 part\n");
    WITH(15, 0x01, HEADER "1 08 7F 258 full\n2 8C 4B 5 part\n");
    WITH(16, 0x00, HEADER "1 08 7F 0 full\n2 8C 4B 5 part\n");
    WITH(16, 0x0A, HEADER "1 08 7F 10 full\n2 8C 4B 5 part\n");
    WITH(17, 0x04, "refused 23 at 17\n");
    WITH(20, 0x00, "refused 24 at 17\n");
    WITH(28, 0x00, "refused 24 at 25\n");
#undef WITH
    /* the earliest field goes first, then the lowest */
    memcpy(input, worked, 34);
    input[3] = 9;
    CHECK(prints(input, 4, "refused 24 at 0\n"));
    CHECK(prints(input, 5, "refused 24 at 0\n"));
    input[0] = 9;
    CHECK(prints(input, 4, "refused 23 at 0\n"));
    CHECK(prints(input, 3, "refused 22 at 0\n"));
    /* one or two stray bytes at the end */
    memcpy(input, worked, 34);
    input[34] = input[35] = input[36] = 0;
    CHECK(prints(input, 35, "refused 22 at 34\n"));
    CHECK(prints(input, 36, "refused 22 at 34\n"));
    CHECK(prints(input, 37, "refused 23 at 34\n"));

    /* the longest input: 3,855 readings, the longest lines; one byte more is too long */
    uint8_t *big = calloc(65537, 1);
    char *expected = malloc(MODEL_SHEET_TEXT + 1);
    if (big == NULL || expected == NULL) {
        abort();
    }
    size_t at = (size_t)sprintf(expected, HEADER);
    for (size_t i = 0; i < 3855; i++) {
        const uint8_t position = (uint8_t)(1 + below(5));
        memcpy(big + 17 * i, worked, 17);
        big[17 * i + 3] = position;
        big[17 * i + 15] = 0xFF;
        big[17 * i + 16] = 0xFF;
        at += (size_t)sprintf(expected + at, "%d 08 7F 65535 full\n", position);
    }
    CHECK(at == 73281 && prints(big, 65535, expected));
    CHECK(prints(big, 65536, "refused 21 at 0\n"));
    /* a length of two bytes, high first */
    big[1] = 1;
    big[2] = 0;
    CHECK(prints(big, 258, "refused 22 at 0\n"));
    CHECK(prints(big, 259, "refused 23 at 0\n"));
    big[1] = 0xFF;
    big[2] = 0xFC;
    CHECK(prints(big, 65534, "refused 22 at 0\n"));
    CHECK(prints(big, 65535, "refused 23 at 0\n"));
    big[2] = 0xFD;
    CHECK(prints(big, 65535, "refused 22 at 0\n"));
    big[1] = 0;
    big[2] = 1;
    big[0] = 9;
    CHECK(prints(big, 65536, "refused 21 at 0\n"));
    CHECK(prints(big, 65535, "refused 23 at 0\n"));
    big[0] = 1;
    CHECK(prints(big, 65534, "refused 22 at 65526\n"));
    big[65535 - 9 + 3] = 0;
    CHECK(prints(big, 65535, "refused 24 at 65526\n"));
    CHECK(model_count_sheet(NULL, SIZE_MAX, text) == 16);
    free(big);

    /* random readings, sometimes with a changed byte, always answered */
    unsigned long refused = 0, printed = 0;
    for (int i = 0; i < 100000; i++) {
        uint8_t some[17 * 4 + 5];
        const size_t count = below(5);
        size_t length = 17 * count;
        at = (size_t)sprintf(expected, HEADER);
        for (size_t k = 0; k < count; k++) {
            uint8_t *const to = some + 17 * k;
            memcpy(to, worked, 17);
            to[3] = (uint8_t)(1 + below(5));
            to[7] = (uint8_t)(any() & any());
            do {
                to[13] = (uint8_t)(any() | 0x49);
            } while (!model_mask_keeps_rule(to[13]));
            to[15] = (uint8_t)any();
            to[16] = (uint8_t)any();
            const int both = to[7] & to[13];
            at += (size_t)sprintf(expected + at, "%d %02X %02X %d %s\n", to[3], to[7], to[13],
                                  to[15] * 256 + to[16],
                                  both == 0 ? "none" : both == to[7] ? "full" : "part");
        }
        CHECK(prints(some, length, expected));
        if (length && below(2)) {
            some[below((uint32_t)length)] ^= (uint8_t)(1u << below(8));
        }
        const uint32_t stray = below(6);
        for (uint32_t k = 0; k < stray; k++) {
            some[length++] = (uint8_t)below(4);
        }
        uint8_t *own = malloc(length ? length : 1);
        if (own == NULL) {
            abort();
        }
        memcpy(own, some, length);
        const size_t n = model_count_sheet(own, length, text);
        free(own);
        CHECK(n > 0 && text[n - 1] == '\n');
        if (text[0] == 'r') {
            refused++;
        } else {
            printed++;
            CHECK(memcmp(text, HEADER, strlen(HEADER)) == 0);
        }
    }
    CHECK(refused > 1000 && printed > 1000);
    free(expected);
}

/* ---- the page of one mask ------------------------------------------------------------------ */

static int ranks(const uint8_t *input, size_t length, uint8_t mask, const char *expected)
{
    return gives(input, length, &mask, expected);
}

/* A reading of 17 bytes. */
static uint8_t *put_reading(uint8_t *to, uint8_t position, uint8_t mask, uint8_t available, unsigned count)
{
    const uint8_t reading[17] = {1, 0, 1, position, 2, 0, 1, mask, 3, 0, 6, 0x59, 0x01, available, 0x03,
                                 (uint8_t)(count >> 8), (uint8_t)count};
    memcpy(to, reading, 17);
    return to + 17;
}

static void test_ranking_worked(void)
{
    uint8_t sheet[17 * 8];
    uint8_t *to = put_reading(sheet, 3, 0x0C, 0x7F, 9);
    to = put_reading(to, 1, 0x0C, 0x49, 0);
    to = put_reading(to, 2, 0x0C, 0x7F, 4);
    to = put_reading(to, 5, 0x08, 0x7F, 1);
    to = put_reading(to, 4, 0x0C, 0x7F, 4);
    const size_t length = (size_t)(to - sheet);
    CHECK(ranks(sheet, length, 0x0C, HEADER "2 0C 7F 4 full\n4 0C 7F 4 full\n3 0C 7F 9 full\n1 0C 49 0 part\n"));
    CHECK(ranks(sheet, length, 0x08, HEADER "5 08 7F 1 full\n"));
    CHECK(ranks(sheet, length, 0x04, HEADER));
    CHECK(ranks(sheet, length, 0x00, HEADER));
    CHECK(ranks(sheet, 0, 0x0C, HEADER));
    CHECK(model_ranking(NULL, 0, 0x0C, text) == strlen(HEADER));

    /* a sheet that is refused: its line, whatever the mask; also for a field of another mask, and behind the last of this one */
    for (size_t n = 1; n < length; n++) {
        if (n % 17 != 0) {
            const size_t k = model_count_sheet(sheet, n, text);
            char expected[40];
            memcpy(expected, text, k);
            expected[k] = 0;
            CHECK(expected[0] == 'r' && ranks(sheet, n, 0x0C, expected) && ranks(sheet, n, 0xFF, expected));
        }
    }
    sheet[17 * 3 + 3] = 6;
    CHECK(ranks(sheet, length, 0x0C, "refused 24 at 51\n"));
    sheet[17 * 3 + 3] = 5;
    sheet[17 * 4] = 2;
    CHECK(ranks(sheet, length, 0x08, "refused 23 at 68\n"));
    CHECK(model_ranking(NULL, 65536, 0x08, text) == 16 && memcmp(text, "refused 21 at 0\n", 16) == 0);

    /* mask 00 is none, whatever the count; two equal readings are two lines */
    to = put_reading(sheet, 2, 0x00, 0xFF, 7);
    to = put_reading(to, 1, 0x00, 0x49, 0);
    to = put_reading(to, 2, 0x00, 0xFF, 7);
    CHECK(ranks(sheet, 51, 0x00, HEADER "2 00 FF 7 none\n1 00 49 0 none\n2 00 FF 7 none\n"));

    /* counts of one byte and of two; the excluded ones behind the highest of them */
    to = put_reading(sheet, 1, 0x80, 0x49, 0);
    to = put_reading(to, 2, 0x80, 0xC9, 65535);
    to = put_reading(to, 3, 0x80, 0xC9, 256);
    to = put_reading(to, 4, 0x80, 0xC9, 255);
    to = put_reading(to, 5, 0x80, 0xC9, 32768);
    to = put_reading(to, 1, 0x80, 0xC9, 0);
    CHECK(ranks(sheet, 102, 0x80,
                HEADER "1 80 C9 0 full\n4 80 C9 255 full\n3 80 C9 256 full\n5 80 C9 32768 full\n2 80 C9 65535 full\n"
                       "1 80 49 0 none\n"));
}

/* What the sentence says, line by line: again and again the first of the lowest counts that is left, then the excluded ones. */
static void page_of(char *to, const uint8_t *sheet, size_t count, uint8_t mask)
{
    static const char *const words[3] = {"none", "part", "full"};
    uint8_t used[16] = {0};
    to += sprintf(to, HEADER);
    for (int full = 1; full >= 0; full--) {
        for (size_t turn = 0; turn < count; turn++) {
            size_t best = count;
            for (size_t k = 0; k < count; k++) {
                const uint8_t *const r = sheet + 17 * k;
                if (used[k] || r[7] != mask || full != ((r[7] & r[13]) == r[7] && r[7] != 0)) {
                    continue;
                }
                const uint8_t *const b = sheet + 17 * best;
                if (best == count || (full && r[15] * 256 + r[16] < b[15] * 256 + b[16])) {
                    best = k;
                }
            }
            if (best < count) {
                const uint8_t *const r = sheet + 17 * best;
                used[best] = 1;
                to += sprintf(to, "%d %02X %02X %d %s\n", r[3], r[7], r[13], r[15] * 256 + r[16],
                              words[full ? 2 : (r[7] & r[13]) != 0]);
            }
        }
    }
}

static void test_ranking_random(void)
{
    static const uint8_t masks[] = {0x00, 0x08, 0x0C, 0x80}, availables[] = {0x49, 0x4B, 0x4F, 0x7F, 0xC9, 0xFF};
    uint8_t sheet[17 * 13];
    char expected[512];
    for (int i = 0; i < 100000; i++) {
        const size_t count = below(13);
        for (size_t k = 0; k < count; k++) {
            put_reading(sheet + 17 * k, (uint8_t)(1 + below(5)), masks[below(4)], availables[below(6)],
                        below(2) ? below(4) : any() & 0xFFFF);
        }
        const uint8_t mask = masks[below(4)];
        page_of(expected, sheet, count, mask);
        CHECK(ranks(sheet, 17 * count, mask, expected));
        /* a reading of another mask, wherever it stands, changes no line */
        if (count < 13) {
            const size_t at = 17 * below((uint32_t)count + 1);
            memmove(sheet + at + 17, sheet + at, 17 * count - at);
            put_reading(sheet + at, 1, (uint8_t)(mask ^ (1 + below(255))), availables[below(6)], any() & 0xFFFF);
            CHECK(ranks(sheet, 17 * count + 17, mask, expected));
        }
    }
}

/* The longest sheet, in falling order of its counts. */
static void test_ranking_falling(void)
{
    uint8_t *const big = malloc(65535);
    char *const expected = malloc(MODEL_SHEET_TEXT + 1);
    if (big == NULL || expected == NULL) {
        abort();
    }
    size_t at = (size_t)sprintf(expected, HEADER);
    for (unsigned i = 0; i < 3855; i++) {
        put_reading(big + 17 * i, (uint8_t)(1 + i % 5), 0x2F, 0x7F, 17 * (3854 - i));
        at += (size_t)sprintf(expected + at, "%u 2F 7F %u full\n", 1 + (3854 - i) % 5, 17 * i);
    }
    CHECK(ranks(big, 65535, 0x2F, expected));
    CHECK(ranks(big, 65535, 0x08, HEADER));
    free(big);
    free(expected);
}

/* ---- mending ------------------------------------------------------------------------------- */

/* What is kept stands in `kept`, and the list on the page, until both are taken back. */
static model_mended mended(const uint8_t *input, size_t length)
{
    uint8_t *own = lent(input, length);
    const model_mended m = model_mend(own, length, kept, page);
    free(own);
    CHECK(m.kept <= sizeof kept && m.listed <= 3641 * 23);
    CHECK((m.kept == sizeof kept || kept[m.kept] == UNWRITTEN) && page[m.listed] == UNWRITTEN);
    CHECK(calls % 32 != 0 || rest_is_unwritten(m.listed, m.kept));
    return m;
}

static void take_back(model_mended m)
{
    memset(kept, UNWRITTEN, m.kept);
    memset(page, UNWRITTEN, m.listed);
}

static int mends(const uint8_t *input, size_t length, const uint8_t *whole, size_t whole_length, const char *list)
{
    const model_mended m = mended(input, length);
    const int same = m.refusal == 0 && m.kept == whole_length && memcmp(kept, whole, whole_length) == 0 &&
                     m.listed == strlen(list) && memcmp(page, list, m.listed) == 0;
    take_back(m);
    return same;
}

static void test_mending_worked(void)
{
    uint8_t whole[34], sheet[17 * 4];
    put_reading(whole, 1, 0x08, 0x7F, 2);
    put_reading(whole + 17, 2, 0x8C, 0x4B, 5);
    CHECK(mends(whole, 34, whole, 34, ""));
    CHECK(mends(whole, 17, whole, 17, ""));
    CHECK(mends(whole, 0, whole, 0, ""));

    /* three stray bytes, a reading, one stray byte */
    memset(sheet, 0xAA, sizeof sheet);
    memcpy(sheet + 3, whole, 17);
    CHECK(mends(sheet, 21, whole, 17, "dropped 3 at 0\ndropped 1 at 20\n"));
    CHECK(mends(sheet, 20, whole, 17, "dropped 3 at 0\n"));
    CHECK(mends(sheet + 3, 18, whole, 17, "dropped 1 at 17\n"));
    /* the reading without its last byte, and every length below */
    for (size_t n = 1; n < 20; n++) {
        char expected[40];
        snprintf(expected, sizeof expected, "dropped %zu at 0\n", n);
        CHECK(mends(sheet, n, whole, 0, expected));
    }
    /* ten stray bytes between two readings, and as many behind them; then two readings side by side */
    memcpy(sheet, whole, 17);
    memset(sheet + 17, 0xAA, 10);
    memcpy(sheet + 27, whole + 17, 17);
    CHECK(mends(sheet, 54, whole, 34, "dropped 10 at 17\ndropped 10 at 44\n"));
    memcpy(sheet + 2, whole, 34);
    memset(sheet, 0x01, 2);
    CHECK(mends(sheet, 36, whole, 34, "dropped 2 at 0\n"));
    /* nothing but holes, of what a reading begins with too */
    memset(sheet, 0x01, sizeof sheet);
    CHECK(mends(sheet, 17, whole, 0, "dropped 17 at 0\n"));
    CHECK(mends(sheet, 68, whole, 0, "dropped 68 at 0\n"));
    for (size_t k = 0; k < 4; k++) {
        memcpy(sheet + 14 * k, whole, 14);
    }
    CHECK(mends(sheet, 56, whole, 0, "dropped 56 at 0\n"));
}

/*
 * A reading without its first n bytes, and two sound ones behind it; then with its first n bytes alone. Cut within its count, it
 * is whole with the first bytes of the next, of which the rest is dropped; cut before, it is dropped itself.
 */
static void test_mending_cut(void)
{
    uint8_t whole[51], sheet[51];
    char expected[40];
    for (size_t n = 1; n < 17; n++) {
        put_reading(whole, 1, 0x08, 0x7F, 0x0203);
        put_reading(whole + 17, 2, 0x8C, 0x4B, 5);
        put_reading(whole + 34, 3, 0x8C, 0x4B, 6);
        memcpy(sheet, whole + n, 17 - n);
        memcpy(sheet + 17 - n, whole + 17, 34);
        snprintf(expected, sizeof expected, "dropped %zu at 0\n", 17 - n);
        CHECK(mends(sheet, 51 - n, whole + 17, 34, expected));

        memcpy(sheet, whole, n);
        memcpy(sheet + n, whole + 17, 34);
        snprintf(expected, sizeof expected, "dropped %zu at %d\n", n, n < 15 ? 0 : 17);
        if (n < 15) {
            CHECK(mends(sheet, n + 34, whole + 17, 34, expected));
            CHECK(mends(sheet, n + 17, whole + 17, 17, expected));
        } else {
            whole[15] = n < 16 ? 0x01 : 0x02;
            whole[16] = n < 16 ? 0x00 : 0x01;
            memcpy(whole + 17, whole + 34, 17);
            CHECK(mends(sheet, n + 34, whole, 34, expected));
            CHECK(mends(sheet, n + 17, whole, 17, expected));
        }
    }
}

/* A reading with each byte at each of its places, and a sound one behind it. */
static void test_mending_bytes(void)
{
    uint8_t sheet[34];
    put_reading(sheet, 1, 0x08, 0x7F, 2);
    put_reading(sheet + 17, 2, 0x8C, 0x4B, 5);
    for (size_t place = 0; place < 17; place++) {
        const uint8_t was = sheet[place];
        for (unsigned byte = 0; byte < 256; byte++) {
            int sound = byte == was;
            if (place == 3) {
                sound = byte >= 1 && byte <= 5;
            } else if (place == 13) {
                sound = model_mask_keeps_rule((uint8_t)byte);
            } else if (place == 7 || place >= 15) {
                sound = 1;
            }
            sheet[place] = (uint8_t)byte;
            CHECK(sound ? mends(sheet, 34, sheet, 34, "") : mends(sheet, 34, sheet + 17, 17, "dropped 17 at 0\n"));
            CHECK(mends(sheet, 17, sheet, sound ? 17 : 0, sound ? "" : "dropped 17 at 0\n"));
        }
        sheet[place] = was;
    }
}

/* The longest input: nothing but zeros, nothing but readings, the most stretches. */
static void test_mending_longest(void)
{
    uint8_t *const big = calloc(65535, 1), *const whole = malloc(65535);
    char *const expected = malloc(MODEL_SHEET_TEXT);
    if (big == NULL || whole == NULL || expected == NULL) {
        abort();
    }
    CHECK(mends(big, 65535, whole, 0, "dropped 65535 at 0\n"));
    for (unsigned i = 0; i < 3855; i++) {
        put_reading(whole + 17 * i, (uint8_t)(1 + i % 5), (uint8_t)i, 0x7F, 17 * i);
    }
    CHECK(mends(whole, 65535, whole, 65535, ""));
    CHECK(mends(whole, 65534, whole, 65518, "dropped 16 at 65518\n"));

    size_t at = 0;
    for (unsigned i = 0; i < 3640; i++) {
        memcpy(big + 18 * i + 1, whole + 17 * i, 17);
        at += (size_t)sprintf(expected + at, "dropped 1 at %u\n", 18 * i);
    }
    CHECK(mends(big, 65520, whole, 61880, expected));
    at += (size_t)sprintf(expected + at, "dropped 15 at 65520\n");
    size_t stretches = 0;
    for (size_t i = 0; i < at; i++) {
        stretches += expected[i] == '\n';
    }
    CHECK(stretches == 3641 && mends(big, 65535, whole, 61880, expected));
    free(big);
    free(whole);
    free(expected);
}

/* Over the longest input: refused, whatever it holds, and nothing is written. */
static void test_mending_refused(void)
{
    static const size_t lengths[] = {65536, 65537, 65552};
    uint8_t *const big = calloc(65552, 1);
    if (big == NULL) {
        abort();
    }
    model_mended m;
    for (int turn = 0; turn < 2; turn++) {
        for (int i = 0; i < 3; i++) {
            m = mended(big, lengths[i]);
            CHECK(m.refusal == 21 && m.kept == 0 && m.listed == 0 && rest_is_unwritten(0, 0));
        }
        for (unsigned i = 0; i < 3856; i++) {
            put_reading(big + 17 * i, 1, 0x08, 0x7F, i);
        }
    }
    free(big);
    m = model_mend(NULL, SIZE_MAX, kept, page);
    CHECK(m.refusal == 21 && m.kept == 0 && m.listed == 0 && rest_is_unwritten(0, 0));
    m = model_mend(NULL, 0, kept, page);
    CHECK(m.refusal == 0 && m.kept == 0 && m.listed == 0 && rest_is_unwritten(0, 0));
}

/* A reading, or what is left of one, or stray bytes: at most 18 bytes. */
static uint8_t *put_torn(uint8_t *to)
{
    static const uint8_t availables[] = {0x49, 0x4B, 0x4F, 0x7F, 0xC9, 0xFF};
    const uint8_t position = (uint8_t)(1 + below(5));
    const uint8_t mask = (uint8_t)(below(2) ? below(4) : any());
    const uint8_t available = availables[below(6)];
    const unsigned count = below(2) ? 256 * below(4) : below(4) ? any() & 0xFFFF : 0xFFFF;
    put_reading(to, position, mask, available, count);
    const size_t place = below(17);
    const uint8_t byte = (uint8_t)(below(2) ? below(7) : any());
    switch (below(10)) {
    case 0: /* cut behind */
        return to + place;
    case 1: /* cut in front */
        memmove(to, to + place, 17 - place);
        return to + 17 - place;
    case 2: /* a byte dropped */
        memmove(to + place, to + place + 1, 16 - place);
        return to + 16;
    case 3: /* a byte too many */
        memmove(to + place + 1, to + place, 17 - place);
        to[place] = byte;
        return to + 18;
    case 4: /* a byte altered */
        to[place] = byte;
        return to + 17;
    case 5: /* stray bytes */
        memset(to, byte, place);
        return to + place;
    default:
        return to + 17;
    }
}

/* Reads a line `dropped LENGTH at OFFSET` of the page: how many bytes it has, 0 where it is none. */
static size_t dropped_line(const char *line, size_t *dropped, size_t *offset)
{
    char *end;
    char again[64];
    if (memcmp(line, "dropped ", 8) != 0) {
        return 0;
    }
    *dropped = strtoul(line + 8, &end, 10);
    *offset = memcmp(end, " at ", 4) == 0 ? strtoul(end + 4, &end, 10) : 0;
    const int n = snprintf(again, sizeof again, "dropped %zu at %zu\n", *dropped, *offset);
    return memcmp(line, again, (size_t)n) == 0 ? (size_t)n : 0;
}

static int is_sheet(const uint8_t *bytes, size_t length)
{
    const size_t n = model_count_sheet(bytes, length, text);
    return n >= strlen(HEADER) && memcmp(text, HEADER, strlen(HEADER)) == 0;
}

/* These bytes of the input are kept, from this place on: readings one after the other, each a sheet of its own. */
static void check_kept(const uint8_t *bytes, size_t length, size_t from)
{
    CHECK(length % 17 == 0 && memcmp(kept + from, bytes, length) == 0);
    for (size_t k = 0; k < length; k += 17) {
        CHECK(is_sheet(bytes + k, 17));
    }
}

/* The sentences, of what a mending kept and listed: kept and dropped bytes together are the input in order. */
static void check_sentences(const uint8_t *input, size_t length, model_mended m)
{
    size_t at = 0, taken = 0;
    for (size_t row = 0; row < m.listed;) {
        size_t dropped, offset;
        const size_t n = dropped_line(page + row, &dropped, &offset);
        CHECK(n > 0 && n <= m.listed - row);
        /* a stretch is not empty, and behind the one before it stands a reading */
        CHECK(dropped > 0 && (row == 0 ? offset >= at : offset > at) && offset <= length && dropped <= length - offset);
        CHECK(offset - at <= m.kept - taken);
        check_kept(input + at, offset - at, taken);
        taken += offset - at;
        /* no dropped byte begins a whole valid reading */
        for (at = offset; at < offset + dropped; at++) {
            CHECK(length - at < 17 || !is_sheet(input + at, 17));
        }
        row += n;
    }
    CHECK(length - at == m.kept - taken);
    check_kept(input + at, length - at, taken);
    CHECK(is_sheet(kept, m.kept));
}

/* One sheet with holes; what comes out is a sound one, and so comes out unchanged. Scratch has as many bytes as the sheet. */
static model_mended check_mending(const uint8_t *input, size_t length, uint8_t *scratch)
{
    const model_mended m = mended(input, length);
    CHECK(m.refusal == 0 && m.kept <= length);
    check_sentences(input, length, m);
    memcpy(scratch, kept, m.kept);
    take_back(m);
    CHECK(mends(scratch, m.kept, scratch, m.kept, ""));
    /* a sound sheet is one of which nothing is dropped */
    CHECK(is_sheet(input, length) == (m.listed == 0));
    return m;
}

static void test_mending_random(void)
{
    unsigned long kinds[4] = {0};
    for (int i = 0; i < 50000; i++) {
        uint8_t input[18 * 8], scratch[18 * 8];
        uint8_t *to = input;
        for (uint32_t parts = below(9); parts > 0; parts--) {
            to = put_torn(to);
        }
        const model_mended m = check_mending(input, (size_t)(to - input), scratch);
        kinds[2 * (m.kept != 0) + (m.listed != 0)]++;
    }
    for (int k = 0; k < 4; k++) {
        CHECK(kinds[k] > 500);
    }

    uint8_t *const big = malloc(65535 + 17), *const scratch = malloc(65535);
    if (big == NULL || scratch == NULL) {
        abort();
    }
    for (int i = 0; i < 4; i++) {
        for (uint8_t *to = big; to < big + 65535;) {
            to = put_torn(to);
        }
        const model_mended m = check_mending(big, 65535, scratch);
        CHECK(m.kept > 17 * 1000 && m.listed > 15 * 500);
    }
    free(big);
    free(scratch);
}

/* ---- logs ---------------------------------------------------------------------------------- */

/* Whether all of a block is as it was filled, but for `count` bytes behind the first eight. */
static int rest_is(const uint8_t *block, size_t size, size_t count, uint8_t filling)
{
    int same = 1;
    for (size_t i = 0; i < size; i++) {
        same &= (i >= 8 && i < 8 + count) || block[i] == filling;
    }
    return same;
}

static const uint8_t fillings[2] = {0x5A, 0xA5};

/* What a line gives, read twice, over two fillings: a byte of the data that is not told stays, and so do those around it. */
static model_log_frame line_read(const void *line, size_t length, uint8_t *data)
{
    uint8_t *const own = lent(line, length);
    model_log_frame first = {0};
    for (int turn = 0; turn < 2; turn++) {
        uint8_t block[8 + 8 + 8];
        memset(block, fillings[turn], sizeof block);
        const model_log_frame f = model_log_read(own, length, block + 8);
        CHECK(f.length <= 8 && rest_is(block, sizeof block, f.length, fillings[turn]));
        CHECK(turn == 0 || (f.refusal == first.refusal && f.passed_over == first.passed_over && f.length == first.length &&
                            f.identifier == first.identifier && f.stamp == first.stamp && memcmp(data, block + 8, f.length) == 0));
        memcpy(data, block + 8, f.length);
        first = f;
    }
    CHECK(memcmp(own, line, length) == 0);
    free(own);
    return first;
}

static int is_answer(model_log_frame f, uint8_t refusal, uint8_t passed_over)
{
    return f.refusal == refusal && f.passed_over == passed_over && f.length == 0 && f.identifier == 0 && f.stamp == 0;
}

/* "A refusal returns its number": every other number is 0, and no byte is told. */
static int line_refused(const void *line, size_t length, uint8_t refusal)
{
    uint8_t data[8];
    return is_answer(line_read(line, length, data), refusal, 0);
}

static int line_passed_over(const void *line, size_t length)
{
    uint8_t data[8];
    return is_answer(line_read(line, length, data), 0, 1);
}

static int line_is(const void *line, size_t length, uint32_t number, uint32_t stamp, const void *bytes, size_t count)
{
    uint8_t data[8];
    const model_log_frame f = line_read(line, length, data);
    return f.refusal == 0 && f.passed_over == 0 && f.identifier == number && f.stamp == stamp && f.length == count &&
           memcmp(data, bytes, count) == 0;
}

#define MALFORMED(text) CHECK(line_refused(text, strlen(text), 25))
#define TOO_LARGE(text) CHECK(line_refused(text, strlen(text), 2))
#define PASSED_OVER(text) CHECK(line_passed_over(text, strlen(text)))
#define FRAME(text, number, stamp, bytes) CHECK(line_is(text, strlen(text), number, stamp, bytes, sizeof(bytes) - 1))

static void test_log_worked(void)
{
    FRAME("(12.003000) can0 18CEC9EB#05023E00", 0x18CEC9EB, 12003, "\x05\x02\x3E\x00");
    FRAME("(0.000000) c 00000000#", 0, 0, "");
    FRAME("(1436509052.249713) vcan0 1FFFFFFF#FFEEDDCCBBAA9988", 0x1FFFFFFF, 1989975385, "\xFF\xEE\xDD\xCC\xBB\xAA\x99\x88");

    /* "whole milliseconds rounded down, modulo 2^32" */
    FRAME("(0.000999) can0 18CEC9EB#", 0x18CEC9EB, 0, "");
    FRAME("(0.001000) can0 18CEC9EB#", 0x18CEC9EB, 1, "");
    FRAME("(0.001999) can0 18CEC9EB#", 0x18CEC9EB, 1, "");
    FRAME("(0.999999) can0 18CEC9EB#", 0x18CEC9EB, 999, "");
    FRAME("(1.000000) can0 18CEC9EB#", 0x18CEC9EB, 1000, "");
    FRAME("(4294967.295000) can0 18CEC9EB#", 0x18CEC9EB, 4294967295u, "");
    FRAME("(4294967.295999) can0 18CEC9EB#", 0x18CEC9EB, 4294967295u, "");
    FRAME("(4294967.296000) can0 18CEC9EB#", 0x18CEC9EB, 0, "");
    FRAME("(4294967.297001) can0 18CEC9EB#", 0x18CEC9EB, 1, "");
    FRAME("(4294967295.999999) can0 18CEC9EB#", 0x18CEC9EB, 4294967295u, "");
    FRAME("(4294967296.000000) can0 18CEC9EB#", 0x18CEC9EB, 0, "");
    FRAME("(4294967296.000001) can0 18CEC9EB#", 0x18CEC9EB, 0, "");
    FRAME("(18446744073709551616.001000) can0 18CEC9EB#", 0x18CEC9EB, 1, "");
    FRAME("(100000000000000000000000000000.000000) can0 18CEC9EB#", 0x18CEC9EB, 0, "");
    FRAME("(123456789012345678901234567890.123456) can0 18CEC9EB#", 0x18CEC9EB, 2789360843u, "");
    FRAME("(000000000000000000000000000012.003000) can0 18CEC9EB#", 0x18CEC9EB, 12003, "");

    /* one or more blanks before the interface; any byte 21 to 7E in it, those that stand elsewhere in a line too */
    FRAME("(12.003000)  can0 18CEC9EB#05", 0x18CEC9EB, 12003, "\x05");
    FRAME("(12.003000)       can0 18CEC9EB#05", 0x18CEC9EB, 12003, "\x05");
    FRAME("(12.003000) ! 18CEC9EB#05", 0x18CEC9EB, 12003, "\x05");
    FRAME("(12.003000) ~ 18CEC9EB#05", 0x18CEC9EB, 12003, "\x05");
    FRAME("(12.003000) # 18CEC9EB#05", 0x18CEC9EB, 12003, "\x05");
    FRAME("(12.003000) 123#11 18CEC9EB#05", 0x18CEC9EB, 12003, "\x05");
    FRAME("(12.003000) (12.003000) 18CEC9EB#05", 0x18CEC9EB, 12003, "\x05");
    PASSED_OVER("(12.003000) 18CEC9EB#05 123#11");

    /* capital or small */
    FRAME("(12.003000) can0 18cec9eb#05023e00", 0x18CEC9EB, 12003, "\x05\x02\x3E\x00");
    FRAME("(12.003000) can0 18CeC9eB#aBcDeFAf", 0x18CEC9EB, 12003, "\xAB\xCD\xEF\xAF");

    /* R set, other groups: as they are */
    FRAME("(12.003000) can0 1ACEC9EB#", 0x1ACEC9EB, 12003, "");
    FRAME("(12.003000) can0 00000001#", 1, 12003, "");

    /* "Lines with three-digit identifiers are counted and passed over", whatever the digits */
    PASSED_OVER("(12.003000) can0 123#11");
    PASSED_OVER("(12.003000) can0 000#");
    PASSED_OVER("(12.003000) can0 7FF#");
    PASSED_OVER("(12.003000) can0 FFF#");
    PASSED_OVER("(12.003000) can0 fFa#0011223344556677");

    /* "then 2 for an identifier too large" */
    FRAME("(12.003000) can0 1FFFFFFF#", 0x1FFFFFFF, 12003, "");
    TOO_LARGE("(12.003000) can0 20000000#");
    TOO_LARGE("(12.003000) can0 20000000#1122334455667788");
    TOO_LARGE("(12.003000) can0 2000000f#");
    TOO_LARGE("(12.003000) can0 80000000#");
    TOO_LARGE("(12.003000) can0 98CEC9EB#05023E00");
    TOO_LARGE("(12.003000) can0 FFFFFFFF#00");
    TOO_LARGE("(12.003000) can0 ffffffff#00");
    MALFORMED("(12.003000) can0 20000000#0");
    MALFORMED("(12.003000) can0 20000000#112233445566778899");
    MALFORMED("(12.003000) can0 FFFFFFFF#0G");
    MALFORMED("(12.003000) can0 FFFFFFFF# ");
    MALFORMED("(12.003000) can0 FFFFFFFF#R");
}

/* Each way to be malformed that the sentences name, and its neighbours. */
static void test_log_malformed(void)
{
    static const char *const malformed[] = {
        "",
        " ",
        "\r",
        "\n",
        "(",
        "#",
        "18CEC9EB#05023E00",
        "can0 18CEC9EB#05023E00",
        /* a byte before or behind */
        " (12.003000) can0 18CEC9EB#05023E00",
        "((12.003000) can0 18CEC9EB#05023E00",
        "(12.003000) can0 18CEC9EB#05023E00\r",
        "(12.003000) can0 18CEC9EB#05023E00\n",
        "(12.003000) can0 18CEC9EB#05023E00 ",
        "(12.003000) can0 18CEC9EB#05023E00 R",
        "(12.003000) can0 18CEC9EB#05023E00 T",
        "(12.003000) can0 18CEC9EB#05023E00R",
        "(12.003000) can0 123#11\r",
        "(12.003000) can0 123#11 R",
        "(12.003000) can0 18CEC9EB#\r",
        "(12.003000) can0 18CEC9EB# R",
        /* remote frames, CAN FD, another mark */
        "(12.003000) can0 18CEC9EB#R",
        "(12.003000) can0 18CEC9EB#R8",
        "(12.003000) can0 123#R",
        "(12.003000) can0 18CEC9EB##0",
        "(12.003000) can0 18CEC9EB##105023E00",
        "(12.003000) can0 123##111",
        "(12.003000) can0 18CEC9EB#05023E00#",
        "(12.003000) can0 18CEC9EB05023E00",
        "(12.003000) can0 18CEC9EB",
        "(12.003000) can0 123",
        "(12.003000) can0 18CEC9EB 05023E00",
        "(12.003000) can0 18CEC9EB #05023E00",
        "(12.003000) can0 18CEC9EB# 05023E00",
        "(12.003000) can0 18CEC9EB#05 02 3E 00",
        "(12.003000) can0 18CEC9EB#05.02.3E.00",
        "(12.003000) can0 #05023E00",
        "(12.003000) can0 123#ABCD#",
        "(12.003000) can0 123#ABCD#00",
        "(12.003000) can0 18CE#9EB#00",
        "(12.003000) can0 18C#C9EB#00",
        /* seconds and microseconds */
        "(.003000) can0 18CEC9EB#05023E00",
        "(12.) can0 18CEC9EB#05023E00",
        "(12) can0 18CEC9EB#05023E00",
        "() can0 18CEC9EB#05023E00",
        "(12.00300) can0 18CEC9EB#05023E00",
        "(12.0030000) can0 18CEC9EB#05023E00",
        "(12.003) can0 18CEC9EB#05023E00",
        "(12.003000000) can0 18CEC9EB#05023E00",
        "(12,003000) can0 18CEC9EB#05023E00",
        "(12..003000) can0 18CEC9EB#05023E00",
        "(1.2.003000) can0 18CEC9EB#05023E00",
        "(+12.003000) can0 18CEC9EB#05023E00",
        "(-12.003000) can0 18CEC9EB#05023E00",
        "( 12.003000) can0 18CEC9EB#05023E00",
        "(1 2.003000) can0 18CEC9EB#05023E00",
        "(12 .003000) can0 18CEC9EB#05023E00",
        "(12. 03000) can0 18CEC9EB#05023E00",
        "(12.-03000) can0 18CEC9EB#05023E00",
        "(12.0030 0) can0 18CEC9EB#05023E00",
        "(12.003000 ) can0 18CEC9EB#05023E00",
        "(1A.003000) can0 18CEC9EB#05023E00",
        "(12.00300A) can0 18CEC9EB#05023E00",
        "12.003000 can0 18CEC9EB#05023E00",
        "12.003000) can0 18CEC9EB#05023E00",
        "(12.003000 can0 18CEC9EB#05023E00",
        "[12.003000] can0 18CEC9EB#05023E00",
        "(12.003000)) can0 18CEC9EB#05023E00",
        "(2026-02-10 12:00:03.003000) can0 18CEC9EB#05023E00",
        /* blanks and the interface */
        "(12.003000)can0 18CEC9EB#05023E00",
        "(12.003000) can018CEC9EB#05023E00",
        "(12.003000)can018CEC9EB#05023E00",
        "(12.003000) can0  18CEC9EB#05023E00",
        "(12.003000) can0   18CEC9EB#05023E00",
        "(12.003000) 18CEC9EB#05023E00",
        "(12.003000)  18CEC9EB#05023E00",
        "(12.003000) can0 can1 18CEC9EB#05023E00",
        "(12.003000)\tcan0 18CEC9EB#05023E00",
        "(12.003000) \tcan0 18CEC9EB#05023E00",
        "(12.003000) can0\t18CEC9EB#05023E00",
        "(12.003000) can0 \t18CEC9EB#05023E00",
        "(12.003000) can\t0 18CEC9EB#05023E00",
        "(12.003000) can\x7F 18CEC9EB#05023E00",
        "(12.003000) can\x80 18CEC9EB#05023E00",
        "(12.003000) can\xC3\xA9 18CEC9EB#05023E00",
        "(12.003000) can0",
        "(12.003000) can0 ",
        "(12.003000) ",
        "(12.003000)",
        /* what is no hexadecimal digit */
        "(12.003000) can0 G8CEC9EB#05023E00",
        "(12.003000) can0 18CEC9EG#05023E00",
        "(12.003000) can0 0x18CEC9EB#05023E00",
        "(12.003000) can0 0x18CEC9#05023E00",
        "(12.003000) can0 -8CEC9EB#05023E00",
        "(12.003000) can0 12G#11",
        "(12.003000) can0 123#1G",
        "(12.003000) can0 123#g1",
        "(12.003000) can0 18CEC9EB#0502:E00",
        "(12.003000) can0 18CEC9EB#0502@E00",
        "(12.003000) can0 18CEC9EB#0502`E00",
        "(12.003000) can0 18CEC9EB#0502/E00",
        "(12.003000) can0 18CEC9EB#05023E0x",
        /* two lines */
        "(12.003000) can0 18CEC9EB#05023E00\n(12.004000) can0 18CEC9EB#05023E00",
        "(12.003000) can0 18CEC9EB#05023E00(12.004000) can0 18CEC9EB#05023E00",
        "(12.003000) can0 18CEC9EB#05023E00 (12.004000) can0 18CEC9EB#05023E00",
    };
    for (size_t i = 0; i < sizeof malformed / sizeof malformed[0]; i++) {
        MALFORMED(malformed[i]);
    }
    /* a zero byte is a byte like others, and ends nothing */
    CHECK(line_refused("(12.003000) can0 18CEC9EB#0502\0", 31, 25));
    CHECK(line_refused("(12.003000) can0 18CEC9EB#0502\0\0", 32, 25));
    CHECK(line_refused("(12.003000) can0 18CEC9EB\0#0502", 31, 25));
    CHECK(line_refused("(12.003000)\0can0 18CEC9EB#0502", 30, 25));
    CHECK(line_refused("(12.003000) c\0n0 18CEC9EB#0502", 30, 25));
    CHECK(line_refused("\0(12.003000) can0 18CEC9EB#0502", 31, 25));

    uint8_t data[8];
    CHECK(is_answer(model_log_read(NULL, 0, data), 25, 0));
    CHECK(is_answer(model_log_read(NULL, SIZE_MAX, data), 25, 0));
}

/* Every number of digits of the seconds, of the microseconds, of the name and of the data; every number of blanks. */
static void test_log_counts(void)
{
    static const char digits[] = "12345678901234567890123456789012345678";
    char line[128];
    const uint8_t bytes[8] = {0x12, 0x34, 0x56, 0x78, 0x90, 0x12, 0x34, 0x56};
    for (int count = 0; count <= 36; count++) {
        /* more than 8 data bytes, or half a byte */
        const int sound = count % 2 == 0 && count <= 16;
        size_t n = (size_t)sprintf(line, "(12.003000) can0 18CEC9EB#%.*s", count, digits);
        CHECK(sound ? line_is(line, n, 0x18CEC9EB, 12003, bytes, (size_t)count / 2) : line_refused(line, n, 25));
        n = (size_t)sprintf(line, "(12.003000) can0 123#%.*s", count, digits);
        CHECK(sound ? line_passed_over(line, n) : line_refused(line, n, 25));
        n = (size_t)sprintf(line, "(12.003000) can0 20000000#%.*s", count, digits);
        CHECK(line_refused(line, n, sound ? 2 : 25));

        n = (size_t)sprintf(line, "(12.003000) can0 %.*s#1234", count, digits);
        CHECK(count == 8   ? line_is(line, n, 0x12345678, 12003, bytes, 2)
              : count == 3 ? line_passed_over(line, n)
                           : line_refused(line, n, 25));
        n = (size_t)sprintf(line, "(12.%.*s) can0 18CEC9EB#1234", count, digits);
        CHECK(count == 6 ? line_is(line, n, 0x18CEC9EB, 12123, bytes, 2) : line_refused(line, n, 25));

        n = (size_t)sprintf(line, "(12.003000)%*scan0 18CEC9EB#1234", count, "");
        CHECK(count > 0 ? line_is(line, n, 0x18CEC9EB, 12003, bytes, 2) : line_refused(line, n, 25));
        n = (size_t)sprintf(line, "(12.003000) can0%*s18CEC9EB#1234", count, "");
        CHECK(count == 1 ? line_is(line, n, 0x18CEC9EB, 12003, bytes, 2) : line_refused(line, n, 25));
        n = (size_t)sprintf(line, "(12.003000) %.*s 18CEC9EB#1234", count, digits);
        CHECK(count > 0 ? line_is(line, n, 0x18CEC9EB, 12003, bytes, 2) : line_refused(line, n, 25));
        n = (size_t)sprintf(line, "(%.*s.003000) can0 123#1234", count, digits);
        CHECK(count > 0 ? line_passed_over(line, n) : line_refused(line, n, 25));
    }
}

static const char hexadecimal[] = "0123456789ABCDEFabcdef";

/*
 * What a place of a line takes, by its mark: d a decimal digit; v a byte 21 to 7E; b that or a blank, where it may as well be the last
 * of the blanks before the interface; x a hexadecimal digit; t the same, of which 2 and more make the identifier too large; any other
 * mark that byte alone. The value is that of a hexadecimal digit, 16 for any other byte.
 */
static int takes(char mark, unsigned byte, unsigned *value)
{
    *value = 16;
    for (unsigned i = 0; i < 22; i++) {
        if (byte == (unsigned char)hexadecimal[i]) {
            *value = i < 16 ? i : i - 6;
        }
    }
    switch (mark) {
    case 'd':
        return byte >= '0' && byte <= '9';
    case 'v':
        return byte >= 0x21 && byte <= 0x7E;
    case 'b':
        return byte >= 0x20 && byte <= 0x7E;
    case 'x':
    case 't':
        return *value < 16;
    default:
        return byte == (unsigned char)mark;
    }
}

/* A sound line with each byte at each of its places. */
static void check_places(const char *sound, const char *marks)
{
    const size_t length = strlen(sound);
    CHECK(length == strlen(marks) && length < 64);
    char line[64];
    for (size_t place = 0; place < length; place++) {
        for (unsigned byte = 0; byte < 256; byte++) {
            memcpy(line, sound, length);
            line[place] = (char)byte;
            unsigned value, nibbles[24];
            if (!takes(marks[place], byte, &value)) {
                CHECK(line_refused(line, length, 25));
                continue;
            }
            /* the digits, one after the other: those of the time, then those of the name and of the data */
            uint64_t time = 0;
            uint32_t number = 0;
            size_t count = 0, name = 0;
            for (size_t i = 0; i < length; i++) {
                CHECK(takes(marks[i], (unsigned char)line[i], &value));
                if (marks[i] == 'd') {
                    time = 10 * time + value;
                } else if (marks[i] == 'x' || marks[i] == 't') {
                    nibbles[count++] = value;
                } else if (marks[i] == '#') {
                    name = count;
                }
            }
            for (size_t i = 0; i < name; i++) {
                number = 16 * number + nibbles[i];
            }
            uint8_t bytes[8];
            for (size_t i = name; i < count; i += 2) {
                bytes[(i - name) / 2] = (uint8_t)(16 * nibbles[i] + nibbles[i + 1]);
            }
            CHECK(name == 3         ? line_passed_over(line, length)
                  : nibbles[0] >= 2 ? line_refused(line, length, 2)
                                    : line_is(line, length, number, (uint32_t)(time / 1000), bytes, (count - name) / 2));
        }
    }
}

static void test_log_bytes(void)
{
    check_places("(12.003000) can0 18CEC9EB#05023E00",
                 "(dd.dddddd) bvvv txxxxxxx#xxxxxxxx");
    check_places("(7.999999)   can0 1fffffff#ffeeddccbbaa9988",
                 "(d.dddddd)  bbvvv txxxxxxx#xxxxxxxxxxxxxxxx");
    check_places("(1436509.249713) c 00000000#",
                 "(ddddddd.dddddd) v txxxxxxx#");
    check_places("(0.000000) vcan12 7fF#0a",
                 "(d.dddddd) bvvvvv xxx#xx");
    check_places("(12.345678) c 123#",
                 "(dd.dddddd) v xxx#");
    check_places("(12.345678) can0 20000000#01",
                 "(dd.dddddd) bvvv txxxxxxx#xx");
}

/* At most 255 bytes, whichever part is long. */
static void test_log_longest(void)
{
    static const char *const fronts[3] = {"(", "(12.003000) ", "(12.003000)"};
    static const char *const backs[3] = {"12.003000) can0 ", " ", "can0 "};
    static const char *const names[3] = {"18CEC9EB#0502", "20000000#0502", "123#0502"};
    static const char between[3] = {'0', 'x', ' '};
    char line[600];
    for (int part = 0; part < 3; part++) {
        for (int name = 0; name < 3; name++) {
            const size_t front = strlen(fronts[part]), back = strlen(backs[part]), end = strlen(names[name]);
            for (size_t length = front + 1 + back + end; length < sizeof line; length++) {
                memset(line, between[part], sizeof line);
                memcpy(line, fronts[part], front);
                memcpy(line + length - end - back, backs[part], back);
                memcpy(line + length - end, names[name], end);
                CHECK(length > 255 ? line_refused(line, length, 25)
                      : name == 0  ? line_is(line, length, 0x18CEC9EB, 12003, "\x05\x02", 2)
                      : name == 1  ? line_refused(line, length, 2)
                                   : line_passed_over(line, length));
            }
        }
    }
    /* a sound line with 256 bytes behind it, or 65,536: in its low bytes the length is that of the sound one */
    char *const longer = calloc(65536 + 34, 1);
    if (longer == NULL) {
        abort();
    }
    memcpy(longer, "(12.003000) can0 18CEC9EB#05023E00", 34);
    CHECK(line_is(longer, 34, 0x18CEC9EB, 12003, "\x05\x02\x3E\x00", 4));
    CHECK(line_refused(longer, 256 + 34, 25) && line_refused(longer, 65536 + 34, 25));
    free(longer);
}

/* The form of a line, part by part: what its bytes are, and how many, from the least to the most by steps. */
enum { SECONDS = 1, POINT = 2, MICROSECONDS = 3, NAME = 8, DATA = 10, PARTS = 11 };
static const struct {
    char mark;
    size_t least, most, step;
} form[PARTS] = {
    {'(', 1, 1, 1}, {'d', 1, 255, 1}, {'.', 1, 1, 1}, {'d', 6, 6, 1}, {')', 1, 1, 1}, {' ', 1, 255, 1},
    {'v', 1, 255, 1}, {' ', 1, 1, 1}, {'x', 3, 8, 5}, {'#', 1, 1, 1}, {'x', 0, 16, 2},
};

/* Whether the bytes from a place on can be parted so, each part with any count that it may have; and where the parts then begin. */
static int has_form(const uint8_t *line, size_t length, unsigned part, size_t at, size_t *begins)
{
    begins[part] = at;
    if (part == PARTS) {
        return at == length;
    }
    for (size_t count = 0;; count++) {
        unsigned value;
        if (count >= form[part].least && (count - form[part].least) % form[part].step == 0 &&
            has_form(line, length, part + 1, at + count, begins)) {
            return 1;
        }
        if (count == form[part].most || at + count == length || !takes(form[part].mark, line[at + count], &value)) {
            return 0;
        }
    }
}

/* The number that the digits write, in bytes from the lowest on, one for two digits: the first four are what it is modulo 2^32. */
static uint32_t modulo_2_32(const uint8_t *digits, size_t count)
{
    uint8_t number[4 + 258 / 2] = {0};
    for (size_t k = 0; k < count; k++) {
        unsigned carry = digits[k] - '0';
        for (size_t i = 0; i < 4 + count / 2; i++) {
            carry += 10u * number[i];
            number[i] = (uint8_t)carry;
            carry >>= 8;
        }
        CHECK(carry == 0);
    }
    return (uint32_t)number[3] << 24 | (uint32_t)number[2] << 16 | (uint32_t)number[1] << 8 | number[0];
}

/* One line by the form: 0 a frame, 1 passed over, 2 an identifier too large, 3 malformed. */
static int check_line(const uint8_t *line, size_t length)
{
    size_t begins[PARTS + 1];
    if (length > 255 || !has_form(line, length, 0, 0, begins)) {
        CHECK(line_refused(line, length, 25));
        return 3;
    }
    if (begins[NAME + 1] - begins[NAME] == 3) {
        CHECK(line_passed_over(line, length));
        return 1;
    }
    char name[9] = "";
    memcpy(name, line + begins[NAME], 8);
    const unsigned long number = strtoul(name, NULL, 16);
    if (number > 0x1FFFFFFFul) {
        CHECK(line_refused(line, length, 2));
        return 2;
    }
    /* seconds times 1000 plus the milliseconds: their digits behind the seconds' */
    uint8_t digits[258], bytes[8];
    const size_t seconds = begins[POINT] - begins[SECONDS], count = (length - begins[DATA]) / 2;
    memcpy(digits, line + begins[SECONDS], seconds);
    memcpy(digits + seconds, line + begins[MICROSECONDS], 3);
    for (size_t i = 0; i < count; i++) {
        char pair[3] = "";
        memcpy(pair, line + begins[DATA] + 2 * i, 2);
        bytes[i] = (uint8_t)strtoul(pair, NULL, 16);
    }
    CHECK(line_is(line, length, (uint32_t)number, modulo_2_32(digits, seconds + 3), bytes, count));
    return 0;
}

/* A sound line cut at each place, before it and behind; without each of its bytes; with each byte more, at each place. */
static void check_edits(const char *sound)
{
    const size_t length = strlen(sound);
    uint8_t line[64];
    for (size_t place = 0; place <= length; place++) {
        memcpy(line, sound, length);
        check_line(line, place);
        check_line(line + place, length - place);
        if (place < length) {
            memcpy(line + place, sound + place + 1, length - place - 1);
            check_line(line, length - 1);
        }
        memcpy(line, sound, place);
        memcpy(line + place + 1, sound + place, length - place);
        for (unsigned byte = 0; byte < 256; byte++) {
            line[place] = (uint8_t)byte;
            check_line(line, length + 1);
        }
    }
}

static void test_log_edits(void)
{
    check_edits("(12.003000) can0 18CEC9EB#05023E00");
    check_edits("(12.003000) can0 18CEC9EB#");
    check_edits("(12.003000)  can0 1fffffff#05023e00aabbccdd");
    check_edits("(1436509052.249713) c 123#");
    check_edits("(0.000000) c 20000000#0a");
}

static uint8_t *put_digits(uint8_t *to, const char *digits, uint32_t of, uint32_t count)
{
    for (uint32_t i = 0; i < count; i++) {
        *to++ = (uint8_t)digits[below(of)];
    }
    return to;
}

/* A line by the form, of up to 258 bytes. */
static size_t put_log_line(uint8_t *line)
{
    static const char *const names[] = {"1FFFFFFF", "20000000", "1fffffff", "18CEC9EB", "00000000", "2000000A", "FFFFFFFF"};
    uint8_t *to = line;
    *to++ = '(';
    to = put_digits(to, hexadecimal, 10, 1 + below(below(8) ? 11 : 60));
    *to++ = '.';
    to = put_digits(to, hexadecimal, 10, 6);
    *to++ = ')';
    to = put_digits(to, " ", 1, 1 + (below(3) ? 0 : below(8) ? below(4) : below(40)));
    const uint32_t before = (uint32_t)(to - line);
    for (uint32_t i = below(16) ? 1 + below(6) : 224 + below(9) - before; i > 0; i--) {
        *to++ = (uint8_t)(0x21 + below(0x5E));
    }
    *to++ = ' ';
    if (below(4) == 0) {
        to = put_digits(to, hexadecimal, 22, 3);
    } else if (below(3) == 0) {
        memcpy(to, names[below(7)], 8);
        to += 8;
    } else {
        *to++ = (uint8_t)hexadecimal[below(8) ? below(2) : below(22)];
        to = put_digits(to, hexadecimal, 22, 7);
    }
    *to++ = '#';
    to = put_digits(to, hexadecimal, 22, below(2) ? 16 : 2 * below(9));
    return (size_t)(to - line);
}

/* One byte replaced, dropped or too many, or the line cut; how many bytes it then has. */
static size_t damaged_line(uint8_t *line, size_t length)
{
    static const char marks[] = "()., #0129aAfFgGRT\r\n\t";
    if (length == 0) {
        return 0;
    }
    const size_t place = below(4) ? below((uint32_t)length) : length - 1;
    const uint8_t byte = below(3) ? (uint8_t)marks[below(sizeof marks - 1)] : (uint8_t)any();
    switch (below(5)) {
    case 0:
        line[place] = byte;
        return length;
    case 1:
        memmove(line + place, line + place + 1, length - place - 1);
        return length - 1;
    case 2:
        memmove(line + place + 1, line + place, length - place);
        line[place + below(2)] = byte;
        return length + 1;
    case 3:
        return place;
    default: /* a byte behind */
        line[length] = byte;
        return length + 1;
    }
}

static void test_log_random(void)
{
    unsigned long kinds[4] = {0}, longest = 0;
    for (int i = 0; i < 100000; i++) {
        uint8_t line[300];
        size_t length = put_log_line(line);
        CHECK(length > 255 || check_line(line, length) < 3);
        longest += length == 255 || length == 256;
        for (uint32_t times = below(3); times > 0; times--) {
            length = damaged_line(line, length);
        }
        kinds[check_line(line, length)]++;
    }
    for (int k = 0; k < 4; k++) {
        CHECK(kinds[k] > 500);
    }
    CHECK(longest > 500);
}

/* A line written, twice, over two fillings: what is not the line's stays. */
static model_log_line line_written(uint32_t number, const void *data, size_t count, uint32_t stamp, char *line)
{
    uint8_t *const own = lent(data, count);
    model_log_line first = {0};
    for (int turn = 0; turn < 2; turn++) {
        uint8_t block[8 + MODEL_LOG_TEXT + 8];
        memset(block, fillings[turn], sizeof block);
        const model_log_line l = model_log_write(number, own, count, stamp, (char *)block + 8);
        CHECK(l.length <= MODEL_LOG_TEXT && rest_is(block, sizeof block, l.length, fillings[turn]));
        CHECK(turn == 0 || (l.refusal == first.refusal && l.length == first.length && memcmp(line, block + 8, l.length) == 0));
        memcpy(line, block + 8, l.length);
        first = l;
    }
    CHECK(memcmp(own, data, count) == 0);
    free(own);
    return first;
}

/* It is this line, and without its newline it reads as the same frame. */
static int writes_line(uint32_t number, const void *data, size_t count, uint32_t stamp, const char *expected)
{
    char line[MODEL_LOG_TEXT];
    const model_log_line l = line_written(number, data, count, stamp, line);
    return l.refusal == 0 && l.length == strlen(expected) && memcmp(line, expected, l.length) == 0 && line[l.length - 1] == '\n' &&
           line_is(line, l.length - 1u, number, stamp, data, count);
}

/* The line as the C library prints it. */
static int writes_frame(uint32_t number, const uint8_t *data, size_t count, uint32_t stamp)
{
    char expected[64];
    int at = sprintf(expected, "(%u.%03u000) can0 %08X#", (unsigned)(stamp / 1000), (unsigned)(stamp % 1000), (unsigned)number);
    for (size_t i = 0; i < count; i++) {
        at += sprintf(expected + at, "%02X", data[i]);
    }
    sprintf(expected + at, "\n");
    return writes_line(number, data, count, stamp, expected);
}

static void test_log_written(void)
{
    static const uint8_t bytes[16] = {0x05, 0x02, 0x3E, 0x00, 0xFF, 0xAB, 0xCD, 0xEF};
    CHECK(writes_line(0x18CEC9EB, bytes, 4, 12003, "(12.003000) can0 18CEC9EB#05023E00\n"));
    CHECK(writes_line(0x18CEC9EB, bytes, 8, 12003, "(12.003000) can0 18CEC9EB#05023E00FFABCDEF\n"));
    CHECK(writes_line(0, bytes, 0, 0, "(0.000000) can0 00000000#\n"));
    CHECK(writes_line(0x18CEC9EB, bytes, 0, 1, "(0.001000) can0 18CEC9EB#\n"));
    CHECK(writes_line(0x18CEC9EB, bytes, 0, 10, "(0.010000) can0 18CEC9EB#\n"));
    CHECK(writes_line(0x18CEC9EB, bytes, 0, 999, "(0.999000) can0 18CEC9EB#\n"));
    CHECK(writes_line(0x18CEC9EB, bytes, 0, 1000, "(1.000000) can0 18CEC9EB#\n"));
    CHECK(writes_line(0x18CEC9EB, bytes, 1, 10000, "(10.000000) can0 18CEC9EB#05\n"));
    CHECK(writes_line(0x18CEC9EB, bytes, 1, 4294967294u, "(4294967.294000) can0 18CEC9EB#05\n"));
    CHECK(writes_line(0x1FFFFFFF, bytes, 8, 4294967295u, "(4294967.295000) can0 1FFFFFFF#05023E00FFABCDEF\n"));
    CHECK(writes_line(0x1ABCDEF0, bytes, 2, 999999, "(999.999000) can0 1ABCDEF0#0502\n"));

    /* "export refuses by 2 and 3" */
    const struct {
        uint32_t number;
        size_t count;
        uint8_t refusal;
    } refused[] = {
        {0x20000000, 0, 2}, {0x20000000, 8, 2}, {0x20000000, 9, 2}, {0xFFFFFFFF, 9, 2}, {0x98CEC9EB, 4, 2},
        {0x1FFFFFFF, 9, 3}, {0, 9, 3},          {0, 16, 3},
    };
    char line[MODEL_LOG_TEXT];
    for (size_t i = 0; i < sizeof refused / sizeof refused[0]; i++) {
        const model_log_line l = line_written(refused[i].number, bytes, refused[i].count, 12003, line);
        CHECK(l.refusal == refused[i].refusal && l.length == 0);
    }
    CHECK(model_log_write(0x1FFFFFFF, NULL, SIZE_MAX, 0, line).refusal == 3);
    CHECK(model_log_write(0x20000000, NULL, SIZE_MAX, 0, line).refusal == 2);
    uint8_t longer[257 + 8] = {0};
    for (size_t count = 9; count < sizeof longer; count++) {
        const model_log_line l = line_written(0x18CEC9EB, longer, count, 0, line);
        CHECK(l.refusal == 3 && l.length == 0);
    }

    /* seconds of every number of digits, and each number of data bytes */
    for (uint32_t power = 1; power <= 1000000000u; power *= 10) {
        for (size_t count = 0; count <= 8; count++) {
            CHECK(writes_frame(0x18CEC9EB, bytes, count, power - 1) && writes_frame(0x18CEC9EB, bytes, count, power));
        }
    }
    for (int i = 0; i < 50000; i++) {
        uint8_t some[8];
        for (size_t k = 0; k < 8; k++) {
            some[k] = (uint8_t)any();
        }
        const uint32_t number = any() & 0x1FFFFFFFu, stamp = any() >> below(32);
        const size_t count = below(9);
        CHECK(writes_frame(number, some, count, stamp));
        const model_log_line l = line_written(number | (1 + below(7)) << 29, some, count, stamp, line);
        CHECK(l.refusal == 2 && l.length == 0);
    }
}

int main(int argc, char **argv)
{
    if (argc != 2) {
        fprintf(stderr, "selftest NAME\n");
        return 2;
    }
    test_identifier();
    test_vehicle();
    test_route();
    test_train();
    test_readings();
    test_node();
    test_receiver_worked();
    test_receiver_order();
    test_receiver_open();
    test_no_bytes();
    test_cutter();
    test_trains();
    test_record_rules();
    test_server_worked();
    test_server_random();
    test_sheet();
    test_ranking_worked();
    test_ranking_random();
    test_ranking_falling();
    test_mending_worked();
    test_mending_cut();
    test_mending_bytes();
    test_mending_longest();
    test_mending_refused();
    test_mending_random();
    test_log_worked();
    test_log_malformed();
    test_log_counts();
    test_log_bytes();
    test_log_longest();
    test_log_edits();
    test_log_random();
    test_log_written();
    CHECK(rest_is_unwritten(0, 0));
    printf("selftest of the %s: %lu checks passed\n", argv[1], checks);
    return 0;
}

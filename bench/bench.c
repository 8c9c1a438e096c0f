/*
 * One kind of work done again and again, by the archive or by the model, so that two runs of different length differ by
 * the work alone.
 *
 *     bench                            the names of the works, and how many calls a round has
 *     bench archive|model WORK ROUNDS  does it, and prints nothing: for a counter of instructions
 *     bench time WORK                  nanoseconds a call, of the archive and of the model: the least of a thousand samples, in turn
 *     bench stack WORK                 bytes of stack below the caller's, of the archive and of the model
 */
#include "castanhiu.h"
#include "model.h"

#include <stdio.h>
#include <stdlib.h>
#include <string.h>
#include <time.h>

static volatile unsigned long sink;

/* ---- frames received ----------------------------------------------------------------------- */

typedef struct {
    uint32_t number, stamp;
    uint8_t data[8];
    uint8_t length;
} line;

static line lines[4096];
static unsigned offered;

static void add(castanhiu_frame frame, uint32_t stamp)
{
    line *const l = &lines[offered++];
    l->number = frame.identifier;
    l->stamp = stamp;
    memcpy(l->data, frame.data, 8);
    l->length = frame.length;
}

static uint8_t message[255];

/* Three senders, one frame of each in turn: 3 x 43 frames for 3 x 255 bytes. */
static void trains(void)
{
    for (size_t i = 0; i < 43; i++) {
        for (uint8_t from = 0; from < 4; from++) {
            if (from != 1) {
                add(castanhiu_cut(message, 255, i, from, 1, 5), (uint32_t)(20 * i + from));
            }
        }
    }
}

static void singles(void)
{
    for (uint8_t length = 1; length <= 6; length++) {
        add(castanhiu_cut(message, length, 0, (uint8_t)(length % 2 == 0 ? 0 : 2), 1, 5), length);
    }
}

/* One frame for each of refusals 2, 4 to 10 and 12, of those that are by far the most on a bus: other vehicles' traffic. */
static void refused(void)
{
    castanhiu_frame f = castanhiu_cut(message, 6, 0, 0, 1, 5);
    const uint32_t numbers[] = {0x18CEC1EB, 0x18FEC9EB, 0x1ACEC9EB, 0x18CEC900, 0x18CEC9C9, 0x19CEC9EB, 0x38CEC9EB, 0x18CDC9EB};
    for (unsigned i = 0; i < sizeof numbers / sizeof numbers[0]; i++) {
        f.identifier = numbers[i];
        add(f, i);
    }
    f.identifier = 0x18CEC9EB;
    f.data[0] = 6;
    add(f, 20);
    f.data[0] = 5;
    f.data[1] = 0x30;
    add(f, 21);
    f.data[1] = 0x21;
    add(f, 22);
    f.data[1] = 0x50;
    add(f, 23);
}

/* A realistic mix: three trains side by side, a single frame after every third, a refused one after every second. */
static void mix(void)
{
    trains();
    const unsigned count = offered;
    line train[256];
    memcpy(train, lines, count * sizeof train[0]);
    offered = 0;
    singles();
    refused();
    line others[32];
    const unsigned other = offered;
    memcpy(others, lines, other * sizeof others[0]);
    offered = 0;
    for (unsigned i = 0; i < count; i++) {
        lines[offered++] = train[i];
        if (i % 3 == 2) { /* single frames come from a fourth vehicle, so that they end no train */
            lines[offered] = others[(i / 3) % 6];
            lines[offered].number = 0x18CEC9A9;
            lines[offered++].stamp = train[i].stamp;
        }
        if (i % 2 == 1) {
            lines[offered] = others[6 + (i / 2) % (other - 6)];
            lines[offered++].stamp = train[i].stamp;
        }
    }
}

static void receive_archive(unsigned long rounds)
{
    static uint8_t buffer[CASTANHIU_BUFFER];
    castanhiu_node node;
    castanhiu_start(&node, 5);
    for (unsigned long r = 0; r < rounds; r++) {
        for (unsigned i = 0; i < offered; i++) {
            const line *const l = &lines[i];
            sink += castanhiu_receive(&node, buffer, sizeof buffer, l->number, l->data, l->length, l->stamp).length;
        }
    }
}

static void receive_model(unsigned long rounds)
{
    static uint8_t buffer[MODEL_BUFFER_LENGTH];
    model_node node = model_start(5);
    for (unsigned long r = 0; r < rounds; r++) {
        for (unsigned i = 0; i < offered; i++) {
            const line *const l = &lines[i];
            const model_outcome a = model_receive(&node, buffer, sizeof buffer, l->number, l->data, l->length, l->stamp);
            sink += a.length;
        }
    }
}

/* ---- requests served ----------------------------------------------------------------------- */

static castanhiu_record record;
static uint8_t request[16];
static size_t request_length;

static void full_record(void)
{
    record.availability = 0x7F;
    record.count = 63;
    record.held = 16;
    for (unsigned i = 0; i < 63; i++) {
        record.codes[i] = 0x010203 + 16 * i;
        record.statuses[i] = i % 2 == 0 ? 0x08 : 0x09;
    }
    for (unsigned k = 0; k < 16; k++) {
        record.identifiers[k] = (uint16_t)(0xF180 + k);
        record.lengths[k] = 17;
    }
}

static void near_empty_record(void)
{
    record.availability = 0x7F;
    record.count = 1;
    record.codes[0] = 0x010203;
    record.statuses[0] = 0x08;
    record.held = 1;
    record.identifiers[0] = 0xF190;
    record.lengths[0] = 17;
}

static void asks(size_t length, const uint8_t *bytes)
{
    request_length = length;
    memcpy(request, bytes, length);
}

#define ASKS(...) asks(sizeof((const uint8_t[]){__VA_ARGS__}), (const uint8_t[]){__VA_ARGS__})

static void full_3e(void) { full_record(); ASKS(0x3E, 0x00); }
static void full_1901(void) { full_record(); ASKS(0x19, 0x01, 0x08); }
static void full_1902(void) { full_record(); ASKS(0x19, 0x02, 0x08); }
static void full_22(void) { full_record(); ASKS(0x22, 0xF1, 0x80, 0xF1, 0x85, 0xF1, 0x8A, 0xF1, 0x8F); }
static void full_14(void) { full_record(); ASKS(0x14, 0x01, 0x04, 0xE3); }
static void empty_3e(void) { near_empty_record(); ASKS(0x3E, 0x00); }
static void empty_1901(void) { near_empty_record(); ASKS(0x19, 0x01, 0x08); }
static void empty_22(void) { near_empty_record(); ASKS(0x22, 0xF1, 0x90); }
static void empty_14(void) { near_empty_record(); ASKS(0x14, 0x01, 0x02, 0x03); }

static void serve_archive(unsigned long rounds)
{
    static uint8_t response[CASTANHIU_RESPONSE];
    for (unsigned long r = 0; r < rounds; r++) {
        sink += castanhiu_serve(&record, request, request_length, false, response, sizeof response).length;
    }
}

static void serve_model(unsigned long rounds)
{
    static uint8_t response[MODEL_RESPONSE_LENGTH];
    static model_record own;
    memcpy(&own, &record, sizeof own);
    for (unsigned long r = 0; r < rounds; r++) {
        sink += model_serve(&own, request, request_length, 0, response, sizeof response).sent;
    }
}

/* ---- frames cut ---------------------------------------------------------------------------- */

static void nothing(void) {}

static void cut_archive(unsigned long rounds)
{
    for (unsigned long r = 0; r < rounds; r++) {
        for (size_t i = 0; i < 43; i++) {
            sink += castanhiu_cut(message, 255, i, 1, 0, 5).length;
        }
    }
}

static void cut_model(unsigned long rounds)
{
    for (unsigned long r = 0; r < rounds; r++) {
        for (uint32_t i = 0; i < 43; i++) {
            sink += model_cut(message, 255, i, 1, 0, 5).length;
        }
    }
}

/* ---- parameters read: of each kind 256 raw numbers, over all that its bytes hold ------------ */

static uint32_t raw_number(unsigned kind, unsigned i)
{
    return kind < 4 ? i : 257 * i;
}

static void read_archive(unsigned long rounds)
{
    for (unsigned long r = 0; r < rounds; r++) {
        for (unsigned i = 0; i < 8 * 256; i++) {
            sink += castanhiu_read_parameter((uint8_t)(i % 8), raw_number(i % 8, i / 8)).outcome;
        }
    }
}

static void read_model(unsigned long rounds)
{
    for (unsigned long r = 0; r < rounds; r++) {
        for (unsigned i = 0; i < 8 * 256; i++) {
            sink += model_read(i % 8, raw_number(i % 8, i / 8)).outcome;
        }
    }
}

/* ---- identifiers read and written back, frames routed --------------------------------------- */

/* To each position from each of the six, a group message, a message to all, and one from no vehicle: R is 0. */
static uint32_t number_at(unsigned i)
{
    static const uint8_t addresses[8] = {0xEB, 0xC9, 0xC1, 0xB9, 0xB1, 0xA9, 0xFF, 0xC8};
    const uint32_t format = i % 64 < 56 ? 206 : 254;
    return UINT32_C(6) << 26 | format << 16 | (uint32_t)addresses[i / 8 % 8] << 8 | addresses[i % 8];
}

static void identifier_archive(unsigned long rounds)
{
    for (unsigned long r = 0; r < rounds; r++) {
        for (unsigned i = 0; i < 64; i++) {
            sink += castanhiu_identifier_write(castanhiu_identifier_read(number_at(i)).fields).number;
        }
    }
}

static void identifier_model(unsigned long rounds)
{
    for (unsigned long r = 0; r < rounds; r++) {
        for (unsigned i = 0; i < 64; i++) {
            const model_identifier f = model_identifier_read(number_at(i));
            sink += model_identifier_write(f.priority, f.reserved, f.data_page, f.format, f.specific, f.source).number;
        }
    }
}

/* From each side, at each position but the last. */
static void route_archive(unsigned long rounds)
{
    for (unsigned long r = 0; r < rounds; r++) {
        for (unsigned i = 0; i < 512; i++) {
            sink += castanhiu_route((uint8_t)(i / 64 % 2), (uint8_t)(1 + i / 128), true, number_at(i), message, 8).onward;
        }
    }
}

static void route_model(unsigned long rounds)
{
    for (unsigned long r = 0; r < rounds; r++) {
        for (unsigned i = 0; i < 512; i++) {
            sink += model_route(i / 64 % 2, 1 + i / 128, 1, number_at(i), 8).sent_on;
        }
    }
}

/* ---- a sheet, and the page of one mask ------------------------------------------------------ */

static uint8_t input[65535];
static size_t input_length;

static void add_reading(uint8_t mask, uint8_t available, unsigned count)
{
    const uint8_t reading[17] = {1, 0, 1, (uint8_t)(1 + count % 5), 2, 0, 1, mask, 3, 0, 6, 0x59, 0x01, available, 0x03,
                                 (uint8_t)(count >> 8), (uint8_t)count};
    memcpy(input + input_length, reading, 17);
    input_length += 17;
}

static void full_sheet(void)
{
    for (unsigned i = 0; i < 3855; i++) {
        add_reading((uint8_t)(0x08 + i % 3), 0x4B, i);
    }
}

/* Readings of one mask, each with another count, the highest first. */
static void falling(unsigned readings)
{
    while (readings > 0) {
        add_reading(0x0C, 0x7F, --readings);
    }
}

static void falling_100(void) { falling(100); }
static void falling_1000(void) { falling(1000); }
static void falling_3855(void) { falling(3855); }

/* The same with every third reading excluded. */
static void excluding(void)
{
    for (unsigned i = 3855; i > 0; i--) {
        add_reading(0x0C, i % 3 == 0 ? 0x49 : 0x7F, i);
    }
}

static void sheet_archive(unsigned long rounds)
{
    static uint8_t page[CASTANHIU_PAGE];
    for (unsigned long r = 0; r < rounds; r++) {
        sink += castanhiu_sheet_text(input, input_length, page);
    }
}

static void sheet_model(unsigned long rounds)
{
    static char page[MODEL_SHEET_TEXT];
    for (unsigned long r = 0; r < rounds; r++) {
        sink += model_count_sheet(input, input_length, page);
    }
}

static void ranking_archive(unsigned long rounds)
{
    static uint8_t page[CASTANHIU_PAGE];
    for (unsigned long r = 0; r < rounds; r++) {
        sink += castanhiu_ranking_text(input, input_length, 0x0C, page);
    }
}

static void ranking_model(unsigned long rounds)
{
    static char page[MODEL_SHEET_TEXT];
    for (unsigned long r = 0; r < rounds; r++) {
        sink += model_ranking(input, input_length, 0x0C, page);
    }
}

/* ---- a sheet with holes mended -------------------------------------------------------------- */

static void add_stray(void)
{
    input[input_length++] = 0xFF;
}

/* Readings with one stray byte before each. */
static void holes(unsigned readings)
{
    for (unsigned i = 0; i < readings; i++) {
        add_stray();
        add_reading(0x0C, 0x7F, i);
    }
}

static void holes_100(void) { holes(100); }
static void holes_1000(void) { holes(1000); }

/* As many as there can be, and stray bytes up to the longest input. */
static void full_of_holes(void)
{
    holes(3640);
    while (input_length < sizeof input) {
        add_stray();
    }
}

/* Each byte is the tag of a reading's first field, and none begins one. */
static void no_reading(void)
{
    memset(input, 0x01, sizeof input);
    input_length = sizeof input;
}

static void mend_archive(unsigned long rounds)
{
    static uint8_t kept[CASTANHIU_SHEET], page[CASTANHIU_PAGE];
    for (unsigned long r = 0; r < rounds; r++) {
        sink += castanhiu_mend(input, input_length, kept, page).kept;
    }
}

static void mend_model(unsigned long rounds)
{
    static uint8_t kept[MODEL_SHEET_INPUT_MAX];
    static char page[MODEL_SHEET_TEXT];
    for (unsigned long r = 0; r < rounds; r++) {
        sink += model_mend(input, input_length, kept, page).kept;
    }
}

/* ---- lines of a log read, and written ------------------------------------------------------- */

enum { LOG_LINES = 1000 };

static struct {
    uint8_t text[64], data[8];
    size_t length, count;
    uint32_t number, stamp;
} logged[LOG_LINES];

/* Spread numbers, the same in every run. */
static uint32_t spread;

static uint32_t next(void)
{
    spread ^= spread << 13;
    spread ^= spread >> 17;
    spread ^= spread << 5;
    return spread;
}

/* Lines of four seconds, from two interfaces: half have 8 data bytes, the others 0 to 8; a tenth have a name of three digits. */
static void log_lines(void)
{
    spread = 1;
    for (unsigned i = 0; i < LOG_LINES; i++) {
        char *const to = (char *)logged[i].text;
        int at = sprintf(to, "(%u.%06u)", 1436509052 + i / 250, next() % 1000000);
        at += sprintf(to + at, " can%u ", next() % 2);
        at += next() % 10 == 0 ? sprintf(to + at, "%03X#", next() % 0x800) : sprintf(to + at, "%08X#", next() % 0x20000000);
        for (unsigned bytes = next() % 2 == 0 ? 8 : next() % 9; bytes > 0; bytes--) {
            at += sprintf(to + at, "%02X", next() % 256);
        }
        logged[i].length = (size_t)at;
    }
}

/* A quarter of them have a carriage return at some place, or behind. */
static void broken_lines(void)
{
    log_lines();
    for (unsigned i = 0; i < LOG_LINES; i++) {
        if (next() % 4 == 0) {
            const size_t place = next() % (logged[i].length + 1);
            logged[i].length += place == logged[i].length;
            logged[i].text[place] = '\r';
        }
    }
}

static void log_frames(void)
{
    spread = 1;
    for (unsigned i = 0; i < LOG_LINES; i++) {
        logged[i].number = next() % 0x20000000;
        logged[i].stamp = next();
        logged[i].count = next() % 2 == 0 ? 8 : next() % 9;
        for (unsigned k = 0; k < 8; k++) {
            logged[i].data[k] = (uint8_t)next();
        }
    }
}

static void log_read_archive(unsigned long rounds)
{
    static uint8_t data[CASTANHIU_DATA];
    for (unsigned long r = 0; r < rounds; r++) {
        for (unsigned i = 0; i < LOG_LINES; i++) {
            sink += castanhiu_log_read(logged[i].text, logged[i].length, data).stamp;
        }
    }
}

static void log_read_model(unsigned long rounds)
{
    static uint8_t data[8];
    for (unsigned long r = 0; r < rounds; r++) {
        for (unsigned i = 0; i < LOG_LINES; i++) {
            sink += model_log_read(logged[i].text, logged[i].length, data).stamp;
        }
    }
}

static void log_write_archive(unsigned long rounds)
{
    static uint8_t text[CASTANHIU_LOG_TEXT];
    for (unsigned long r = 0; r < rounds; r++) {
        for (unsigned i = 0; i < LOG_LINES; i++) {
            sink += castanhiu_log_write(logged[i].number, logged[i].data, logged[i].count, logged[i].stamp, text).length;
        }
    }
}

static void log_write_model(unsigned long rounds)
{
    static char text[MODEL_LOG_TEXT];
    for (unsigned long r = 0; r < rounds; r++) {
        for (unsigned i = 0; i < LOG_LINES; i++) {
            sink += model_log_write(logged[i].number, logged[i].data, logged[i].count, logged[i].stamp, text).length;
        }
    }
}

/* ---- the table ----------------------------------------------------------------------------- */

typedef struct {
    const char *name;
    unsigned calls; /* in a round; 0: the frames offered */
    void (*prepare)(void);
    void (*archive)(unsigned long);
    void (*model)(unsigned long);
} work;

static const work works[] = {
    {"receive-mix", 0, mix, receive_archive, receive_model},
    {"receive-trains", 0, trains, receive_archive, receive_model},
    {"receive-singles", 0, singles, receive_archive, receive_model},
    {"receive-refused", 0, refused, receive_archive, receive_model},
    {"serve-3E-full", 1, full_3e, serve_archive, serve_model},
    {"serve-1901-full", 1, full_1901, serve_archive, serve_model},
    {"serve-1902-full", 1, full_1902, serve_archive, serve_model},
    {"serve-22-full", 1, full_22, serve_archive, serve_model},
    {"serve-14-full", 1, full_14, serve_archive, serve_model},
    {"serve-3E-near-empty", 1, empty_3e, serve_archive, serve_model},
    {"serve-1901-near-empty", 1, empty_1901, serve_archive, serve_model},
    {"serve-22-near-empty", 1, empty_22, serve_archive, serve_model},
    {"serve-14-near-empty", 1, empty_14, serve_archive, serve_model},
    {"cut", 43, nothing, cut_archive, cut_model},
    {"read", 8 * 256, nothing, read_archive, read_model},
    {"identifier", 64, nothing, identifier_archive, identifier_model},
    {"route", 512, nothing, route_archive, route_model},
    {"sheet-full", 1, full_sheet, sheet_archive, sheet_model},
    {"sheet-falling", 1, falling_3855, sheet_archive, sheet_model},
    {"ranking-falling", 1, falling_3855, ranking_archive, ranking_model},
    {"ranking-1000", 1, falling_1000, ranking_archive, ranking_model},
    {"ranking-100", 1, falling_100, ranking_archive, ranking_model},
    {"ranking-excluding", 1, excluding, ranking_archive, ranking_model},
    {"mend-sound", 1, full_sheet, mend_archive, mend_model},
    {"mend-holes", 1, full_of_holes, mend_archive, mend_model},
    {"mend-nothing", 1, no_reading, mend_archive, mend_model},
    {"mend-1000", 1, holes_1000, mend_archive, mend_model},
    {"mend-100", 1, holes_100, mend_archive, mend_model},
    {"log-read", LOG_LINES, log_lines, log_read_archive, log_read_model},
    {"log-read-broken", LOG_LINES, broken_lines, log_read_archive, log_read_model},
    {"log-write", LOG_LINES, log_frames, log_write_archive, log_write_model},
};

enum { WORKS = sizeof works / sizeof works[0] };

/* ---- time and stack ------------------------------------------------------------------------ */

enum { SAMPLES = 1000 };

static double now(void)
{
    struct timespec t;
    timespec_get(&t, TIME_UTC);
    return 1e9 * (double)t.tv_sec + (double)t.tv_nsec;
}

static double took(void (*does)(unsigned long), unsigned long rounds)
{
    const double began = now();
    does(rounds);
    return now() - began;
}

/* Short samples, of both works in turn, so that what else the machine does falls on both alike: the least of many of each. */
static void print_time(const work *w, unsigned calls)
{
    unsigned long rounds = 1;
    while (took(w->model, rounds) < 1e5) {
        rounds *= 2;
    }
    double archive = 0, model = 0;
    for (unsigned sample = 0; sample < SAMPLES; sample++) {
        const double ours = took(w->archive, rounds), theirs = took(w->model, rounds);
        archive = sample == 0 || ours < archive ? ours : archive;
        model = sample == 0 || theirs < model ? theirs : model;
    }
    const double count = (double)calls * (double)rounds;
    printf("%.1f %.1f\n", archive / count, model / count);
}

enum { AREA = 131072 };

static __attribute__((noinline)) void paint(void)
{
    volatile uint8_t area[AREA];
    for (unsigned i = 0; i < AREA; i++) {
        area[i] = 0xA5;
    }
}

/* How much of the painted area has been written since. */
static __attribute__((noinline)) unsigned scan(void)
{
    volatile uint8_t area[AREA];
    unsigned i = 0;
    while (i < AREA && area[i] == 0xA5) {
        i++;
    }
    return AREA - i;
}

static void idle(unsigned long rounds)
{
    sink += rounds;
}

/* Once before, so that what the C library binds at a first call is bound. */
static __attribute__((noinline)) unsigned depth(void (*does)(unsigned long))
{
    does(1);
    paint();
    does(1);
    return scan();
}

static void print_stack(const work *w)
{
    const unsigned none = depth(idle);
    const unsigned archive = depth(w->archive), model = depth(w->model);
    printf("%u %u\n", archive - none, model - none);
}

int main(int argc, char **argv)
{
    for (unsigned i = 0; i < sizeof message; i++) {
        message[i] = (uint8_t)(7 * i);
    }
    for (unsigned i = 0; i < WORKS; i++) {
        const work *const w = &works[i];
        if (argc > 2 && strcmp(argv[2], w->name) != 0) {
            continue;
        }
        offered = 0;
        input_length = 0;
        w->prepare();
        const unsigned calls = w->calls != 0 ? w->calls : offered;
        const unsigned long rounds = argc > 3 ? strtoul(argv[3], NULL, 0) : 0;
        if (argc == 1) {
            printf("%s %u\n", w->name, calls);
        } else if (strcmp(argv[1], "time") == 0) {
            print_time(w, calls);
        } else if (strcmp(argv[1], "stack") == 0) {
            print_stack(w);
        } else {
            (strcmp(argv[1], "archive") == 0 ? w->archive : w->model)(rounds);
        }
    }
    return 0;
}

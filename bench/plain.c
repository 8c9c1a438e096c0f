/* What import does, in plain C: the model's reader over each line of standard input, in one buffer of 65,536 bytes. */
#include <inttypes.h>
#include <stdio.h>
#include <string.h>
#include <unistd.h>

#include "model.h"

typedef struct {
    size_t lines, frames, passed;
    unsigned refusal;
} counts;

static void take(counts *so_far, const uint8_t *line, size_t length)
{
    uint8_t data[8];
    const model_log_frame frame = model_log_read(line, length, data);
    so_far->lines++;
    so_far->refusal = frame.refusal;
    so_far->frames += frame.refusal == 0 && !frame.passed_over;
    so_far->passed += frame.passed_over;
}

/* The lines that a newline ends; how many bytes they are. */
static size_t take_lines(counts *so_far, const uint8_t *text, size_t length)
{
    size_t at = 0;
    const uint8_t *newline;
    while (so_far->refusal == 0 && (newline = memchr(text + at, '\n', length - at)) != NULL) {
        const size_t end = (size_t)(newline - text);
        take(so_far, text + at, end - at);
        at = end + 1;
    }
    return at;
}

int main(void)
{
    static uint8_t buffer[65536];
    counts so_far = {0};
    size_t held = 0;
    ssize_t more;
    while (so_far.refusal == 0 && held <= MODEL_LOG_LINE_MAX && (more = read(0, buffer + held, sizeof buffer - held)) > 0) {
        const size_t end = held + (size_t)more, at = take_lines(&so_far, buffer, end);
        held = end - at;
        memmove(buffer, buffer + at, held);
    }
    if (so_far.refusal == 0 && held > 0) {
        take(&so_far, buffer, held);
    }
    if (so_far.refusal != 0) {
        printf("refused %u at line %zu\n", so_far.refusal, so_far.lines);
    } else {
        printf("frames %zu\npassed over %zu\n", so_far.frames, so_far.passed);
    }
}

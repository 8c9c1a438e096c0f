/* What a program's module asks of the system, over POSIX, as the kit's libraries libc and os say it; the kit itself has them for x86-64. */
#include "program.h"

#include <errno.h>
#include <limits.h>
#include <signal.h>
#include <unistd.h>

static int count;
static char **words;

/* A write to a pipe that nobody reads is to fail, and not to end the program: so does the main that the kit makes for x86-64. */
int main(int argc, char **argv)
{
    count = argc;
    words = argv;
    signal(SIGPIPE, SIG_IGN);
    return program_main();
}

/* A size_t can have 32 bits, and a count over SSIZE_MAX no answer: fewer bytes may be taken than are offered. */
static size_t offered(uint64_t length)
{
    return length > SSIZE_MAX ? SSIZE_MAX : (size_t)length;
}

int64_t program_read(int32_t file, uint8_t *bytes, uint64_t length)
{
    return read(file, bytes, offered(length));
}

int64_t program_write(int32_t file, const uint8_t *bytes, uint64_t length)
{
    return write(file, bytes, offered(length));
}

int32_t program_rattle_errno(void)
{
    return errno;
}

void program_rattle_set_errno(int32_t error)
{
    errno = error;
}

/* Argument `number` at the start of the bytes: its length, -1 where there is none, or -2 where it does not fit, and the bytes are full. */
int64_t program_rattle_arg(uint64_t number, uint8_t *bytes, uint64_t length)
{
    if (number >= (uint64_t)count || words[number] == NULL) {
        return -1;
    }
    const char *const word = words[number];
    uint64_t n = 0;
    for (; word[n] != 0; n++) {
        if (n == length) {
            return -2;
        }
        bytes[n] = (uint8_t)word[n];
    }
    return (int64_t)n;
}

/* stdin, stdout and stderr. */
#include <stdio.h>
#include <unistd.h>

#include "guest.h"

enum { LINE_BYTES = 256 };

/* What a hart printed since its last line feed. Each hart has a line of its own, so that lines of several harts
   don't mix. */
static struct {
    size_t length;
    char bytes[LINE_BYTES];
} lines[MOST_HARTS];

/* Gives 0, or EOF where the output doesn't take the whole line; errno says why. */
static int flush_line(unsigned hart)
{
    size_t length = lines[hart].length, done = 0;
    lines[hart].length = 0;
    while (done < length) {
        ssize_t written = write(1, lines[hart].bytes + done, length - done);
        if (written < 0)
            return EOF;
        done += (size_t)written;
    }
    return 0;
}

void guest_flush_lines(unsigned first, unsigned last)
{
    for (unsigned hart = first; hart <= last; hart++)
        flush_line(hart);
}

static int put(char byte, FILE *stream)
{
    (void)stream;
    unsigned hart = guest_hart();
    lines[hart].bytes[lines[hart].length++] = byte;
    if ((byte == '\n' || lines[hart].length == LINE_BYTES) && flush_line(hart) == EOF)
        return _FDEV_ERR;
    return (unsigned char)byte;
}

static int flush(FILE *stream)
{
    (void)stream;
    return flush_line(guest_hart());
}

static int get(FILE *stream)
{
    (void)stream;
    static unsigned char bytes[LINE_BYTES];
    static ssize_t next, length;
    if (next == length) {
        length = read(0, bytes, LINE_BYTES);
        next = 0;
    }
    if (length <= 0) {
        length = 0;
        return _FDEV_EOF;
    }
    return bytes[next++];
}

static FILE console = FDEV_SETUP_STREAM(put, get, flush, _FDEV_SETUP_RW);
FILE *const stdin = &console;
FILE *const stdout = &console;
FILE *const stderr = &console;

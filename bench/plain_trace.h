/* What the plain programs beside `ssprun` share: a trace is put into a buffer, and written by one write an instant. */
#ifndef PLAIN_TRACE_H
#define PLAIN_TRACE_H

#include <stdint.h>
#include <stdlib.h>
#include <string.h>
#include <unistd.h>

static char *put_text(char *at, const char *text)
{
    size_t length = strlen(text);
    memcpy(at, text, length);
    return at + length;
}

static char *put_number(char *at, int64_t number)
{
    char digits[24];
    char *front = digits + sizeof digits;
    uint64_t rest = number < 0 ? -(uint64_t)number : (uint64_t)number;
    if (number < 0)
        *at++ = '-';
    do {
        *--front = (char)('0' + rest % 10);
        rest /= 10;
    } while (rest != 0);
    size_t length = (size_t)(digits + sizeof digits - front);
    memcpy(at, front, length);
    return at + length;
}

static void put(const char *buffer, const char *end)
{
    while (buffer != end) {
        ssize_t count = write(1, buffer, (size_t)(end - buffer));
        if (count <= 0)
            exit(10);
        buffer += count;
    }
}

#endif

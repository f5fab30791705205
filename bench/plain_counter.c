/*
 * What `ssprun one examples/counter --resolution 1000 --step 1 --stop N` writes, by a plain program: it computes the same
 * values, and writes the same bytes by one write for the header, one for each instant and one for the end line.
 *
 *     cc -std=c99 -O2 -o plain_counter plain_counter.c
 *     plain_counter N
 */
#define _POSIX_C_SOURCE 200809L

#include "plain_trace.h"

#define INCREMENT 2

int main(int count, char **words)
{
    char buffer[128];
    int64_t stop = count == 2 ? strtoll(words[1], NULL, 10) : -1;
    if (stop < 0)
        return 2;
    char *at = put_text(buffer, "trace 1 1000 0 ");
    at = put_number(at, stop);
    put(buffer, put_text(at, "\nport 0 Int32 fmu y\n"));
    int32_t value = 0;
    for (int64_t point = 0; point <= stop; point++) {
        at = put_text(buffer, "at ");
        at = put_number(at, point);
        at = put_text(at, " 0\n0 ");
        at = put_number(at, value);
        put(buffer, put_text(at, "\n"));
        value = (int32_t)((uint32_t)value + INCREMENT);
    }
    at = put_text(buffer, "end stop ");
    at = put_number(at, stop);
    put(buffer, put_text(at, "\n"));
    return 0;
}

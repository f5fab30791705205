/*
 * A host whose steps compute: each keeps a processor for as many microseconds as BUSY says (0 where it says nothing), and
 * counts. Each output shows the count; every other call is answered well and does nothing. It has no event mode. It takes
 * batches where they are asked for.
 *
 *     cc -std=c99 -O2 -o busy_host busy_host.c
 */
#define _POSIX_C_SOURCE 200809L

#include <stdint.h>
#include <stdlib.h>
#include <string.h>
#include <time.h>
#include <unistd.h>

enum { INSTANTIATE = 1, DO_STEP = 6, GET = 8, FREE_INSTANCE = 18, BATCH = 19, FRAME = 24, MOST_CALLS = 64 };

/* The bit of Instantiate that asks for batches. */
enum { BATCHES = 4 };

static int read_all(unsigned char *bytes, size_t count)
{
    while (count > 0) {
        ssize_t some = read(STDIN_FILENO, bytes, count);
        if (some <= 0)
            return 0;
        bytes += some;
        count -= (size_t)some;
    }
    return 1;
}

static uint64_t number_at(const unsigned char *frame, int place)
{
    uint64_t number = 0;
    for (int i = 0; i < 8; i++)
        number = number << 8 | frame[place + i];
    return number;
}

static void put_number(unsigned char *frame, int place, uint64_t number)
{
    for (int i = 7; i >= 0; i--, number >>= 8)
        frame[place + i] = (unsigned char)(number & 0xff);
}

/* What this process has computed, in microseconds. */
static uint64_t computed(void)
{
    struct timespec now;
    clock_gettime(CLOCK_PROCESS_CPUTIME_ID, &now);
    return (uint64_t)now.tv_sec * 1000000 + (uint64_t)now.tv_nsec / 1000;
}

/* Passes over the texts of Instantiate. */
static int skip_texts(const unsigned char *call)
{
    unsigned char text[1];
    for (uint64_t rest = number_at(call, 8) + number_at(call, 16); rest > 0; rest--)
        if (!read_all(text, 1))
            return 0;
    return 1;
}

static void keep_busy(uint64_t wanted)
{
    if (wanted == 0)
        return;
    uint64_t begin = computed();
    while (computed() - begin < wanted) {
    }
}

int main(int count, char **words)
{
    const char *busy = getenv("BUSY");
    uint64_t wanted = busy != NULL ? strtoull(busy, NULL, 10) : 0, steps = 0;
    (void)words;
    if (count != 3)
        return 2;
    static unsigned char calls[FRAME * (MOST_CALLS + 1)], replies[FRAME * (MOST_CALLS + 1)];
    while (read_all(calls, FRAME)) {
        /* The head of a batch tells how many calls are after it; the head of its reply is the same. */
        size_t behind = calls[0] == BATCH ? calls[7] : 0, length = FRAME * (behind + 1);
        if (behind > MOST_CALLS || !read_all(calls + FRAME, FRAME * behind))
            return 1;
        memset(replies, 0, length);
        if (behind > 0)
            memcpy(replies, calls, FRAME);
        for (size_t i = behind > 0 ? 1 : 0; i <= behind; i++) {
            const unsigned char *call = calls + FRAME * i;
            unsigned char *reply = replies + FRAME * i;
            reply[0] = call[0];
            switch (call[0]) {
            case INSTANTIATE:
                if (!skip_texts(call))
                    return 1;
                reply[2] = (call[7] & BATCHES) != 0;
                break;
            case DO_STEP:
                keep_busy(wanted);
                steps++;
                put_number(reply, 8, number_at(call, 8) + number_at(call, 16));
                break;
            case GET:
                put_number(reply, 8, steps & 0x7fffffff);
                break;
            }
        }
        if (write(STDOUT_FILENO, replies, length) != (ssize_t)length)
            return 1;
        if (calls[0] == FREE_INSTANCE)
            return 0;
    }
    return 0;
}

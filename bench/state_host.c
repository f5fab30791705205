/*
 * A host of an FMU with one output, whose state has 2^20 bytes: Serialize is answered with them, and Deserialize reads as many
 * as its call says. Its output is always 0, and every other call is answered well and does nothing. It has no event mode.
 *
 *     cc -std=c99 -O2 -o state_host state_host.c
 */
#include <stdint.h>
#include <unistd.h>

enum { INSTANTIATE = 1, DO_STEP = 6, FREE_INSTANCE = 18, SERIALIZE = 20, DESERIALIZE = 21, FRAME = 24, STATE = 1 << 20 };

static unsigned char state[STATE];

static int read_all(unsigned char *bytes, size_t count)
{
    while (count > 0) {
        ssize_t some = read(STDIN_FILENO, bytes, count);
        if (some <= 0)
            return 0;
        bytes += some;
        count -= (size_t)some;
    }
    return 1;
}

static int write_all(const unsigned char *bytes, size_t count)
{
    while (count > 0) {
        ssize_t some = write(STDOUT_FILENO, bytes, count);
        if (some <= 0)
            return 0;
        bytes += some;
        count -= (size_t)some;
    }
    return 1;
}

static uint64_t number_at(const unsigned char *frame, int place, int size)
{
    uint64_t number = 0;
    for (int i = 0; i < size; i++)
        number = number << 8 | frame[place + i];
    return number;
}

static void put_number(unsigned char *frame, int place, int size, uint64_t number)
{
    for (int i = size - 1; i >= 0; i--, number >>= 8)
        frame[place + i] = (unsigned char)(number & 0xff);
}

int main(int count, char **words)
{
    (void)words;
    if (count != 3)
        return 2;
    unsigned char call[FRAME];
    while (read_all(call, FRAME)) {
        unsigned char reply[FRAME] = {call[0]};
        uint64_t behind = 0;
        if (call[0] == INSTANTIATE)
            behind = number_at(call, 8, 8) + number_at(call, 16, 8);
        if (call[0] == DESERIALIZE)
            behind = number_at(call, 4, 4);
        if (behind > STATE || !read_all(state, behind))
            return 1;
        if (call[0] == DO_STEP)
            put_number(reply, 8, 8, number_at(call, 8, 8) + number_at(call, 16, 8));
        if (call[0] == SERIALIZE)
            put_number(reply, 4, 4, STATE);
        if (!write_all(reply, FRAME) || (call[0] == SERIALIZE && !write_all(state, STATE)))
            return 1;
        if (call[0] == FREE_INSTANCE)
            break;
    }
    return 0;
}

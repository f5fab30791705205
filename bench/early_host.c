/*
 * A host whose FMU may end steps early, by the name of its folder:
 *
 *     DIR/first       a step of more than 5 counts ends 5 counts after its beginning
 *     DIR/second      one of 4 or 5 counts ends 3 counts after it
 *     any other       each step ends at its bound
 *
 *     cc -std=c99 -O2 -o early_host early_host.c
 *
 * So in a longer step of all of them the first ends early, the second does on the way there, and all meet after 3 counts: those
 * that passed go back twice. It answers each other call that ssprun sends to an FMU without variables with OK.
 */
#include <stdint.h>
#include <stdio.h>
#include <string.h>

enum { INSTANTIATE = 1, DO_STEP = 6, FREE_INSTANCE = 18, EARLY = 4, FRAME = 24 };

static uint64_t number_at(const unsigned char *frame, int place)
{
    uint64_t number = 0;
    for (int i = 0; i < 8; i++)
        number = number << 8 | frame[place + i];
    return number;
}

static int ends_with(const char *text, const char *end)
{
    size_t length = strlen(text), rest = strlen(end);
    return length >= rest && strcmp(text + length - rest, end) == 0;
}

int main(int count, char **words)
{
    if (count != 3)
        return 2;
    int is_first = ends_with(words[1], "/first"), is_second = ends_with(words[1], "/second");
    unsigned char call[FRAME];
    while (fread(call, 1, FRAME, stdin) == FRAME) {
        unsigned char reply[FRAME] = {call[0]};
        if (call[0] == INSTANTIATE)
            for (uint64_t rest = number_at(call, 8) + number_at(call, 16); rest > 0; rest--)
                getchar();
        if (call[0] == DO_STEP) {
            uint64_t size = number_at(call, 16), made = size;
            if (is_first && size > 5)
                made = 5;
            if (is_second && size > 3 && size <= 5)
                made = 3;
            uint64_t end = number_at(call, 8) + made;
            reply[2] = made < size ? EARLY : 0;
            for (int i = 0; i < 8; i++)
                reply[8 + i] = (unsigned char)(end >> (56 - 8 * i));
        }
        if (fwrite(reply, 1, FRAME, stdout) != FRAME || fflush(stdout) != 0)
            return 1;
        if (call[0] == FREE_INSTANCE)
            return 0;
    }
    return 0;
}

/*
 * A counter's host that goes wrong: `goes_wrong DIR R`, with HOW, K and, where it is told below, PLACE in its environment.
 *
 *     HOW=dies                  it is killed at its K-th call
 *     HOW=hangs_up              it closes its output at its K-th call, and goes on
 *     HOW=is_short              the first PLACE bytes of its K-th reply, then it ends
 *     HOW=is_of_another_kind    its K-th reply is of the kind that follows the call's
 *     HOW=has_byte              byte PLACE of its K-th reply is 1
 *     HOW=closes_its_input      it closes its input at its K-th call, answers it, and goes on
 *     HOW=hangs                 it doesn't answer its K-th call, and goes on, as one that computes without end
 *     HOW=ignores_its_end       it goes on at the end of its input
 *     HOW=is_slow               each step takes a hundredth of a second
 *
 * "Goes on" is for ten minutes: then somebody else ends it. It serves all other calls, up to FreeInstance or the end of its
 * input. With DEAF it ignores SIGINT, SIGTERM and SIGHUP. In the file that TOLD names it writes its id, and the number of the
 * kind of each call that comes.
 */
#define _POSIX_C_SOURCE 200809L

#include <signal.h>
#include <stdint.h>
#include <stdio.h>
#include <stdlib.h>
#include <string.h>
#include <time.h>
#include <unistd.h>

enum { INSTANTIATE = 1, DO_STEP = 6, GET = 8, FREE_INSTANCE = 18, KINDS = 18, FRAME = 24, INC = 2 };

static uint64_t number_at(const unsigned char *frame, int place)
{
    uint64_t number = 0;
    for (int i = 0; i < 8; i++)
        number = number << 8 | frame[place + i];
    return number;
}

static void put_number(unsigned char *frame, int place, uint64_t number)
{
    for (int i = 7; i >= 0; i--, number >>= 8)
        frame[place + i] = (unsigned char)number;
}

/* Whether all of these bytes came. */
static int read_all(unsigned char *bytes, size_t count)
{
    while (count > 0) {
        ssize_t some = read(STDIN_FILENO, bytes, count);
        if (some <= 0)
            return 0;
        bytes += some;
        count -= (size_t)some;
    }
    return 1;
}

static void send_bytes(const unsigned char *bytes, size_t count)
{
    if (write(STDOUT_FILENO, bytes, count) != (ssize_t)count)
        exit(1);
}

static void go_on(void)
{
    for (unsigned rest = 600; rest > 0; rest = sleep(rest))
        ;
    exit(1);
}

int main(int count, char **words)
{
    const char *how = getenv("HOW"), *number = getenv("K"), *path = getenv("TOLD"), *place = getenv("PLACE");
    FILE *told = path != NULL ? fopen(path, "a") : NULL;
    if (count != 3 || words[1] == NULL || how == NULL || number == NULL || told == NULL)
        return 2;
    size_t at = place != NULL ? (size_t)strtoul(place, NULL, 10) : 0;
    if (at >= FRAME)
        return 2;
    fprintf(told, "%ld\n", (long)getpid());
    fflush(told);
    if (getenv("DEAF") != NULL) {
        signal(SIGINT, SIG_IGN);
        signal(SIGTERM, SIG_IGN);
        signal(SIGHUP, SIG_IGN);
    }
    int is_slow = strcmp(how, "is_slow") == 0, ignores_end = strcmp(how, "ignores_its_end") == 0;
    const struct timespec hundredth = {0, 10000000};
    long wrong = is_slow || ignores_end ? 0 : strtol(number, NULL, 10);
    uint64_t value = 0;
    unsigned char call[FRAME];
    for (long k = 1; read_all(call, FRAME); k++) {
        unsigned char reply[FRAME] = {0}, text;
        if (call[0] == INSTANTIATE)
            for (uint64_t rest = number_at(call, 8) + number_at(call, 16); rest > 0 && read_all(&text, 1); rest--)
                ;
        fprintf(told, "%d\n", call[0]);
        fflush(told);
        reply[0] = call[0];
        if (call[0] == DO_STEP) {
            if (is_slow)
                nanosleep(&hundredth, NULL);
            value += INC;
            put_number(reply, 8, number_at(call, 8) + number_at(call, 16));
        } else if (call[0] == GET) {
            put_number(reply, 8, value);
        }
        if (k != wrong) {
            send_bytes(reply, FRAME);
        } else if (strcmp(how, "dies") == 0) {
            kill(getpid(), SIGKILL);
        } else if (strcmp(how, "hangs_up") == 0) {
            close(STDOUT_FILENO);
            go_on();
        } else if (strcmp(how, "is_short") == 0) {
            send_bytes(reply, at);
            return 0;
        } else if (strcmp(how, "is_of_another_kind") == 0) {
            memset(reply, 0, FRAME);
            reply[0] = (unsigned char)(call[0] % KINDS + 1);
            send_bytes(reply, FRAME);
        } else if (strcmp(how, "has_byte") == 0) {
            reply[at] = 1;
            send_bytes(reply, FRAME);
        } else if (strcmp(how, "closes_its_input") == 0) {
            close(STDIN_FILENO);
            send_bytes(reply, FRAME);
            if (call[0] == FREE_INSTANCE)
                return 0;
            go_on();
        } else if (strcmp(how, "hangs") == 0) {
            go_on();
        } else {
            return 2;
        }
        if (call[0] == FREE_INSTANCE)
            return 0;
    }
    if (ignores_end)
        go_on();
    return 0;
}

/*
 * How many times a second two processes hand some bytes to each other over two pipes, and do nothing else.
 *
 *     cc -std=c99 -O2 -o ping_pong ping_pong.c
 *     ping_pong N [LENGTH]
 *
 * It makes N exchanges, each of LENGTH bytes there and as many back, and writes how many that were in a second. LENGTH is
 * 24 where it isn't given, which is the length of a call; a batch of n calls has 24 * (n + 1) bytes. It is 4096 at most,
 * so that a pipe takes all of it by one write.
 */
#define _POSIX_C_SOURCE 200809L

#include <stdio.h>
#include <stdlib.h>
#include <sys/wait.h>
#include <time.h>
#include <unistd.h>

#define FRAME_LENGTH 24
#define MOST_BYTES 4096

/* Reads a whole frame; 0 at the end of the input. */
static int read_frame(int from, char *frame, size_t length)
{
    size_t taken = 0;
    while (taken < length) {
        ssize_t count = read(from, frame + taken, length - taken);
        if (count <= 0)
            return 0;
        taken += (size_t)count;
    }
    return 1;
}

static int write_frame(int to, const char *frame, size_t length)
{
    return write(to, frame, length) == (ssize_t)length;
}

static void answer(int from, int to, size_t length)
{
    char frame[MOST_BYTES];
    while (read_frame(from, frame, length))
        if (!write_frame(to, frame, length))
            break;
    _exit(0);
}

int main(int count, char **words)
{
    long exchanges = count == 2 || count == 3 ? strtol(words[1], NULL, 10) : 0;
    long length = count == 3 ? strtol(words[2], NULL, 10) : FRAME_LENGTH;
    int there[2], back[2];
    if (exchanges <= 0 || length <= 0 || length > MOST_BYTES) {
        fprintf(stderr, "usage: ping_pong N [LENGTH]\n");
        return 2;
    }
    if (pipe(there) != 0 || pipe(back) != 0) {
        perror("ping_pong");
        return 1;
    }
    pid_t child = fork();
    if (child < 0) {
        perror("ping_pong");
        return 1;
    }
    if (child == 0) {
        close(there[1]);
        close(back[0]);
        answer(there[0], back[1], (size_t)length);
    }
    close(there[0]);
    close(back[1]);

    char frame[MOST_BYTES] = {0};
    struct timespec begin, end;
    clock_gettime(CLOCK_MONOTONIC, &begin);
    for (long i = 0; i < exchanges; i++) {
        if (!write_frame(there[1], frame, (size_t)length) || !read_frame(back[0], frame, (size_t)length)) {
            fprintf(stderr, "ping_pong: the link broke\n");
            return 1;
        }
    }
    clock_gettime(CLOCK_MONOTONIC, &end);
    close(there[1]);
    waitpid(child, NULL, 0);
    double seconds = (double)(end.tv_sec - begin.tv_sec) + (double)(end.tv_nsec - begin.tv_nsec) / 1e9;
    printf("%.0f\n", (double)exchanges / seconds);
    return 0;
}

/*
 * A host that logs: it starts the host that LOGGED_HOST names with its own words, hands calls and replies on, and adds to a
 * file of its own in the folder LOGS, named by its process id, the id of that host and then the kind of each call, one a line.
 *
 *     cc -std=c99 -O2 -o logging_host logging_host.c
 */
#define _POSIX_C_SOURCE 200809L

#include <stdint.h>
#include <stdio.h>
#include <stdlib.h>
#include <sys/wait.h>
#include <unistd.h>

enum { INSTANTIATE = 1, SERIALIZE = 20, DESERIALIZE = 21, FRAME = 24 };

static int read_all(int file, unsigned char *bytes, size_t count)
{
    while (count > 0) {
        ssize_t some = read(file, bytes, count);
        if (some <= 0)
            return 0;
        bytes += some;
        count -= (size_t)some;
    }
    return 1;
}

static int write_all(int file, const unsigned char *bytes, size_t count)
{
    return write(file, bytes, count) == (ssize_t)count;
}

static uint64_t number_at(const unsigned char *frame, int place, int size)
{
    uint64_t number = 0;
    for (int i = 0; i < size; i++)
        number = number << 8 | frame[place + i];
    return number;
}

/* Hands on so many bytes. */
static int hand_on(int from, int to, uint64_t rest)
{
    unsigned char byte[1];
    for (; rest > 0; rest--)
        if (!read_all(from, byte, 1) || !write_all(to, byte, 1))
            return 0;
    return 1;
}

/* How many bytes stand behind the frame of a call. */
static uint64_t behind(const unsigned char *call)
{
    if (call[0] == INSTANTIATE)
        return number_at(call, 8, 8) + number_at(call, 16, 8);
    return call[0] == DESERIALIZE ? number_at(call, 4, 4) : 0;
}

int main(int count, char **words)
{
    const char *folder = getenv("LOGS");
    char *program = getenv("LOGGED_HOST"), path[4096];
    int calls[2], replies[2];
    if (count != 3 || folder == NULL || program == NULL || pipe(calls) != 0 || pipe(replies) != 0)
        return 2;
    snprintf(path, sizeof path, "%s/%ld", folder, (long)getpid());
    FILE *log = fopen(path, "a");
    pid_t host = fork();
    if (log == NULL || host < 0)
        return 2;
    if (host == 0) {
        char *its_words[] = {program, words[1], words[2], NULL};
        dup2(calls[0], STDIN_FILENO);
        dup2(replies[1], STDOUT_FILENO);
        close(calls[0]), close(calls[1]), close(replies[0]), close(replies[1]);
        execv(program, its_words);
        _exit(127);
    }
    close(calls[0]);
    close(replies[1]);
    fprintf(log, "%ld\n", (long)host);
    fflush(log);
    unsigned char frame[FRAME];
    int is_on = 1;
    while (is_on && read_all(STDIN_FILENO, frame, FRAME)) {
        fprintf(log, "%d\n", frame[0]);
        fflush(log);
        is_on = write_all(calls[1], frame, FRAME) && hand_on(STDIN_FILENO, calls[1], behind(frame));
        is_on = is_on && read_all(replies[0], frame, FRAME) && write_all(STDOUT_FILENO, frame, FRAME);
        if (frame[0] == SERIALIZE)
            is_on = is_on && hand_on(replies[0], STDOUT_FILENO, number_at(frame, 4, 4));
    }
    close(calls[1]);
    waitpid(host, NULL, 0);
    return 0;
}

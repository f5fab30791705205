/*
 * The least that a checkpoint of hosts can do: it starts COUNT hosts, asks each for its state, which has 2^20 bytes, keeps all
 * of them, and then writes them to standard output.
 *
 *     cc -std=c99 -O2 -o plain_states plain_states.c
 *     ./plain_states COUNT HOST
 */
#define _POSIX_C_SOURCE 200809L

#include <fcntl.h>
#include <stdlib.h>
#include <sys/wait.h>
#include <unistd.h>

enum { FREE_INSTANCE = 18, SERIALIZE = 20, FRAME = 24, STATE = 1 << 20 };

struct host {
    pid_t id;
    int calls, replies;
    unsigned char *state;
};

static int read_all(int from, unsigned char *bytes, size_t count)
{
    while (count > 0) {
        ssize_t some = read(from, bytes, count);
        if (some <= 0)
            return 0;
        bytes += some;
        count -= (size_t)some;
    }
    return 1;
}

static int write_all(int to, const unsigned char *bytes, size_t count)
{
    while (count > 0) {
        ssize_t some = write(to, bytes, count);
        if (some <= 0)
            return 0;
        bytes += some;
        count -= (size_t)some;
    }
    return 1;
}

static int start(struct host *host, char *program)
{
    int calls[2], replies[2];
    if (pipe(calls) != 0 || pipe(replies) != 0)
        return 0;
    host->calls = calls[1];
    host->replies = replies[0];
    fcntl(host->calls, F_SETFD, FD_CLOEXEC);
    fcntl(host->replies, F_SETFD, FD_CLOEXEC);
    host->id = fork();
    if (host->id == 0) {
        dup2(calls[0], STDIN_FILENO);
        dup2(replies[1], STDOUT_FILENO);
        close(calls[0]);
        close(replies[1]);
        execl(program, program, "FILE", "NAME", (char *)NULL);
        _exit(127);
    }
    close(calls[0]);
    close(replies[1]);
    return host->id > 0;
}

static int keep(struct host *host)
{
    unsigned char frame[FRAME] = {SERIALIZE};
    host->state = malloc(STATE);
    return host->state != NULL && write_all(host->calls, frame, FRAME) && read_all(host->replies, frame, FRAME) &&
           read_all(host->replies, host->state, STATE);
}

static int end(struct host *host)
{
    unsigned char frame[FRAME] = {FREE_INSTANCE};
    int ended = write_all(host->calls, frame, FRAME) && read_all(host->replies, frame, FRAME);
    free(host->state);
    close(host->calls);
    close(host->replies);
    return waitpid(host->id, NULL, 0) == host->id && ended;
}

int main(int count, char **words)
{
    int hosts = count == 3 ? atoi(words[1]) : 0;
    struct host *all = calloc((size_t)hosts, sizeof *all);
    if (hosts < 1 || all == NULL)
        return 2;
    for (int i = 0; i < hosts; i++)
        if (!start(&all[i], words[2]))
            return 1;
    for (int i = 0; i < hosts; i++)
        if (!keep(&all[i]))
            return 1;
    for (int i = 0; i < hosts; i++)
        if (!write_all(STDOUT_FILENO, all[i].state, STATE))
            return 1;
    for (int i = 0; i < hosts; i++)
        if (!end(&all[i]))
            return 1;
    free(all);
    return 0;
}

/*
 * An FMU that goes wrong in its second step, as the environment variable MISBEHAVES says. Each process that it forks adds
 * its id to the file that HOST_IDS names.
 */
#define _XOPEN_SOURCE 700
#include "model_variables.h"

#include <poll.h>
#include <signal.h>
#include <stdio.h>
#include <stdlib.h>
#include <string.h>
#include <sys/stat.h>
#include <sys/wait.h>
#include <unistd.h>

struct model {
    fmi3Float64 y;
    int steps;
};

static const char token[] = "{misbehaving}";
static const struct model start = {0.5, 0};
static const struct variable variables[] = {VARIABLE(1, Float64, y)};

static bool is_to(const char *what)
{
    const char *wanted = getenv("MISBEHAVES");
    return wanted != NULL && strcmp(wanted, what) == 0;
}

static void note(pid_t id)
{
    FILE *ids = fopen(getenv("HOST_IDS"), "a");
    if (ids != NULL) {
        fprintf(ids, "%ld\n", (long)id);
        fclose(ids);
    }
}

/* No signal that can be held back ends it. */
static void hang(void)
{
    sigset_t all;
    sigfillset(&all);
    sigprocmask(SIG_SETMASK, &all, NULL);
    fprintf(stderr, "hangs\n");
    for (;;)
        pause();
}

static void fork_one(void)
{
    pid_t child = fork();
    if (child == 0) {
        if (is_to("fork and run"))
            execlp("sleep", "sleep", "1000", (char *)NULL);
        for (;;)
            pause();
    }
    note(child);
}

__attribute__((constructor)) static void load(void)
{
    if (is_to("hang when it is loaded"))
        hang();
}

__attribute__((destructor)) static void unload(void)
{
    if (is_to("hang when it is unloaded"))
        hang();
    if (is_to("fork and return"))
        fprintf(stderr, "is unloaded\n");
}

static void initialize(struct model *model)
{
    (void)model;
}

static bool step(struct model *model, double point, double size, double *end)
{
    *end = point + size;
    if (++model->steps != 2)
        return true;
    if (is_to("hang"))
        hang();
    if (is_to("spin")) {
        fprintf(stderr, "hangs\n");
        for (volatile int forever = 1; forever;)
            continue;
    }
    if (is_to("be slow"))
        poll(NULL, 0, 700);
    if (is_to("fork") || is_to("fork and run"))
        fork_one();
    if (is_to("fork and hang")) {
        fork_one();
        hang();
    }
    if (is_to("fork and crash")) {
        fork_one();
        kill(getpid(), SIGKILL);
    }
    if (is_to("fork and return")) {
        pid_t child = fork();
        if (child != 0) {
            note(child);
            waitpid(child, NULL, 0);
        }
    }
    if (is_to("fork and look")) {
        int pipes = 0;
        pid_t child = fork();
        if (child == 0) {
            struct stat about;
            for (int descriptor = 3; descriptor < 64; descriptor++)
                pipes += fstat(descriptor, &about) == 0 && S_ISFIFO(about.st_mode);
            _exit(pipes);
        }
        waitpid(child, &pipes, 0);
        fprintf(stderr, "its child has %d pipes\n", WEXITSTATUS(pipes));
    }
    if (is_to("close the pipes")) {
        for (int descriptor = 3; descriptor < 64; descriptor++)
            close(descriptor);
    }
    if (is_to("fork twice")) {
        int both[2];
        char byte;
        if (pipe(both) != 0)
            return false;
        if (fork() == 0) {
            note(getpid());
            fork_one();
            if (write(both[1], "", 1) == 1) {
                for (;;)
                    pause();
            }
        }
        if (read(both[0], &byte, 1) == 1) /* until both run */
            kill(getpid(), SIGSEGV);
    }
    if (is_to("print and crash")) {
        printf("the first line\nthe second");
        printf(" line\n");
        kill(getpid(), SIGKILL);
    }
    if (is_to("exit"))
        exit(0);
    return !is_to("refuse");
}

static void update(struct model *model, bool *terminate)
{
    (void)model, (void)terminate;
}

#include "model.h"

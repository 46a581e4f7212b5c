/* A program run as a process: see process.h. */
#define _POSIX_C_SOURCE 200809L
#include "process.h"

#include <errno.h>
#include <fcntl.h>
#include <poll.h>
#include <sched.h>
#include <signal.h>
#include <stdio.h>
#include <stdlib.h>
#include <string.h>
#include <sys/wait.h>
#include <time.h>
#include <unistd.h>

enum { PATIENCE = 20, READ = 0, WRITE = 1, WORDS = 16 };

static time_t happened; /* when the program last did something */

static time_t now(void)
{
    struct timespec time;
    clock_gettime(CLOCK_MONOTONIC, &time);
    return time.tv_sec;
}

static void demand(int holds, const char *what)
{
    if (!holds) {
        perror(what);
        exit(2);
    }
}

/* A pipe whose ends no program inherits. */
static void open_pipe(int ends[2])
{
    demand(pipe(ends) == 0, "pipe");
    demand(fcntl(ends[READ], F_SETFD, FD_CLOEXEC) == 0 && fcntl(ends[WRITE], F_SETFD, FD_CLOEXEC) == 0, "fcntl");
}

static void close_end(int *end)
{
    if (*end >= 0) {
        close(*end);
        *end = -1;
    }
}

/* Runs the program in place of this one; comes back only where it can't. */
static void run_program(const struct start *start)
{
    const char *words[WORDS] = {start->path};
    for (int i = 0; start->arguments != NULL && start->arguments[i] != NULL; i++) {
        demand(i + 2 < WORDS, "too many arguments");
        words[i + 1] = start->arguments[i];
    }
    execv(start->path, (char *const *)words);
}

/* In the new process: becomes the program. */
static void become(const struct start *start, int in, int out, int err)
{
    in = start->in != NULL ? open(start->in, O_RDONLY) : in;
    out = start->out != NULL ? open(start->out, O_WRONLY) : out;
    signal(SIGPIPE, start->ignores_sigpipe ? SIG_IGN : SIG_DFL);
    if (dup2(in, STDIN_FILENO) >= 0 && dup2(out, STDOUT_FILENO) >= 0 && dup2(err, STDERR_FILENO) >= 0) {
        run_program(start);
    }
    perror(start->path);
    _exit(127);
}

void process_start(struct process *process, const struct start *start)
{
    int in[2], out[2], err[2];
    memset(process, 0, sizeof *process);
    open_pipe(in);
    open_pipe(out);
    open_pipe(err);
    demand(fcntl(in[WRITE], F_SETFL, O_NONBLOCK) == 0, "fcntl");
    process->pid = fork();
    demand(process->pid >= 0, "fork");
    if (process->pid == 0) {
        become(start, in[READ], out[WRITE], err[WRITE]);
    }
    close(out[WRITE]);
    close(err[WRITE]);
    process->in = in[WRITE];
    process->in_seen = in[READ];
    process->out = out[READ];
    process->err = err[READ];
    happened = now();
}

/* Takes what can be read, and closes the end where nothing will come any more. */
static void collect(int *end, struct stream *to)
{
    char bytes[65536];
    ssize_t len = read(*end, bytes, sizeof bytes);
    if (len > 0) {
        stream_add(to, bytes, (size_t)len);
    } else {
        close_end(end);
    }
}

/* Waits at most so many milliseconds until the program has written something, which is collected, or, where we are feeding,
   can be fed; gives whether it can. */
static int turn(struct process *process, int feeding, int milliseconds)
{
    struct pollfd ends[] = {{process->out, POLLIN, 0}, {process->err, POLLIN, 0}, {feeding ? process->in : -1, POLLOUT, 0}};
    if (poll(ends, 3, milliseconds) > 0) {
        happened = now();
        if (ends[0].revents != 0) {
            collect(&process->out, &process->printed);
        }
        if (ends[1].revents != 0) {
            collect(&process->err, &process->complained);
        }
    } else if (now() - happened > PATIENCE) {
        process->late = 1;
        kill(process->pid, SIGKILL);
    }
    return ends[2].revents != 0;
}

int process_ended(const struct process *process)
{
    return process->out < 0 && process->err < 0;
}

/* Whether the program has not yet read all that was fed. */
static int unread(const struct process *process)
{
    struct pollfd end = {process->in_seen, POLLIN, 0};
    return poll(&end, 1, 0) > 0;
}

void process_feed(struct process *process, const void *bytes, size_t len, size_t piece)
{
    const char *at = bytes;
    while (len > 0 && !process_ended(process)) {
        if (piece != 0 && unread(process)) {
            turn(process, 0, 0);
            sched_yield();
        } else if (turn(process, 1, 1000)) {
            ssize_t fed = write(process->in, at, piece != 0 && piece < len ? piece : len);
            demand(fed >= 0 || errno == EAGAIN, "feeding");
            at += fed > 0 ? fed : 0;
            len -= fed > 0 ? (size_t)fed : 0;
        }
    }
}

void process_await(struct process *process, size_t printed)
{
    while (process->printed.len < printed && !process_ended(process)) {
        turn(process, 0, 1000);
    }
}

void process_close_out(struct process *process)
{
    close_end(&process->out);
}

int process_end(struct process *process)
{
    int status;
    close_end(&process->in);
    close_end(&process->in_seen);
    while (!process_ended(process)) {
        turn(process, 0, 1000);
    }
    demand(waitpid(process->pid, &status, 0) == process->pid, "waitpid");
    return status;
}

void process_free(struct process *process)
{
    free(process->printed.at);
    free(process->complained.at);
}

/* Tries the form at a terminal: see forms.h. */
#define _XOPEN_SOURCE 700
#include "forms.h"

#include "books.h"
#include "count.h"

#include <fcntl.h>
#include <signal.h>
#include <stdio.h>
#include <stdlib.h>
#include <string.h>
#include <sys/wait.h>
#include <termios.h>
#include <unistd.h>

/* A pseudo-terminal: our side of it, which also tells its settings, and the path of the form's. */
static int keyboard;
static const char *terminal;

static struct termios settings_now(void)
{
    struct termios settings;
    if (tcgetattr(keyboard, &settings) != 0) {
        perror("tcgetattr");
        exit(2);
    }
    return settings;
}

static void open_terminal(void)
{
    keyboard = posix_openpt(O_RDWR | O_NOCTTY);
    if (keyboard < 0 || grantpt(keyboard) != 0 || unlockpt(keyboard) != 0 || fcntl(keyboard, F_SETFD, FD_CLOEXEC) != 0) {
        perror("pseudo-terminal");
        exit(2);
    }
    terminal = ptsname(keyboard);
    struct termios settings = settings_now();
    settings.c_oflag &= ~(tcflag_t)OPOST; /* lines come as they are written */
    tcsetattr(keyboard, TCSANOW, &settings);
}

static int same_settings(struct termios a, struct termios b)
{
    return a.c_iflag == b.c_iflag && a.c_oflag == b.c_oflag && a.c_cflag == b.c_cflag && a.c_lflag == b.c_lflag
        && memcmp(a.c_cc, b.c_cc, sizeof a.c_cc) == 0;
}

/* Starts the form with the terminal as its input, and as its output too where it is shown there; letters may be NULL. */
static void start_form(struct process *process, int shown_there, const char *letters)
{
    const char *arguments[] = {book_path, mask_path, letters, NULL};
    struct start start = {form_path, terminal, shown_there ? terminal : NULL, 0, arguments};
    process_start(process, &start);
    close(process->in);
    process->in = dup(keyboard);
    if (shown_there) {
        close(process->out);
        process->out = dup(keyboard);
    }
}

/* ---- keys typed one by one */

static const struct step steps[] = {
    {"", "_", "+-", SOME_TEXT, NOT_YET},
    {"key -", "-_", "0", SOME_TEXT, NOT_YET},
    {"key 5: grey, and refused", "-_", "0", SOME_TEXT, NOT_YET},
    {"key 1B: no sign", "-_", "0", SOME_TEXT, NOT_YET},
    {"Enter: not legal", "-_", "0", SOME_TEXT, NOT_YET},
    {"key 0", "-0_", "012", SOME_TEXT, NOT_YET},
    {"Backspace", "-_", "0", SOME_TEXT, NOT_YET},
    {"key 0", "-0_", "012", SOME_TEXT, NOT_YET},
    {"key 0", "-00_", "0123456789", SOME_TEXT, NOT_YET},
    {"key 9", "-009_", "0123456789", ALL_TEXT, NOT_YET},
    {"key 3", "-0093", "", ALL_TEXT, COMPLETE},
};

/* The key before each step; an arrow is one key. */
static const char *const pressed[] = {"", "-", "5", "\033[0", "\r", "0", "\177", "0", "0", "9", "3"};

enum { STEPS = sizeof steps / sizeof steps[0] };

/* Presses the keys one by one up to a step, and waits each time for what is shown. */
static void press_to(struct process *process, struct stream *printed, int last, int how)
{
    for (int i = 0; i <= last; i++) {
        process_feed(process, pressed[i], strlen(pressed[i]), 0);
        step_text(printed, &steps[i], how);
        process_await(process, printed->len);
    }
}

/* A whole form, ended by Enter. */
static void whole_form(void)
{
    struct process process;
    struct stream printed = {NULL, 0, 0};
    open_terminal();
    struct termios before = settings_now();
    start_form(&process, 1, NULL);
    press_to(&process, &printed, STEPS - 1, STYLED | KEYBOARD);
    count("terminal", "each key at once, and no echo", stream_equal(&process.printed, &printed));
    process_feed(&process, "\r", 1, 0);
    stream_print(&printed, "-0093\n");
    int status = process_end(&process);
    count("terminal", "a whole form", ended_so(&process, status, 0, &printed, ""));
    count("terminal", "a whole form: settings restored", same_settings(before, settings_now()));
    process_free(&process);
    free(printed.at);
    close(keyboard);
}

/* ---- ends */

/* Leaves the form behind its second step by a key, or else by a signal. */
static void leaves(const char *name, const char *key, int by_signal)
{
    struct process process;
    struct stream printed = {NULL, 0, 0};
    open_terminal();
    struct termios before = settings_now();
    start_form(&process, 1, NULL);
    press_to(&process, &printed, 1, STYLED | KEYBOARD);
    int taken = !same_settings(before, settings_now()) && stream_equal(&process.printed, &printed);
    if (by_signal != 0) {
        kill(process.pid, by_signal);
    }
    process_feed(&process, key, strlen(key), 0);
    int status = process_end(&process);
    int ended = by_signal != 0 ? WIFSIGNALED(status) && WTERMSIG(status) == by_signal : status == 0;
    count("terminal", name, taken && ended && !process.late && same_settings(before, settings_now()));
    process_free(&process);
    free(printed.at);
    close(keyboard);
}

/* The keyboard is a terminal, and what is shown goes into a pipe, which is closed behind the second step. */
static void output_closed(void)
{
    struct process process;
    struct stream printed = {NULL, 0, 0};
    open_terminal();
    struct termios before = settings_now();
    start_form(&process, 0, NULL);
    press_to(&process, &printed, 1, KEYBOARD);
    count("terminal", "plain text where the output is none", stream_equal(&process.printed, &printed));
    process_close_out(&process);
    process_feed(&process, "0", 1, 0);
    int status = process_end(&process);
    count("terminal", "a closed output: settings restored",
          WIFSIGNALED(status) && WTERMSIG(status) == SIGPIPE && !process.late && same_settings(before, settings_now()));
    process_free(&process);
    free(printed.at);
    close(keyboard);
}

/* Keys from arguments, shown at a terminal, whose settings stay. */
static void arguments_shown(void)
{
    struct process process;
    struct stream printed = {NULL, 0, 0};
    open_terminal();
    struct termios before = settings_now();
    start_form(&process, 1, "-5");
    for (int i = 0; i < 3; i++) {
        step_text(&printed, &steps[i], STYLED);
    }
    int status = process_end(&process);
    count("terminal", "keys from an argument",
          ended_so(&process, status, 0, &printed, "") && same_settings(before, settings_now()));
    process_free(&process);
    free(printed.at);
    close(keyboard);
}

void test_terminal(void)
{
    static const struct block height[] = {{3, 1, 1}, {0xFFC, 4, 4}};
    write_records(HEIGHTS, height, 2);
    whole_form();
    leaves("Ctrl-C", "\003", 0);
    leaves("Ctrl-D", "\004", 0);
    leaves("SIGINT", "", SIGINT);
    leaves("SIGTERM", "", SIGTERM);
    leaves("SIGHUP", "", SIGHUP);
    leaves("SIGQUIT", "", SIGQUIT);
    output_closed();
    arguments_shown();
}

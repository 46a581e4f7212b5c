/*
 * A worked C host: a small form in the terminal. The keys that can still lead to a legal code are lit; others are refused.
 *
 *     form BOOK MASK [LETTERS..]
 *
 * BOOK and MASK are files of one record each, as tools/records makes them. Keys are typed one by one: those of the arguments
 * where there are any, else those of standard input. A sign types its letter, Backspace takes the last one back, Enter ends the
 * form where it is a legal code and prints it, Ctrl-C or Ctrl-D leaves it. After each key the form is shown anew:
 *
 *     form     what is typed
 *     keys     the 64 keys: a lit one bold and a grey one dim on a terminal; else a lit one as itself and a grey one as '.'
 *     lit      the keys that are lit: with each of them, and with no other, the form can still become a legal code
 *     verdict  narrow's, of the codes of the mask that begin with what is typed
 *     code     whether what is typed is a legal code
 *
 * What can't be read or is refused is told on standard error, with status 1. The terminal is left as it was found.
 */
#define _POSIX_C_SOURCE 200809L
#include "fekhvina.h"
#include "keys.h"

#include <errno.h>
#include <signal.h>
#include <stdarg.h>
#include <stdio.h>
#include <stdlib.h>
#include <string.h>
#include <termios.h>
#include <unistd.h>

enum { END = -1, CTRL_C = 3, CTRL_D = 4, CTRL_H = 8, ESCAPE = 27, DELETE = 127 };

static void fail(const char *format, ...)
{
    va_list values;
    va_start(values, format);
    fprintf(stderr, "form: ");
    vfprintf(stderr, format, values);
    fprintf(stderr, "\n");
    va_end(values);
    exit(1);
}

/* ---- the records */

/* What the refusal numbers mean. */
static const char *const book_refusals[] = {
    NULL,
    "fewer than 4 bytes, or a length field that isn't the number of bytes",
    "a kind other than 1",
    "a length under 15",
    "no 1 to 63 states, or no 1 to 64 letters",
    "a length that isn't 15 + states x letters",
    "a start, an accepting bit or a move that names no state",
};

static const char *const mask_refusals[] = {
    NULL,
    "fewer than 4 bytes, or a length field that isn't the number of bytes",
    "a kind other than 2",
    "a length under 6",
    "more than 1,024 blocks",
    "a length that isn't 6 + 12 x blocks",
    NULL,
    "a block whose lower bound is above its upper",
    "upper bounds that sum to more than 1,024",
    "a set with a letter that the book lacks",
};

static void load(struct bytes *to, const char *path)
{
    FILE *file = fopen(path, "rb");
    if (file == NULL) {
        fail("%s: %s", path, strerror(errno));
    }
    to->len = fread(to->at, 1, LONGEST_RECORD + 1, file);
    if (ferror(file)) {
        fail("%s: %s", path, strerror(errno));
    }
    fclose(file);
    if (to->len > LONGEST_RECORD) {
        fail("%s: more than %d bytes, so no record", path, LONGEST_RECORD);
    }
}

/* Loads book and mask. The book is asked for with a mask that can't be refused, so that each refusal is known by its file. */
static void load_both(struct bytes *book, const char *book_path, struct bytes *mask, const char *mask_path)
{
    static const uint8_t no_blocks[] = {6, 0, 2, 0, 0, 0};
    load(book, book_path);
    load(mask, mask_path);
    uint32_t refusal = fekhvina_try_refusal(book->at, book->len, no_blocks, sizeof no_blocks, NULL, 0);
    if (refusal != 0) {
        fail("%s: the book is refused, number %u: %s", book_path, (unsigned)refusal, book_refusals[refusal]);
    }
    refusal = fekhvina_try_refusal(book->at, book->len, mask->at, mask->len, NULL, 0);
    if (refusal != 0) {
        fail("%s: the mask is refused, number %u: %s", mask_path, (unsigned)refusal, mask_refusals[refusal]);
    }
}

/* ---- the keyboard */

static struct termios found; /* the terminal's settings as they were */

static void restore(void)
{
    tcsetattr(STDIN_FILENO, TCSANOW, &found);
}

/* The signal was set back to its default, and is pending until this returns. */
static void restore_and_die(int number)
{
    restore();
    raise(number);
}

/* Makes the terminal hand over each key at once, and restores it at every end. */
static void open_keyboard(void)
{
    static const int ends[] = {SIGHUP, SIGINT, SIGQUIT, SIGPIPE, SIGTERM};
    struct sigaction action = {0};
    if (tcgetattr(STDIN_FILENO, &found) != 0) {
        fail("standard input: %s", strerror(errno));
    }
    action.sa_handler = restore_and_die;
    action.sa_flags = (int)SA_RESETHAND;
    for (size_t i = 0; i < sizeof ends / sizeof ends[0]; i++) {
        sigaction(ends[i], &action, NULL);
    }
    atexit(restore);
    struct termios by_key = found;
    by_key.c_lflag &= ~(tcflag_t)(ICANON | ECHO | ISIG | IEXTEN);
    by_key.c_cc[VMIN] = 1;
    by_key.c_cc[VTIME] = 0;
    if (tcsetattr(STDIN_FILENO, TCSANOW, &by_key) != 0) {
        fail("standard input: %s", strerror(errno));
    }
}

/* Where keys come from. */
struct source {
    char *const *arguments; /* the next ones, or NULL for standard input */
    int is_keyboard;
    char read[64];
    const char *at, *end; /* keys not yet typed, of an argument or of what was read */
};

static int refill(struct source *from)
{
    if (from->arguments != NULL) {
        from->at = *from->arguments;
        if (from->at == NULL) {
            return 0;
        }
        from->end = from->at + strlen(from->at);
        from->arguments++;
        return 1;
    }
    ssize_t len = read(STDIN_FILENO, from->read, from->is_keyboard ? sizeof from->read : 1);
    if (len < 0) {
        fail("standard input: %s", strerror(errno));
    }
    from->at = from->read;
    from->end = from->read + len;
    return len > 0;
}

/* The next key, or END. What a keyboard sends together with an escape is one key, such as an arrow. */
static int next_key(struct source *from)
{
    while (from->at == from->end) {
        if (!refill(from)) {
            return END;
        }
    }
    int key = (unsigned char)*from->at++;
    if (key == ESCAPE && from->is_keyboard) {
        from->at = from->end;
    }
    return key;
}

/* ---- the screen */

static int is_styled;    /* whether standard output is a terminal */
static char message[40]; /* what is to be said of the last key */

static void say(const char *format, ...)
{
    va_list values;
    va_start(values, format);
    vsnprintf(message, sizeof message, format, values);
    va_end(values);
}

static void show_keys(uint64_t lit)
{
    static const unsigned rows[] = {0, 12, 38, 64};
    for (int row = 0; row < 3; row++) {
        printf("%-8s", row == 0 ? "keys" : "");
        for (unsigned letter = rows[row]; letter < rows[row + 1]; letter++) {
            int is_lit = lit >> letter & 1;
            if (is_styled) {
                printf(" \033[%cm%c\033[0m", is_lit ? '1' : '2', signs[letter]);
            } else {
                printf(" %c", is_lit ? signs[letter] : '.');
            }
        }
        printf("\n");
    }
}

static void show_lit(uint64_t lit)
{
    printf("lit     ");
    for (unsigned letter = 0; letter < 64; letter++) {
        if (lit >> letter & 1) {
            printf(" %c", signs[letter]);
        }
    }
    printf("%s\n", lit == 0 ? " no key" : "");
}

static void print_typed(const struct form *form)
{
    for (unsigned i = 0; i < form->len; i++) {
        putchar(signs[form->typed[i]]);
    }
}

static void flush(void)
{
    if (fflush(stdout) != 0) {
        fail("standard output: %s", strerror(errno));
    }
}

/* Shows the form, under the message. */
static void show(const struct form *form, const struct keys *keys, int is_keyboard)
{
    static const char *const verdicts[] = {
        NULL,
        "none: no code that begins so is legal",
        "all: every code that begins so is legal",
        "one: just one code that begins so is legal",
        "some: codes that begin so are legal, but not all of them",
    };
    static const char *const codes[2][2] = { /* by whether it is legal, and whether keys are lit */
        {"can't become legal", "not yet legal"},
        {"legal, and complete", "legal as it stands"},
    };
    printf("%s", is_styled ? "\033[H\033[J" : ""); /* from the top of an empty screen */
    printf("%s%sform     ", message, *message != '\0' ? "\n" : "");
    print_typed(form);
    printf("%s\n", keys->lit != 0 ? "_" : "");
    show_keys(keys->lit);
    show_lit(keys->lit);
    printf("verdict  %s\n", verdicts[keys->verdict]);
    printf("code     %s\n", codes[keys->legal][keys->lit != 0]);
    printf("%s\n", is_keyboard ? "Backspace takes the last letter back, Enter ends with a legal code, Ctrl-D leaves." : "");
    flush();
}

/* ---- the keys */

/* Types a letter, or says why not. */
static void type(struct form *form, const struct keys *keys, int key)
{
    const char *sign = key != '\0' ? strchr(signs, key) : NULL;
    unsigned letter = sign != NULL ? (unsigned)(sign - signs) : 64;
    if (sign == NULL) {
        say(key > ' ' && key < DELETE ? "key %c: no sign" : "key %02X: no sign", key);
    } else if ((keys->lit >> letter & 1) == 0) {
        say("key %c: grey, and refused", key);
    } else {
        form->typed[form->len++] = (uint8_t)letter; /* there is room: a lit key leads to a code, of at most MOST letters */
        say("key %c", key);
    }
}

/* Does what a key asks for, and gives whether the form goes on. */
static int press(struct form *form, const struct keys *keys, int key)
{
    switch (key) {
    case END:
    case CTRL_C:
    case CTRL_D:
        return 0;
    case '\n':
    case '\r':
        say("Enter: not legal");
        return !keys->legal;
    case CTRL_H:
    case DELETE:
        say(form->len > 0 ? "Backspace" : "Backspace: no letter to take back");
        form->len -= form->len > 0;
        return 1;
    default:
        type(form, keys, key);
        return 1;
    }
}

int main(int argc, char **argv)
{
    static struct bytes book, mask;
    static struct form form;
    struct keys keys;
    struct source source = {argc > 3 ? argv + 3 : NULL, 0, "", NULL, NULL};
    int key;
    if (argc < 3) {
        fail("usage: form BOOK MASK [LETTERS..]");
    }
    load_both(&book, argv[1], &mask, argv[2]);
    form_open(&form, &book, &mask);
    is_styled = isatty(STDOUT_FILENO);
    source.is_keyboard = source.arguments == NULL && isatty(STDIN_FILENO);
    if (source.is_keyboard) {
        open_keyboard();
    }
    do {
        form_keys(&form, &keys);
        show(&form, &keys, source.is_keyboard);
        key = next_key(&source);
    } while (press(&form, &keys, key));
    if (key == '\n' || key == '\r') {
        print_typed(&form);
        printf("\n");
        flush();
    }
    return 0;
}

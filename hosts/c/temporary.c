/* Files of a test: see temporary.h. */
#define _XOPEN_SOURCE 700
#include "temporary.h"

#include <stdio.h>
#include <stdlib.h>
#include <unistd.h>

enum { FILES = 4, LONGEST_PATH = 4096 };

static char paths[FILES][LONGEST_PATH];

static int files;

static void remove_files(void)
{
    for (int i = 0; i < files; i++) {
        remove(paths[i]);
    }
}

static void stop(const char *path)
{
    perror(path);
    exit(2);
}

const char *temporary_file(void)
{
    const char *folder = getenv("TMPDIR");
    char *path = paths[files];
    int len = snprintf(path, LONGEST_PATH, "%s/fekhvina-XXXXXX", folder != NULL && *folder != '\0' ? folder : P_tmpdir);
    int file = len < LONGEST_PATH ? mkstemp(path) : -1;
    if (file < 0) {
        stop(path);
    }
    close(file);
    if (files++ == 0) {
        atexit(remove_files);
    }
    return path;
}

void write_file(const char *path, const void *bytes, size_t len)
{
    FILE *file = fopen(path, "wb");
    if (file == NULL || fwrite(bytes, 1, len, file) != len || fclose(file) != 0) {
        stop(path);
    }
}

/* Counts the cases of a test: see count.h. */
#include "count.h"

#include <stdio.h>

static int passed, failed;

void count(const char *operation, const char *name, int holds)
{
    if (holds) {
        passed++;
    } else {
        failed++;
        printf("FAILED %s: %s\n", operation, name);
    }
}

int count_end(void)
{
    printf("%d passed, %d failed\n", passed, failed);
    return failed != 0;
}

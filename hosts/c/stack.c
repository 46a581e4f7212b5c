/* The stack that a call takes: see stack.h. */
#define _XOPEN_SOURCE 700
#include "stack.h"

#include <stdio.h>
#include <stdlib.h>
#include <string.h>
#include <ucontext.h>

enum { SIZE = 262144, PATTERN = 0xA5 };

static unsigned char stack[SIZE];

size_t stack_used(void (*function)(void))
{
    static ucontext_t here, there;
    memset(stack, PATTERN, SIZE);
    if (getcontext(&there) != 0) {
        perror("stack_used");
        exit(2);
    }
    there.uc_stack.ss_sp = stack;
    there.uc_stack.ss_size = SIZE;
    there.uc_link = &here;
    makecontext(&there, function, 0);
    if (swapcontext(&here, &there) != 0) {
        perror("stack_used");
        exit(2);
    }
    size_t left = 0;
    while (left < SIZE && stack[left] == PATTERN) {
        left++;
    }
    return SIZE - left;
}

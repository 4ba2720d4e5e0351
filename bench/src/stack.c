/* Runs a call on a stack of its own, marked beforehand, and answers how deep it wrote. */
#include <stddef.h>
#include <stdint.h>
#include <string.h>
#include <ucontext.h>

enum { ROOM = 1 << 18, MARK = 0xa5 };

static _Alignas(64) uint8_t stack[ROOM];
static ucontext_t here, there;
static void (*run)(void *);
static void *with;

static void begin(void) {
    run(with);
}

size_t stack_depth(void (*call)(void *), void *argument) {
    memset(stack, MARK, ROOM);
    run = call;
    with = argument;
    getcontext(&there);
    there.uc_stack.ss_sp = stack;
    there.uc_stack.ss_size = ROOM;
    there.uc_link = &here;
    makecontext(&there, begin, 0);
    swapcontext(&here, &there);
    size_t untouched = 0;
    while (untouched < ROOM && stack[untouched] == MARK) {
        untouched++;
    }
    return ROOM - untouched;
}

/* A call on a painted stack: how far down it writes, and whether it gets by with that. */
#ifndef PAINT_H
#define PAINT_H

#include <signal.h>
#include <stddef.h>
#include <stdint.h>
#include <stdio.h>
#include <stdlib.h>
#include <string.h>
#include <sys/mman.h>
#include <ucontext.h>
#include <unistd.h>

enum { PAGE = 4096, STACK = 1 << 21 };

static unsigned char *stack;          /* STACK bytes, and a page below them that can't be touched */
static unsigned char *frame;          /* where the stack pointer is when the call is made: what is written below is counted */
static void (*caller)(void);          /* calls what `callee` says, with its arguments */
static void (*volatile callee)(void); /* what is measured */
static ucontext_t back, there;

static inline void die(const char *why)
{
    fprintf(stderr, "stack: %s\n", why);
    exit(1);
}

/* A call that passes the stack that it was given ends the program here, on a stack of the handler's own. */
static inline void too_deep(int signal)
{
    static const char why[] = "stack: a call takes more than what was found\n";
    (void)signal;
    _exit(write(2, why, sizeof why - 1) < 0 ? 2 : 1);
}

static inline void make_stack(void)
{
    static unsigned char spare[1 << 16];
    stack_t other = {.ss_sp = spare, .ss_size = sizeof spare};
    struct sigaction action = {.sa_handler = too_deep, .sa_flags = SA_ONSTACK};
    stack = mmap(NULL, PAGE + STACK, PROT_READ | PROT_WRITE, MAP_PRIVATE | MAP_ANONYMOUS, -1, 0);
    if (stack == MAP_FAILED || mprotect(stack, PAGE, PROT_NONE) != 0) die("no memory for a stack");
    stack += PAGE;
    if (sigaltstack(&other, NULL) != 0 || sigaction(SIGSEGV, &action, NULL) != 0) die("no handler for a stack that is too small");
}

static void enter(void) { caller(); }

static inline void call_on_stack(void)
{
    if (getcontext(&there) != 0) die("no context");
    there.uc_stack.ss_sp = stack;
    there.uc_stack.ss_size = STACK;
    there.uc_link = &back;
    makecontext(&there, enter, 0);
    if (swapcontext(&back, &there) != 0) die("the call was not entered");
}

/* Called in place of what is measured, and so from the same place. Its frame has the old frame pointer and the return address above. */
static __attribute__((noinline)) void find_frame(void) { frame = (unsigned char *)__builtin_frame_address(0) + 16; }

/* The lowest byte of the stack that no longer has its paint. A call may write what was painted there: so it is made with two paints. */
static inline unsigned char *lowest(int paint)
{
    const uint64_t *words = (const uint64_t *)(void *)stack;
    uint64_t painted;
    memset(&painted, paint, sizeof painted);
    memset(stack, paint, STACK);
    call_on_stack();
    size_t i = 0;
    while (words[i] == painted) i++;
    unsigned char *at = stack + i * sizeof painted;
    while (*at == paint) at++;
    return at;
}

/* How many bytes below its caller's frame a call takes. It is made once more with the pages below these taken away: to read one of them, or to write its paint
   there, would end the program. `before` puts back what the call changes and reads again. */
static inline size_t bytes_taken(void (*before)(void), void (*from)(void), void (*to)(void))
{
    caller = from;
    callee = find_frame;
    call_on_stack();
    callee = to;
    before();
    unsigned char *first = lowest(0xa5);
    before();
    unsigned char *second = lowest(0x5a);
    unsigned char *low = first < second ? first : second;
    if (low > frame) low = frame;
    size_t rest = (size_t)(low - stack) / PAGE * PAGE;
    before();
    if (mprotect(stack, rest, PROT_NONE) != 0) die("the pages were not taken away");
    call_on_stack();
    if (mprotect(stack, rest, PROT_READ | PROT_WRITE) != 0) die("the pages were not put back");
    return (size_t)(frame - low);
}

#endif

/* Calls of the library that can be cancelled while they run. On hostile lists, 65,000 gauges on a circle, one call may take many seconds, and it looks for no interrupt.
 *
 * It may be left at any instruction: it holds nothing, asks for no memory, and writes only what it is lent. So a timer looks every 20 ms whether the query is to end, and
 * leaves the call then, by a jump; the error is raised where it is always raised, by CHECK_FOR_INTERRUPTS. The jump is made only where the signal met code of this
 * module: never out of another handler, of PostgreSQL or of the C library. Where the processor is another, the call is not left before its end. */
#include "yelmuzard.h"

#include <link.h>
#include <setjmp.h>
#include <signal.h>
#include <time.h>
#include <ucontext.h>
#include <unistd.h>
#include <sys/syscall.h>

#include "miscadmin.h"

/* the head of this module's file, which is loaded with it */
extern const ElfW(Ehdr) __ehdr_start __attribute__((visibility("hidden")));

static sigjmp_buf away;
static volatile sig_atomic_t running;

/* Whether the signal met code of this module: what its head says is to be run. */
static bool in_module(const ucontext_t *at)
{
    uintptr_t base = (uintptr_t)&__ehdr_start;
    const ElfW(Phdr) *part = (const ElfW(Phdr) *)(base + __ehdr_start.e_phoff);
#if defined __x86_64__
    uintptr_t code = (uintptr_t)at->uc_mcontext.gregs[REG_RIP];
#elif defined __aarch64__
    uintptr_t code = (uintptr_t)at->uc_mcontext.pc;
#else
    uintptr_t code = 0;
#endif
    for (int i = 0; i < __ehdr_start.e_phnum; i++)
        if (part[i].p_type == PT_LOAD && (part[i].p_flags & PF_X) && code - base - part[i].p_vaddr < part[i].p_memsz)
            return true;
    return false;
}

static void look(int number, siginfo_t *info, void *context)
{
    if (running && (QueryCancelPending || ProcDiePending) && InterruptHoldoffCount == 0 && CritSectionCount == 0 && in_module(context))
        siglongjmp(away, 1);
}

/* Whether the call came to its end. */
static bool ran(void (*call)(void *), void *with, timer_t timer)
{
    const struct itimerspec often = {{0, 20000000}, {0, 20000000}}, never = {{0, 0}, {0, 0}};
    bool left = sigsetjmp(away, 1) != 0;

    if (!left) {
        running = 1;
        timer_settime(timer, 0, &often, NULL);
        call(with);
    }
    running = 0;
    timer_settime(timer, 0, &never, NULL);
    return !left;
}

void run_cancellable(void (*call)(void *), void *with)
{
    struct sigaction own = {.sa_sigaction = look, .sa_flags = SA_SIGINFO | SA_RESTART}, before;
    struct sigevent event = {.sigev_notify = SIGEV_THREAD_ID, .sigev_signo = SIGRTMIN};
    timer_t timer;
    bool done = false;

    event._sigev_un._tid = (pid_t)syscall(SYS_gettid);
    while (!done) {
        if (sigaction(SIGRTMIN, &own, &before) || timer_create(CLOCK_MONOTONIC, &event, &timer))
            elog(ERROR, "no timer could be made");
        done = ran(call, with, timer);
        timer_delete(timer);
        sigaction(SIGRTMIN, &before, NULL);
        CHECK_FOR_INTERRUPTS(); /* where it was left this ends with the error, or else it runs once more */
    }
}

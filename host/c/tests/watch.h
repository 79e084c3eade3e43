/*
 * Watches the stores that a call makes to the arena: each instruction that stores, in its order, with the place and the width of its store.
 *
 * While a call is watched the arena's pages cannot be written, so that an instruction that stores there faults. It is then run alone, by the
 * processor's trap flag, and twice: over the arena's bytes and over their complement. A byte that it stores differs from the one or from the
 * other, so each stored byte shows, whatever its value. Nothing here depends on the shape of the compiled code.
 *
 * While a call is traced as well, every instruction is trapped, and it is marked which of them ran.
 */
#ifndef WATCH_H
#define WATCH_H

#ifndef _GNU_SOURCE
#define _GNU_SOURCE
#endif
#include <signal.h>
#include <sys/mman.h>
#include <ucontext.h>
#include <unistd.h>

#include "check.h"

enum { TRAP_FLAG = 0x100, ROOM = 290816, WINDOW = 8192, MOST = 4096 };

struct store {
    uintptr_t code;         /* the address of the instruction */
    size_t offset, width;   /* the bytes of the arena that it stored */
};

static uint8_t *arena;
static size_t length;

static struct store stores[MOST];
static size_t made;
static gregset_t at_fault;
static size_t low, high;                    /* the part of the arena around a fault in which its store must lie, */
static uint8_t before[WINDOW], once[WINDOW];    /* that part before the instruction and after its first run */
static volatile sig_atomic_t watching, tracing;
static enum { NO_STORE, FIRST_RUN, SECOND_RUN } phase;

/* The program's own code, and which of its bytes begin an instruction that ran, that stored to the arena, or that stored one of its words. */
extern const char __executable_start[], etext[];
static uint8_t *ran, *stored, *stored_word;
static unsigned long calls, all_stores;

static void give_up(const char *what)
{
    if (write(2, what, strlen(what)) < 0 || write(2, "\n", 1) < 0) {
        _exit(2);
    }
    _exit(1);
}

static void lock(int locked)
{
    if (mprotect(arena, ROOM, locked ? PROT_READ : PROT_READ | PROT_WRITE) != 0) {
        give_up("store_order: the arena's pages cannot be locked");
    }
}

static int own_code(uintptr_t code)
{
    return code >= (uintptr_t)__executable_start && code < (uintptr_t)etext;
}

static void mark(uint8_t *set, uintptr_t code)
{
    if (own_code(code)) {
        set[code - (uintptr_t)__executable_start] = 1;
    }
}

/* An instruction is about to store to the arena. */
static void on_fault(int signal, siginfo_t *info, void *context)
{
    ucontext_t *u = context;
    uint8_t *at = info->si_addr;

    (void)signal;
    if (!watching || phase != NO_STORE || at < arena || at >= arena + length) {
        give_up("store_order: a fault that is not a store to the arena");
    }
    u->uc_mcontext.gregs[REG_EFL] |= TRAP_FLAG;
    memcpy(at_fault, u->uc_mcontext.gregs, sizeof at_fault);
    low = at - arena < WINDOW / 2 ? 0 : (size_t)(at - arena) - WINDOW / 2;
    high = low + WINDOW < length ? low + WINDOW : length;
    memcpy(before, arena + low, high - low);
    lock(0);
    phase = FIRST_RUN;
}

/* Notes the store of an instruction that was run over the bytes before it (once) and over their complement (the arena now). */
static void note(void)
{
    struct store s = {(uintptr_t)at_fault[REG_RIP], 0, 0};

    for (size_t i = low; i < high; i++) {
        if (once[i - low] == before[i - low] && arena[i] == 255 - before[i - low]) {
            continue;
        }
        if (s.width > 0 && i != s.offset + s.width) {
            give_up("store_order: an instruction that does not store a run of bytes");
        }
        s.offset = s.width == 0 ? i : s.offset;
        s.width++;
    }
    if (made == MOST || s.width == 0) {
        give_up("store_order: too many stores, or a store of no byte");
    }
    stores[made++] = s;
    mark(stored, s.code);
}

/* Readies the second run, over the complement. */
static void run_again(ucontext_t *u)
{
    memcpy(once, arena + low, high - low);
    for (size_t i = low; i < high; i++) {
        arena[i] = (uint8_t)(255 - before[i - low]);
    }
    memcpy(u->uc_mcontext.gregs, at_fault, sizeof at_fault);
}

/* An instruction has run, or watching begins. */
static void on_trap(int signal, siginfo_t *info, void *context)
{
    ucontext_t *u = context;

    (void)signal;
    (void)info;
    if (phase == FIRST_RUN) {
        run_again(u);
        phase = SECOND_RUN;
        return;
    }
    if (phase == SECOND_RUN) {
        note();
        memcpy(arena + low, once, high - low);
        lock(1);
        phase = NO_STORE;
    }
    mark(ran, (uintptr_t)u->uc_mcontext.gregs[REG_RIP]);
    if (watching && tracing) {
        u->uc_mcontext.gregs[REG_EFL] |= TRAP_FLAG;
    } else {
        u->uc_mcontext.gregs[REG_EFL] &= ~(greg_t)TRAP_FLAG;
    }
}

static void watch(void)
{
    made = 0;
    lock(1);
    watching = 1;
    if (tracing) {
        raise(SIGTRAP);
    }
}

static void unwatch(void)
{
    watching = 0;
    lock(0);
    calls++;
    all_stores += made;
}

/* Makes a call that must answer so, and leaves its stores to the arena in `stores`. */
#define WATCHED(want, call) do { uint32_t got; watch(); got = (call); unwatch(); CHECK(got == (want)); } while (0)

static void set_up(void)
{
    size_t code = (size_t)((uintptr_t)etext - (uintptr_t)__executable_start);
    struct sigaction action;

    memset(&action, 0, sizeof action);
    action.sa_flags = SA_SIGINFO;
    action.sa_sigaction = on_fault;
    CHECK(sigaction(SIGSEGV, &action, NULL) == 0);
    action.sa_sigaction = on_trap;
    CHECK(sigaction(SIGTRAP, &action, NULL) == 0);
    arena = mmap(NULL, ROOM, PROT_READ | PROT_WRITE, MAP_PRIVATE | MAP_ANONYMOUS, -1, 0);
    CHECK(arena != MAP_FAILED);
    ran = calloc(3, code);
    CHECK(ran != NULL);
    stored = ran + code;
    stored_word = stored + code;
    alarm(120);
}

#endif

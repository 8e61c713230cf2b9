/*
 * The bytes of stack that each call uses, at most over the inputs below: the call runs on a painted
 * stack, and the deepest byte that lost its paint is looked for. What an empty call leaves is taken
 * off. Prints a line for each; exits 1 if one uses more than LIMIT.
 */
#define _XOPEN_SOURCE 700 /* for a stack of one's own */

#include "treadlemint.h"

#include <stdio.h>
#include <stdlib.h>
#include <string.h>
#include <ucontext.h>

enum { LIMIT = 1024, STACK_SIZE = 65536, PAINT = 0xa5, SUITES = 32, DOMAINS = 8, EVENTS = 3 };

static uint8_t stack[STACK_SIZE];
static uint8_t policy[TM_POLICY_SIZE], state[TM_STATE_SIZE], event[TM_EVENT_SIZE];
static uint8_t events[EVENTS * TM_EVENT_SIZE], out[EVENTS * TM_OUTPUT_SIZE];
static uint64_t count;
static volatile uint64_t returned;

static void nothing(void) { returned = 0; }
static void new_state(void) { returned = tm_new_state(state, sizeof state); }
static void check(void) { returned = tm_check(policy, sizeof policy, state, sizeof state); }
static void read_event(void) { returned = tm_read_event(event, sizeof event); }
static void find(void) { returned = tm_find(policy, sizeof policy, state, sizeof state, SUITES); }
static void record(void) { returned = tm_record(policy, sizeof policy, state, sizeof state, SUITES); }

static void write_event(void)
{
    returned = tm_write_event(TM_KIND_INSTALL, 7, 65535, 0, 0, 1, 2, event, sizeof event);
}

static void step(void)
{
    returned = tm_step(policy, sizeof policy, state, sizeof state, event, sizeof event);
}

static void run(void)
{
    returned = tm_run(policy, sizeof policy, state, sizeof state, events, sizeof events, out,
                      sizeof out, &count);
}

static size_t used_by(void (*call)(void))
{
    ucontext_t here, there;
    size_t spared = 0;
    memset(stack, PAINT, sizeof stack);
    if (getcontext(&there) != 0)
        exit(EXIT_FAILURE);
    there.uc_stack.ss_sp = stack;
    there.uc_stack.ss_size = sizeof stack;
    there.uc_link = &here;
    makecontext(&there, call, 0);
    swapcontext(&here, &there);
    while (spared < sizeof stack && stack[spared] == PAINT)
        spared++;
    return sizeof stack - spared;
}

static size_t most(size_t a, size_t b) { return a < b ? b : a; }

/* Each kind of event, so that a step goes as deep as it can. */
static size_t used_by_step(void)
{
    size_t deepest = 0;
    tm_write_event(TM_KIND_START, 0, SUITES, 0, 0, 0, 0, event, sizeof event);
    deepest = most(deepest, used_by(step));
    tm_write_event(TM_KIND_REQUEST, 0, 0, 2, TM_ALLOW_SESSION, 0, 0, event, sizeof event);
    deepest = most(deepest, used_by(step));
    tm_write_event(TM_KIND_REQUEST, 0, 0, 3, TM_DENY_BLANKET, 0, 0, event, sizeof event);
    deepest = most(deepest, used_by(step));
    tm_write_event(TM_KIND_REMOVE, 0, 1, 0, 0, 0, 0, event, sizeof event);
    deepest = most(deepest, used_by(step));
    tm_write_event(TM_KIND_INSTALL, 7, 65535, 0, 0, 1, 2, event, sizeof event);
    deepest = most(deepest, used_by(step));
    tm_write_event(TM_KIND_TERMINATE, 0, 0, 0, 0, 0, 0, event, sizeof event);
    return most(deepest, used_by(step));
}

/* All slots used, in all domains. */
static void fill(void)
{
    static const uint8_t cells[] = {TM_CELL_ALLOWED, TM_CELL_ALLOWED, TM_CELL_SESSION, TM_CELL_BLANKET};
    for (unsigned domain = 0; domain < DOMAINS; domain++)
        memcpy(policy + 64 * domain, cells, sizeof cells);
    tm_new_state(state, sizeof state);
    for (uint16_t suite = 1; suite <= SUITES; suite++) {
        tm_write_event(TM_KIND_INSTALL, suite % DOMAINS, suite, 0, 0, 3, 12, event, sizeof event);
        step();
    }
    tm_write_event(TM_KIND_START, 0, SUITES, 0, 0, 0, 0, events, TM_EVENT_SIZE);
    tm_write_event(TM_KIND_REQUEST, 0, 0, 3, TM_ALLOW_BLANKET, 0, 0, events + 24, TM_EVENT_SIZE);
    tm_write_event(TM_KIND_TERMINATE, 0, 0, 0, 0, 0, 0, events + 48, TM_EVENT_SIZE);
}

static int report(const char *name, size_t deepest, size_t empty)
{
    size_t used = deepest - empty;
    printf("%-16s %4zu bytes of stack\n", name, used);
    return used <= LIMIT;
}

int main(void)
{
    size_t empty = used_by(nothing);
    int small = 1;
    fill();
    small &= report("tm_run", used_by(run), empty);
    small &= report("tm_step", used_by_step(), empty);
    small &= report("tm_check", used_by(check), empty);
    small &= report("tm_find", used_by(find), empty);
    small &= report("tm_record", used_by(record), empty);
    small &= report("tm_read_event", used_by(read_event), empty);
    small &= report("tm_write_event", used_by(write_event), empty);
    small &= report("tm_new_state", used_by(new_state), empty);
    if (!small)
        printf("stack: a call uses more than %d bytes\n", LIMIT);
    return small ? EXIT_SUCCESS : EXIT_FAILURE;
}

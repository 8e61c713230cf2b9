/*
 * Tries each call of the library with a good and a bad input. The lent buffers lie between guard
 * bytes in one struct: one comparison sees every byte that a call changed, and every one it spared.
 */
#include "treadlemint.h"

#include <stdio.h>
#include <stdlib.h>
#include <string.h>

/* A domain, a suite whose two bytes differ, and a suite that stays out. */
enum { GUARD_SIZE = 16, RUN_LENGTH = 2, HOME = 2, SUITE = 0x020a, STRANGER = 11 };

/* Only bytes, so that there is no padding to compare. */
struct lent {
    uint8_t guard_0[GUARD_SIZE], policy[TM_POLICY_SIZE];
    uint8_t guard_1[GUARD_SIZE], state[TM_STATE_SIZE];
    uint8_t guard_2[GUARD_SIZE], events[RUN_LENGTH * TM_EVENT_SIZE];
    uint8_t guard_3[GUARD_SIZE], out[RUN_LENGTH * TM_OUTPUT_SIZE];
    uint8_t guard_4[GUARD_SIZE];
};

#define CHECK(claim) expect((claim), #claim, __LINE__, passed)

static void expect(int holds, const char *claim, int line, unsigned *passed)
{
    if (!holds) {
        printf("c: check.c:%d: %s\n", line, claim);
        exit(EXIT_FAILURE);
    }
    ++*passed;
}

static int same(const struct lent *now, const struct lent *expected)
{
    return memcmp(now, expected, sizeof *now) == 0;
}

static void check_sizes_and_packing(unsigned *passed)
{
    CHECK(TM_POLICY_SIZE == 512 && TM_EVENT_SIZE == 24 && TM_OUTPUT_SIZE == 2);
    CHECK(TM_STATE_SIZE == 1320 && TM_RECORDS == 33 && TM_RECORD_SIZE == 40);
    CHECK(tm_number(23 | 63 << 8) == TM_NOT_OFFERED && tm_detail(23 | 63 << 8) == 63);
    CHECK(!tm_refused(TM_ASK | 3 << 8) && tm_refused(TM_BAD_POLICY));
    CHECK(tm_record_offset(1280 | 40ull << 32) == 1280);
    CHECK(tm_record_length(1280 | 40ull << 32) == 40);
}

static void check_new_state_and_check(struct lent *lent, unsigned *passed)
{
    struct lent expected = *lent;
    CHECK(tm_new_state(lent->state, TM_STATE_SIZE - 1) == TM_BAD_STATE);
    CHECK(same(lent, &expected));
    memset(expected.state, 0, TM_STATE_SIZE);
    CHECK(tm_new_state(lent->state, TM_STATE_SIZE) == TM_DONE);
    CHECK(same(lent, &expected));
    CHECK(tm_check(lent->policy, TM_POLICY_SIZE, lent->state, TM_STATE_SIZE) == TM_DONE);
    CHECK(tm_check(lent->policy, TM_POLICY_SIZE - 1, lent->state, 0) == TM_BAD_POLICY);
    CHECK(tm_check(lent->policy, TM_POLICY_SIZE, lent->state, 0) == TM_BAD_STATE);
    CHECK(same(lent, &expected));
}

/* Leaves the install of the suite in the first record. */
static void check_event(struct lent *lent, unsigned *passed)
{
    static const uint8_t install[TM_EVENT_SIZE] = {
        [0] = TM_KIND_INSTALL, [1] = HOME, [2] = 0x0a, [3] = 0x02, [8] = 3, [16] = 28, [23] = 0x80};
    uint64_t optional = 28 | 1ull << 63;
    struct lent expected = *lent;
    CHECK(tm_write_event(TM_KIND_START, 0, 0, 0, 0, 0, 0, lent->events, 23) == TM_BAD_EVENT);
    CHECK(tm_write_event(TM_KIND_REQUEST, 0, 0, 64, 0, 0, 0, lent->events, 24) == TM_BAD_EVENT);
    CHECK(tm_write_event(TM_KIND_TERMINATE, 0, 1, 0, 0, 0, 0, lent->events, 24) == TM_BAD_EVENT);
    CHECK(tm_write_event(TM_KIND_START, 0, 1, 0, 0, 0, 0, lent->events, 23) == TM_BAD_LENGTH);
    CHECK(same(lent, &expected));
    memcpy(expected.events, install, TM_EVENT_SIZE);
    CHECK(tm_write_event(TM_KIND_INSTALL, HOME, SUITE, 0, 0, 3, optional, lent->events,
                         TM_EVENT_SIZE) == TM_DONE);
    CHECK(same(lent, &expected));
    CHECK(tm_read_event(lent->events, TM_EVENT_SIZE) == TM_DONE);
    CHECK(tm_read_event(lent->events, TM_EVENT_SIZE - 1) == TM_BAD_EVENT);
    CHECK(same(lent, &expected));
}

static void check_step(struct lent *lent, unsigned *passed)
{
    uint8_t *policy = lent->policy, *state = lent->state, *event = lent->events;
    struct lent expected = *lent;
    uint8_t *slot = expected.state + TM_RECORD_SIZE;
    CHECK(tm_step(policy, TM_POLICY_SIZE, state, TM_STATE_SIZE, event, 25) == TM_BAD_EVENT);
    CHECK(same(lent, &expected));
    memcpy(slot, event + 2, 2);
    slot[2] = HOME;
    memcpy(slot + 8, event + 8, 16);
    CHECK(tm_step(policy, TM_POLICY_SIZE, state, TM_STATE_SIZE, event, TM_EVENT_SIZE) == TM_DONE);
    CHECK(same(lent, &expected));
    tm_write_event(TM_KIND_INSTALL, HOME, STRANGER, 0, 0, 18, 0, event, TM_EVENT_SIZE);
    expected = *lent;
    CHECK(tm_step(policy, TM_POLICY_SIZE, state, TM_STATE_SIZE, event, TM_EVENT_SIZE)
          == (TM_NOT_OFFERED | 4 << 8));
    CHECK(same(lent, &expected));
}

static void check_run(struct lent *lent, unsigned *passed)
{
    static const uint8_t answers[] = {TM_DONE, 0, TM_ASK, TM_CELL_SESSION};
    uint8_t *events = lent->events;
    uint64_t count = 99;
    tm_write_event(TM_KIND_START, 0, SUITE, 0, 0, 0, 0, events, TM_EVENT_SIZE);
    tm_write_event(TM_KIND_REQUEST, 0, 0, 1, 0, 0, 0, events + TM_EVENT_SIZE, TM_EVENT_SIZE);
    struct lent expected = *lent;
    CHECK(tm_run(lent->policy, TM_POLICY_SIZE, lent->state, TM_STATE_SIZE, events,
                 sizeof lent->events, lent->out, 3, &count) == TM_BAD_LENGTH);
    CHECK(count == 0 && same(lent, &expected));
    memcpy(expected.state, events + 2, 2);
    memcpy(expected.out, answers, sizeof answers);
    CHECK(tm_run(lent->policy, TM_POLICY_SIZE, lent->state, TM_STATE_SIZE, events,
                 sizeof lent->events, lent->out, sizeof lent->out, &count) == TM_DONE);
    CHECK(count == RUN_LENGTH && same(lent, &expected));
}

static void check_find_and_record(struct lent *lent, unsigned *passed)
{
    const uint8_t *policy = lent->policy, *state = lent->state;
    struct lent expected = *lent;
    CHECK(tm_find(policy, TM_POLICY_SIZE, state, TM_STATE_SIZE, SUITE) == TM_DONE);
    CHECK(tm_find(policy, TM_POLICY_SIZE, state, TM_STATE_SIZE, 0) == TM_NOT_INSTALLED);
    uint64_t part = tm_record(policy, TM_POLICY_SIZE, state, TM_STATE_SIZE, SUITE);
    CHECK(tm_record_offset(part) == TM_RECORD_SIZE && tm_record_length(part) == TM_RECORD_SIZE);
    CHECK(tm_record(policy, TM_POLICY_SIZE, state, TM_STATE_SIZE, STRANGER) == 0);
    CHECK(same(lent, &expected));
}

int main(void)
{
    struct lent lent;
    unsigned passed = 0;
    memset(&lent, 0xa5, sizeof lent);
    memset(lent.policy, TM_CELL_NOT_OFFERED, sizeof lent.policy);
    memcpy(lent.policy + 64 * HOME, "\4\2\3\1", 4); /* cells of permissions 0 to 3 */
    check_sizes_and_packing(&passed);
    check_new_state_and_check(&lent, &passed);
    check_event(&lent, &passed);
    check_step(&lent, &passed);
    check_run(&lent, &passed);
    check_find_and_record(&lent, &passed);
    printf("c: %u checks passed\n", passed);
    return EXIT_SUCCESS;
}

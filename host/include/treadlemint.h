/*
 * treadlemint.h - a verified permission monitor for MIDP 2.0, as a static library.
 *
 * The caller keeps the policy and the state and lends them to each call. There is no heap and no
 * global state: calls on different buffers may run at the same time.
 *
 * The calls take every input: whatever the bytes and the lengths, there is an answer, which is
 * number | detail << 8. A number of 16 or more is a refusal: every lent byte is then as it was, but
 * that a refused run sets the count to 0.
 *
 * Pointers are valid for their lengths and not null, also for length 0, and a buffer that a call
 * writes overlaps no other; count points to one uint64_t.
 */
#ifndef TREADLEMINT_H
#define TREADLEMINT_H

#include <stddef.h>
#include <stdint.h>

#ifdef __cplusplus
extern "C" {
#endif

/*
 * Sizes in bytes. A number has its lowest byte first; permission p is bit p of a set.
 *
 * session record  0-1 running suite (0: none), 8-15 granted, 16-23 revoked, the rest zero
 * slot record     0-1 suite (0: free slot), 2 domain, 3-7 zero, 8-15 required, 16-23 optional,
 *                 24-31 granted, 32-39 revoked
 * event record    0 kind, 1 domain, 2-3 suite, 4 permission, 5 answer of the user, 6-7 zero,
 *                 8-15 required, 16-23 optional; bytes that a kind does not use are zero
 */
#define TM_POLICY_SIZE 512 /* 8 domains of 64 cells: byte 64d + p is domain d's for permission p */
#define TM_STATE_SIZE 1320 /* the session record, then the records of slots 1 to 32 */
#define TM_RECORD_SIZE 40  /* one record of a state */
#define TM_RECORDS 33      /* records of a state */
#define TM_EVENT_SIZE 24   /* one event record */
#define TM_OUTPUT_SIZE 2   /* for each event of a run: number, then detail */

/* The number of an answer. Its detail is 0 where none is named. The first that fits is given:
   16, 17, 18; then install 22, 23, 24; remove 21, 25; start 20, 21; request 19, 26, 27, 28, 29. */
enum tm_answer_number {
    TM_DONE = 0,              /* carried out */
    TM_ALLOWED = 1,           /* the request is allowed */
    TM_DENIED = 2,            /* the request is denied */
    TM_ASK = 3,               /* ask the user; detail: the cell, the widest mode to allow in */
    TM_BAD_POLICY = 16,       /* of another size than 512 bytes, or with a cell past 4 */
    TM_BAD_STATE = 17,        /* of another size, or broken, or against the policy */
    TM_BAD_EVENT = 18,        /* no event's record */
    TM_NO_SESSION = 19,       /* terminate or request, nothing running */
    TM_BUSY = 20,             /* start, a suite running */
    TM_NOT_INSTALLED = 21,    /* the suite to remove, start or find is not there */
    TM_INSTALLED = 22,        /* install, number present */
    TM_NOT_OFFERED = 23,      /* the domain lacks a required permission; detail: the lowest */
    TM_NO_ROOM = 24,          /* install, no free slot */
    TM_ACTIVE = 25,           /* remove of the running suite */
    TM_NOT_DECLARED = 26,     /* request, the permission is not declared */
    TM_NO_RIGHT = 27,         /* request, the cell is 0 */
    TM_ANSWER_NOT_ASKED = 28, /* an answer, but the cell is 4 or a decision stands */
    TM_MODE_TOO_WIDE = 29,    /* allow above the cell; detail: the cell */
    TM_BAD_LENGTH = 30        /* of a run's events or output, or of a record to write */
};

/* A cell of the policy. */
enum tm_cell {
    TM_CELL_NOT_OFFERED = 0,
    TM_CELL_ONESHOT = 1, /* offered with the user's consent, up to this mode */
    TM_CELL_SESSION = 2,
    TM_CELL_BLANKET = 3,
    TM_CELL_ALLOWED = 4 /* allowed without asking */
};

/* The kind of an event, and the fields that it uses. */
enum tm_kind {
    TM_KIND_INSTALL = 1,   /* domain, suite, required, optional */
    TM_KIND_REMOVE = 2,    /* suite */
    TM_KIND_START = 3,     /* suite */
    TM_KIND_TERMINATE = 4, /* none */
    TM_KIND_REQUEST = 5    /* permission, answer of the user */
};

/* The answer of the user in a request. */
enum tm_user_answer {
    TM_ANSWER_NONE = 0,
    TM_ALLOW_ONESHOT = 1, /* for this request only */
    TM_ALLOW_SESSION = 2, /* until the suite terminates */
    TM_ALLOW_BLANKET = 3, /* until the suite is removed */
    TM_DENY_ONESHOT = 4,
    TM_DENY_SESSION = 5,
    TM_DENY_BLANKET = 6
};

static inline uint32_t tm_number(uint32_t answer) { return answer & 0xff; }
static inline uint32_t tm_detail(uint32_t answer) { return answer >> 8; }
static inline int tm_refused(uint32_t answer) { return tm_number(answer) >= TM_BAD_POLICY; }

/* The two halves of what tm_record returns. */
static inline size_t tm_record_offset(uint64_t part) { return (size_t)(part & 0xffffffff); }
static inline size_t tm_record_length(uint64_t part) { return (size_t)(part >> 32); }

/* 1,320 lent bytes become zero, DONE; another size is 17. */
uint32_t tm_new_state(uint8_t *state, size_t state_len);

/* 16 if the first is no policy (512 bytes, no cell above 4), 17 if the second is no valid state
   under it, else DONE. */
uint32_t tm_check(const uint8_t *policy, size_t policy_len, const uint8_t *state, size_t state_len);

/* Of every list of bytes: DONE if it is the record of an event, else 18. */
uint32_t tm_read_event(const uint8_t *record, size_t record_len);

/* 18 for a value that no record carries (an unknown kind, a value out of range, a nonzero field
   that the kind does not use), then 30 for another size than 24; else DONE and the 24 bytes of
   the record. */
uint32_t tm_write_event(uint8_t kind, uint8_t domain, uint16_t suite, uint8_t permission,
                        uint8_t answer, uint64_t required, uint64_t optional,
                        uint8_t *record, size_t record_len);

/* 16 and 17 as tm_check, 18 for a record that is no event, else the answer of the specification's
   model, and the bytes of its next state. */
uint32_t tm_step(const uint8_t *policy, size_t policy_len, uint8_t *state, size_t state_len,
                 const uint8_t *event, size_t event_len);

/* 16 and 17 as tm_check, 30 if the events are no whole records or the output is not two bytes for
   each: each refusal sets *count to 0 and leaves state and output; else DONE with their number, each answer in its two bytes and the bytes
   of the last state, as if tm_step had been called on each. */
uint32_t tm_run(const uint8_t *policy, size_t policy_len, uint8_t *state, size_t state_len,
                const uint8_t *events, size_t events_len, uint8_t *out, size_t out_len,
                uint64_t *count);

/* 16 and 17 as tm_check, then 21 for a suite that is not installed, suite 0 among them, else
   DONE. */
uint32_t tm_find(const uint8_t *policy, size_t policy_len, const uint8_t *state, size_t state_len,
                 uint16_t suite);

/* offset | length << 32: the bytes 40k to 40k + 40 of the lent state itself for the suite of slot
   k; 0, an empty part at its beginning, exactly when tm_find refuses. */
uint64_t tm_record(const uint8_t *policy, size_t policy_len, const uint8_t *state, size_t state_len,
                   uint16_t suite);

#ifdef __cplusplus
}
#endif

#endif

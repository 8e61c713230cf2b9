/*
 * terminal POLICY STORE EVENTS
 *
 * Steps each record of EVENTS under POLICY from the state in STORE, asks the user on standard input
 * where the monitor says ASK, and prints each answer: index, number, detail, name.
 *
 * STORE is replaced once, after the last event: until then an error or a crash leaves it as it was,
 * and the same events can be stepped again. A device that acts on each answer at once keeps the
 * store after each step. One terminal at a time uses a store and its temporary file, STORE.new.
 */
#define _XOPEN_SOURCE 700 /* C99 alone cannot push a file to the disk */

#include "treadlemint.h"

#include <errno.h>
#include <fcntl.h>
#include <libgen.h>
#include <stdbool.h>
#include <stdio.h>
#include <string.h>
#include <strings.h>
#include <unistd.h>

enum { STATUS_ERROR = 2, PERMISSION_BYTE = 4, LINE_SIZE = 80 };

static bool fail(const char *what, const char *why)
{
    fprintf(stderr, "terminal: %s: %s\n", what, why);
    return false;
}

/* Reads a file of exactly that size; the last argument is what to say of another. */
static bool load(const char *path, uint8_t *bytes, size_t size, const char *wrong_size)
{
    FILE *file = fopen(path, "rb");
    if (file == NULL)
        return fail(path, strerror(errno));
    bool whole = fread(bytes, 1, size, file) == size && fgetc(file) == EOF;
    bool unreadable = ferror(file) != 0;
    fclose(file);
    if (unreadable)
        return fail(path, "cannot be read");
    return whole || fail(path, wrong_size);
}

/* Only a missing store is a new state: one that cannot be read may hold the user's denials. */
static bool load_store(const char *path, uint8_t *state)
{
    if (access(path, F_OK) != 0 && errno == ENOENT)
        return !tm_refused(tm_new_state(state, TM_STATE_SIZE));
    return load(path, state, TM_STATE_SIZE, "wrong size, not 1,320 bytes");
}

static bool check(const char *policy_path, const uint8_t *policy,
                  const char *store_path, const uint8_t *state)
{
    uint32_t number = tm_number(tm_check(policy, TM_POLICY_SIZE, state, TM_STATE_SIZE));
    if (number == TM_BAD_POLICY)
        return fail(policy_path, "BAD_POLICY, a cell is above 4");
    return number == TM_DONE || fail(store_path, "BAD_STATE, not valid under the policy");
}

static void print_answer(long index, uint32_t answer)
{
    static const char *const names[] = {
        [TM_DONE] = "DONE", [TM_ALLOWED] = "ALLOWED", [TM_DENIED] = "DENIED", [TM_ASK] = "ASK",
        [TM_BAD_POLICY] = "BAD_POLICY",       [TM_BAD_STATE] = "BAD_STATE",
        [TM_BAD_EVENT] = "BAD_EVENT",         [TM_NO_SESSION] = "NO_SESSION",
        [TM_BUSY] = "BUSY",                   [TM_NOT_INSTALLED] = "NOT_INSTALLED",
        [TM_INSTALLED] = "INSTALLED",         [TM_NOT_OFFERED] = "NOT_OFFERED",
        [TM_NO_ROOM] = "NO_ROOM",             [TM_ACTIVE] = "ACTIVE",
        [TM_NOT_DECLARED] = "NOT_DECLARED",   [TM_NO_RIGHT] = "NO_RIGHT",
        [TM_MODE_TOO_WIDE] = "MODE_TOO_WIDE", [TM_ANSWER_NOT_ASKED] = "ANSWER_NOT_ASKED",
        [TM_BAD_LENGTH] = "BAD_LENGTH",
    };
    unsigned number = tm_number(answer), detail = tm_detail(answer);
    printf("%ld %u %u %s\n", index, number, detail, names[number]);
}

/* A beginning of the word will do, in either case. */
static bool means(const char *said, const char *word)
{
    return strncasecmp(said, word, strlen(said)) == 0;
}

/* The answer in "allow" or "deny", then "once" (also if nothing follows), "session" or "always";
   whatever else is said is none, so that nothing is allowed by mistake. */
static uint8_t parse_answer(const char *line)
{
    static const char *const modes[] = {"once", "session", "always"};
    char verb[LINE_SIZE], mode[LINE_SIZE] = "once", more[LINE_SIZE];
    int words = sscanf(line, "%79s %79s %79s", verb, mode, more); /* 79 is LINE_SIZE - 1 */
    if (words != 1 && words != 2)
        return TM_ANSWER_NONE;
    bool allow = means(verb, "allow"), deny = means(verb, "deny");
    for (int wider = 0; wider < 3 && (allow || deny); wider++)
        if (means(mode, modes[wider]))
            return (uint8_t)((allow ? TM_ALLOW_ONESHOT : TM_DENY_ONESHOT) + wider);
    return TM_ANSWER_NONE;
}

/* Standard input stands for the device's screen and keys; the end of input is no answer. */
static uint8_t ask_user(unsigned permission, uint32_t widest)
{
    char line[LINE_SIZE] = "";
    size_t length = 0;
    fflush(stdout);
    fprintf(stderr, "permission %u: allow once%s%s, or deny once, session, always?\n", permission,
            widest >= TM_CELL_SESSION ? ", session" : "",
            widest >= TM_CELL_BLANKET ? ", always" : "");
    for (int c = getchar(); c != EOF && c != '\n'; c = getchar())
        if (length < sizeof line) /* the rest of a longer line must not answer the next question */
            line[length++] = (char)c;
    if (length == sizeof line || length != strlen(line))
        return TM_ANSWER_NONE;
    return parse_answer(line);
}

static void step(const uint8_t *policy, uint8_t *state, const uint8_t *event, long index)
{
    uint32_t answer = tm_step(policy, TM_POLICY_SIZE, state, TM_STATE_SIZE, event, TM_EVENT_SIZE);
    print_answer(index, answer);
    if (tm_number(answer) != TM_ASK)
        return;
    uint8_t permission = event[PERMISSION_BYTE];
    uint8_t said = ask_user(permission, tm_detail(answer));
    if (said == TM_ANSWER_NONE)
        return;
    uint8_t again[TM_EVENT_SIZE];
    answer = tm_write_event(TM_KIND_REQUEST, 0, 0, permission, said, 0, 0, again, sizeof again);
    if (!tm_refused(answer))
        answer = tm_step(policy, TM_POLICY_SIZE, state, TM_STATE_SIZE, again, sizeof again);
    print_answer(index, answer);
}

/* The number of records, -1 if not whole ones: known first, so that no user is asked in vain. */
static long count_events(FILE *events)
{
    long size = fseek(events, 0, SEEK_END) == 0 ? ftell(events) : -1;
    rewind(events);
    return size >= 0 && size % TM_EVENT_SIZE == 0 ? size / TM_EVENT_SIZE : -1;
}

static bool step_all(const char *path, const uint8_t *policy, uint8_t *state)
{
    FILE *events = fopen(path, "rb");
    if (events == NULL)
        return fail(path, strerror(errno));
    uint8_t event[TM_EVENT_SIZE];
    long count = count_events(events), index = 0;
    while (index < count && fread(event, sizeof event, 1, events) == 1)
        step(policy, state, event, index++);
    fclose(events);
    if (count < 0)
        return fail(path, "wrong size, not whole records of 24 bytes");
    if (index < count)
        return fail(path, "cannot be read");
    return (fflush(stdout) == 0 && !ferror(stdout)) || fail("standard output", "cannot be written");
}

/* The old store stands until the new one is whole on the disk and takes its name. */
static bool keep_store(const char *path, const uint8_t *state)
{
    char temporary[FILENAME_MAX];
    int length = snprintf(temporary, sizeof temporary, "%s.new", path);
    if (length < 0 || (size_t)length >= sizeof temporary)
        return fail(path, "name too long");
    FILE *file = fopen(temporary, "wb");
    if (file == NULL)
        return fail(temporary, strerror(errno));
    bool written = fwrite(state, TM_STATE_SIZE, 1, file) == 1 && fflush(file) == 0
        && fsync(fileno(file)) == 0;
    bool closed = fclose(file) == 0;
    if (!written || !closed || rename(temporary, path) != 0) {
        fail(temporary, strerror(errno));
        remove(temporary);
        return false;
    }
    int folder = open(dirname(temporary), O_RDONLY);
    if (folder >= 0) { /* pushes the new name too; until then a power cut may bring the old store */
        fsync(folder);
        close(folder);
    }
    return true;
}

int main(int argc, char **argv)
{
    uint8_t policy[TM_POLICY_SIZE];
    uint8_t state[TM_STATE_SIZE];
    if (argc != 4) {
        fprintf(stderr, "usage: terminal POLICY STORE EVENTS\n");
        return STATUS_ERROR;
    }
    bool kept = load(argv[1], policy, sizeof policy, "wrong size, not 512 bytes")
        && load_store(argv[2], state) && check(argv[1], policy, argv[2], state)
        && step_all(argv[3], policy, state) && keep_store(argv[2], state);
    return kept ? 0 : STATUS_ERROR;
}

/*
 * For tools/components.py: calls migthumo_read_component as standard input says, and writes what came of each call.
 *
 * In, batch after batch: how many calls, how many bytes they take, and the calls; each is a struct call and then the
 * record's slice. Out, for each call: a struct outcome. All is as the machine holds it.
 *
 * A slice stands directly before a page that can't be read, or directly after one, so that a call that looks beyond its
 * slice is caught. Each output stands among words that are not its own; they are handed back with it.
 */
#define _DEFAULT_SOURCE
#include <setjmp.h>
#include <signal.h>
#include <stdint.h>
#include <stdio.h>
#include <stdlib.h>
#include <string.h>
#include <sys/mman.h>
#include <unistd.h>

#include "migthumo.h"

/* Where the header declares it too, the two have to agree. */
uint32_t migthumo_read_component(const uint8_t *bytes, size_t bytes_length, size_t at, size_t *head, size_t head_length,
                                 double *m, size_t m_length);

/* The words around and in the two outputs: LEAD words that are not an output's own, the output, and others. */
enum { LEAD = 2, HEAD_ROOM = 8, M_ROOM = 14, SLICE_MOST = 1 << 24 };

/* How a slice stands: directly before a page that can't be read, or directly after one. With NULLS added, slices of
   length 0 are null. */
enum { BEFORE_PAGE = 0, AFTER_PAGE = 1, NULLS = 2 };

/* Added to an answer, above its 32 bits. */
#define CAUGHT ((uint64_t)1 << 32)
#define BYTES_CHANGED ((uint64_t)2 << 32)

struct call {
    uint64_t bytes_length, at, head_length, m_length, standing;
    uint64_t words[HEAD_ROOM + M_ROOM];
};

struct outcome {
    uint64_t answer;
    uint64_t words[HEAD_ROOM + M_ROOM];
};

static sigjmp_buf back;
static uint8_t *first_byte;
static size_t head_room[HEAD_ROOM];
static double m_room[M_ROOM];

/* Ends the program with a line. */
static void fail(const char *why) {
    fprintf(stderr, "components.c: %s\n", why);
    exit(2);
}

/* A page was touched that can't be. */
static void caught(int signal_number) {
    (void)signal_number;
    siglongjmp(back, 1);
}

/* SLICE_MOST bytes with a page before and a page after them that can't be read; and the two signals are caught. */
static void prepare(void) {
    size_t page = (size_t)sysconf(_SC_PAGESIZE);
    uint8_t *room = mmap(NULL, SLICE_MOST + 2 * page, PROT_NONE, MAP_PRIVATE | MAP_ANONYMOUS | MAP_NORESERVE, -1, 0);
    struct sigaction action;
    if (room == MAP_FAILED || mprotect(room + page, SLICE_MOST, PROT_READ | PROT_WRITE) != 0) fail("no memory");
    first_byte = room + page;
    memset(&action, 0, sizeof action);
    action.sa_handler = caught;
    action.sa_flags = SA_NODEFER;
    if (sigaction(SIGSEGV, &action, NULL) != 0 || sigaction(SIGBUS, &action, NULL) != 0) fail("no signal handler");
}

/* The call itself: its answer, or CAUGHT. */
static uint64_t answered(const uint8_t *bytes, const struct call *call) {
    int nulls = (call->standing & NULLS) != 0;
    size_t *head = nulls && call->head_length == 0 ? NULL : head_room + LEAD;
    double *m = nulls && call->m_length == 0 ? NULL : m_room + LEAD;
    if (sigsetjmp(back, 0) != 0) return CAUGHT;
    return migthumo_read_component(bytes, call->bytes_length, call->at, head, call->head_length, m, call->m_length);
}

/* One call on a slice, with the words that the outputs hold beforehand, and those that they hold after it. */
static void make(const struct call *call, const uint8_t *slice, struct outcome *outcome) {
    size_t length = call->bytes_length;
    uint8_t *bytes = first_byte + (call->standing & AFTER_PAGE ? 0 : SLICE_MOST - length);
    int null = (call->standing & NULLS) != 0 && length == 0;
    memcpy(bytes, slice, length);
    memcpy(head_room, call->words, sizeof head_room);
    memcpy(m_room, call->words + HEAD_ROOM, sizeof m_room);
    outcome->answer = answered(null ? NULL : bytes, call);
    if (memcmp(bytes, slice, length) != 0) outcome->answer |= BYTES_CHANGED;
    memcpy(outcome->words, head_room, sizeof head_room);
    memcpy(outcome->words + HEAD_ROOM, m_room, sizeof m_room);
}

/* A batch, all of which is read before anything is written. Calls that don't end are ended by an alarm. */
static void batch(uint64_t calls, uint64_t size) {
    uint8_t *in = malloc(size + 1), *place = in, *end = in + size;
    struct outcome *out = calloc(calls + 1, sizeof *out);
    if (in == NULL || out == NULL) fail("no memory");
    if (fread(in, 1, size, stdin) != size) fail("a batch is cut short");
    alarm(60);
    for (uint64_t i = 0; i < calls; i++) {
        struct call call;
        if ((size_t)(end - place) < sizeof call) fail("a call is cut short");
        memcpy(&call, place, sizeof call);
        place += sizeof call;
        if ((size_t)(end - place) < call.bytes_length || call.bytes_length > SLICE_MOST) fail("a slice is too long");
        if (call.head_length > HEAD_ROOM - 2 * LEAD || call.m_length > M_ROOM - 2 * LEAD) fail("an output is too long");
        make(&call, place, &out[i]);
        place += call.bytes_length;
    }
    alarm(0);
    if (fwrite(out, sizeof *out, calls, stdout) != calls || fflush(stdout) != 0) fail("nothing can be written");
    free(in);
    free(out);
}

int main(void) {
    uint64_t sizes[2];
    _Static_assert(sizeof(size_t) == 8 && sizeof(double) == 8, "words of 64 bits");
    prepare();
    while (fread(sizes, sizeof sizes, 1, stdin) == 1) batch(sizes[0], sizes[1]);
    return 0;
}

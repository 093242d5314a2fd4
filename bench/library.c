/* What each call of include/macsec.h takes: octets of stack, and time.
 *
 *     library [ROUNDS]
 *
 * Stack: each call runs once in a thread whose stack was painted; what a thread takes that does nothing is subtracted, and 0 is less than that.
 * Time: the least of ROUNDS rounds (20), in nanoseconds a call. Device calls are made in memory, and their time is not counted. Frames have 64 and
 * 1,514 octets, keys 16, with confidentiality. Compile it with `cc -O2 -pthread -I include bench/library.c out/library/libmacs_c.a`. */
#define _GNU_SOURCE
#include "macsec.h"

#include <pthread.h>
#include <stdio.h>
#include <stdlib.h>
#include <string.h>
#include <time.h>

enum { STACK = 8 << 20, FRAMES = 1000, LONG = 1514, SHORT = 64 };

static struct macs_sector sectors[MACS_SECTORS], blank[MACS_SECTORS];
static struct macs_endpoint e;
static struct macs_call call;
static struct macs_done done;
static struct macs_sector read_sector;
static struct macs_key key;
static const struct macs_sci PEER = {{2, 0, 0, 0, 0, 2, 0, 1}};
static const struct macs_identity identity = {{{2, 0, 0, 0, 0, 1, 0, 1}}, 65536, 65536};
static struct macs_command command = {.kind = MACS_SET_REPLAY, .choice = 1};
static uint8_t plain[LONG], out[MACS_MAX_FRAME], sealed[LONG + MACS_MAX_OVERHEAD], received[FRAMES][LONG + MACS_MAX_OVERHEAD];
static struct macs_tag tag = {{{2, 0, 0, 0, 0, 2, 0, 1}}, 1, 0, MACS_EXPLICIT, 1, 0};
static size_t length = LONG, written, at, sealed_length;
static uint32_t answer, pn, peer_pn = 1;
static uint64_t ticket;

static void expect(bool is_so, const char *what) {
    if (is_so) return;
    printf("%s: answer %u\n", what, (unsigned)answer);
    exit(1);
}

static void work(void) {
    while ((answer = macs_next_call(&e, &call, &done)) != MACS_IDLE) {
        expect(answer == MACS_CALL || answer == MACS_DONE, "work");
        if (answer == MACS_DONE) continue;
        if (call.kind == MACS_READ) read_sector = sectors[call.sector];
        if (call.kind == MACS_WRITE) memcpy(sectors[call.sector].octets, call.octets, MACS_SECTOR);
        answer = macs_did_call(&e, &read_sector, 1, &done);
    }
}

/* The calls that are measured, and what each needs before it. */
static void nothing(void) {}
static void close_it(void) { macs_close(&e); }
static void wipe(void) { memcpy(sectors, blank, sizeof sectors); }
static void begin_command(void) {
    work();
    macs_submit(&e, &command, &ticket);
}
static void name_call(void) {
    begin_command();
    answer = macs_next_call(&e, &call, &done);
}

static void seal(void) { answer = macs_seal_frame(&key, &tag, plain, length, sealed, sizeof sealed, &sealed_length); }
static void open_frame(void) {
    struct macs_opened opened;
    answer = macs_open_frame(&key, &PEER, 0, sealed, sealed_length, out, sizeof out, &opened);
}
static void read_tag(void) {
    struct macs_tag it;
    answer = macs_read_tag(sealed, sealed_length, &it);
}
static void format(void) { answer = macs_format(sectors, MACS_SECTORS, &identity); }
static void open_it(void) { answer = macs_open(&e, sectors, MACS_SECTORS); }
static void next(void) { answer = macs_next_call(&e, &call, &done); }
static void did(void) { answer = macs_did_call(&e, &read_sector, 1, &done); }
static void submit(void) { answer = macs_submit(&e, &command, &ticket); }
static void protect(void) { answer = macs_protect(&e, plain, length, out, sizeof out, &written, &pn); }
static void receive(void) { answer = macs_receive(&e, received[at], sealed_length, out, sizeof out, &written), at++; }
static void show(void) {
    struct macs_tx tx;
    answer = macs_show_tx(&e, 0, &tx);
}
static void count(void) {
    struct macs_counters counters;
    answer = macs_counters(&e, &counters);
}

/* Frames of the peer, each with the next number. The first one is handed in, so that numbers are reserved for the others. */
static void make_frames(void) {
    work();
    for (at = 0; at < FRAMES; at++) {
        tag.pn = peer_pn++;
        expect(macs_seal_frame(&key, &tag, plain, length, received[at], sizeof received[at], &sealed_length) == MACS_OK, "frames");
    }
    at = 0;
    receive();
    work();
}

static void *in_thread(void *run) {
    ((void (*const *)(void))run)[0]();
    return NULL;
}

static long stack_of(void (*run)(void)) {
    static uint8_t *stack;
    pthread_attr_t attributes;
    pthread_t thread;
    long i = 0;
    if (!stack) stack = aligned_alloc(4096, STACK);
    memset(stack, 0xA5, STACK);
    pthread_attr_init(&attributes);
    pthread_attr_setstack(&attributes, stack, STACK);
    if (pthread_create(&thread, &attributes, in_thread, &run) != 0 || pthread_join(thread, NULL) != 0) exit(1);
    while (i < STACK && stack[i] == 0xA5) i++;
    return STACK - i;
}

static double now(void) {
    struct timespec it;
    clock_gettime(CLOCK_MONOTONIC, &it);
    return 1e9 * (double)it.tv_sec + (double)it.tv_nsec;
}

/* Prints the row of a call, which is made `calls` times a round, after `before`. */
static void row(const char *name, void (*before)(void), void (*run)(void), int calls, int rounds, uint32_t expected) {
    double least = 1e18;
    before();
    long stack = stack_of(run) - stack_of(nothing);
    expect(answer == expected || run == nothing, name);
    for (int round = 0; round < rounds; round++) {
        before();
        double begin = now();
        for (int i = 0; i < calls; i++) run();
        double taken = (now() - begin) / calls;
        if (taken < least) least = taken;
        expect(answer == expected, name);
    }
    printf("%-32s %8ld octets %10.0f ns\n", name, stack, least);
}

int main(int count_of_words, char **words) {
    int rounds = count_of_words > 1 ? atoi(words[1]) : 20;
    const uint8_t octets[16] = {0x5A};
    struct macs_command first[] = {{.kind = MACS_TX_INSTALL, .start = 1, .choice = 1},
                                   {.kind = MACS_TX_USE},
                                   {.kind = MACS_RX_ADD, .sci = PEER},
                                   {.kind = MACS_RX_INSTALL, .start = 1, .sci = PEER}};
    e.at = malloc(MACS_ENDPOINT);
    memcpy(plain, "\2\0\0\0\0\2\2\0\0\0\0\1\x08\0", 14);
    expect(e.at && macs_key_new(octets, sizeof octets, &key) == MACS_OK, "key");
    first[0].key = first[3].key = key;
    printf("an endpoint takes %zu octets\n", macs_endpoint_size());
    row("macs_format", wipe, format, 1, rounds, MACS_OK);
    row("macs_open", close_it, open_it, 1, rounds, MACS_OK);
    for (size_t i = 0; i < 4; i++) expect((answer = macs_submit(&e, &first[i], &ticket)) == MACS_OK, "submit");
    work();
    row("macs_submit", work, submit, 1, rounds, MACS_OK);
    row("macs_next_call", begin_command, next, 1, rounds, MACS_CALL);
    row("macs_next_call, nothing to do", work, next, 1000, rounds, MACS_IDLE);
    row("macs_did_call", name_call, did, 1, rounds, MACS_WORKED);
    work();
    row("macs_show_tx", nothing, show, 1000, rounds, MACS_OK);
    row("macs_counters", nothing, count, 1000, rounds, MACS_OK);
    for (int i = 0; i < 2; i++) {
        char name[64];
        length = i ? LONG : SHORT;
#define ROW(call, before, run, calls, expected)                           \
    snprintf(name, sizeof name, call ", %u octets", (unsigned)length);    \
    row(name, before, run, calls, rounds, expected)
        ROW("macs_seal_frame", nothing, seal, 1000, MACS_OK);
        ROW("macs_open_frame", seal, open_frame, 1000, MACS_OK);
        ROW("macs_read_tag", seal, read_tag, 1000, MACS_OK);
        ROW("macs_protect", work, protect, 1000, MACS_OK);
        ROW("macs_receive", make_frames, receive, FRAMES - 1, MACS_DELIVERED_OK);
    }
    free(e.at);
    return 0;
}

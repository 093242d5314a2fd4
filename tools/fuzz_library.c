/* Calls each function of include/macsec.h with random frames, structs and sectors, in any order: an answer has to come, and never a crash.
 *
 *     fuzz_library [CALLS [SEED]]
 *
 * What a call is given and what it writes ends at a page that nobody may touch, and begins after octets that have to stay as they were. Each
 * answer has to be one of those that the header names for the call, and a refusal has to leave the outputs as they were. What it reads back
 * has to fit what was done: SecTAGs, tickets, packet numbers, and the counters, which it keeps too. Half of the frames, commands and sectors
 * are valid ones, or nearly: so the endpoint is opened, gets commands and carries frames. Device calls fail, are not made, or give random
 * octets. It prints how often each call gave each answer. `tools/try_library` compiles it with sanitizers.
 *
 * Compiled by afl-clang-fast (`tools/fuzz_guided`), it takes what it chooses from the fuzzer's input, and begins each input with a new endpoint. */
#define _GNU_SOURCE
#include "macsec.h"

#include <stdio.h>
#include <stdlib.h>
#include <string.h>
#include <sys/mman.h>

enum { CODES = 112, CANARY = 64, ROOMS = 6, ROOM = 1 << 20, PAGE = 4096, WINDOWS = 100, ANS = 4 };
enum { KEY_NEW, READ_TAG, SEAL, OPEN_FRAME, FORMAT, OPEN, CLOSE, SUBMIT, NEXT_CALL, DID_CALL, PROTECT, RECEIVE, SHOW_TX, SHOW_RX, COUNTERS, CALLS };

/* One more than the last packet number. */
static const uint64_t END_OF_NUMBERS = UINT64_C(1) << 32;

static const char *const NAMES[CALLS] = {"macs_key_new", "macs_read_tag", "macs_seal_frame", "macs_open_frame", "macs_format",
                                         "macs_open",    "macs_close",    "macs_submit",     "macs_next_call",  "macs_did_call",
                                         "macs_protect", "macs_receive",  "macs_show_tx",    "macs_show_rx",    "macs_counters"};

/* The answers of each call, as the header names them: codes from one to the next. */
static const uint8_t ANSWERS[CALLS][12] = {
    [KEY_NEW] = {0, 1},
    [READ_TAG] = {0, 0, 3, 4, 6, 8},
    [SEAL] = {0, 5},
    [OPEN_FRAME] = {0, 10},
    [FORMAT] = {0, 0, 40, 40, 44, 45},
    [OPEN] = {0, 0, 33, 33, 40, 43},
    [CLOSE] = {0, 0},
    [SUBMIT] = {0, 0, 2, 2, 32, 32, 55, 55, 60, 61},
    [NEXT_CALL] = {32, 32, 50, 51, 54, 56},
    [DID_CALL] = {32, 32, 34, 34, 52, 54, 57, 57},
    [PROTECT] = {0, 0, 5, 5, 32, 32, 55, 55, 70, 75},
    [RECEIVE] = {5, 5, 32, 32, 55, 55, 80, 95},
    [SHOW_TX] = {0, 0, 2, 2, 31, 32},
    [SHOW_RX] = {0, 0, 2, 2, 31, 32},
    [COUNTERS] = {0, 0, 32, 32},
};

static uint64_t counts[CALLS][CODES], state;

/* The last call that was made. */
static int last;

/* Since the opening: how often frames got each answer, the commands by their tickets, how many were queued and completed, and the largest
 * window that replay protection may have. */
static struct {
    uint64_t counts[CODES], queued, completed, window;
    struct macs_command commands[MACS_QUEUE];
} life;

static void begin_life(void) {
    memset(&life, 0, sizeof life);
    life.window = WINDOWS - 1;
}

static uint32_t drawn(void) {
    state ^= state >> 12;
    state ^= state << 25;
    state ^= state >> 27;
    return (uint32_t)((state * UINT64_C(2685821657736338717)) >> 32);
}

/* The fuzzer's input, if there is one: the choices, octet by octet. */
static const uint8_t *input;
static size_t input_left;
static bool has_ended;

/* A choice of fewer than `limit`. */
static uint32_t below(uint32_t limit) {
    if (!input) return drawn() % limit;
    size_t count = limit <= 256 ? 1 : limit <= 65536 ? 2 : 4;
    uint32_t choice = 0;
    if (input_left < count) has_ended = true;
    for (; !has_ended && count > 0; count--, input_left--) choice = choice << 8 | *input++;
    return choice % limit;
}

static void fill(void *at, size_t length) {
    for (uint8_t *it = at; length > 0;) {
        uint64_t octets = (uint64_t)drawn() << 32 | drawn();
        size_t count = length < 8 ? length : 8;
        memcpy(it, &octets, count);
        it += count, length -= count;
    }
}

static void fail(int call, const char *what, uint32_t answer) {
    printf("%s: %s: answer %u\n", NAMES[call], what, (unsigned)answer);
    if (input) abort();
    exit(1);
}

static void note(int call, uint32_t answer) {
    bool is_known = false;
    last = call;
    for (size_t i = 0; i < sizeof ANSWERS[0]; i += 2)
        is_known |= (i == 0 || ANSWERS[call][i + 1]) && ANSWERS[call][i] <= answer && answer <= ANSWERS[call][i + 1];
    if (!is_known || answer >= CODES) fail(call, "no answer of this call", answer);
    counts[call][answer]++;
    if (call == PROTECT || call == RECEIVE) life.counts[answer]++;
}

/* Rooms that end at a page without access. */
static struct {
    uint8_t *end, *at;
    size_t length;
    uint8_t before[CANARY];
} rooms[ROOMS];

static void make_rooms(void) {
    for (int i = 0; i < ROOMS; i++) {
        uint8_t *it = mmap(NULL, ROOM + PAGE, PROT_READ | PROT_WRITE, MAP_PRIVATE | MAP_ANONYMOUS, -1, 0);
        if (it == MAP_FAILED || mprotect(it + ROOM, PAGE, PROT_NONE) != 0) exit(2);
        rooms[i].end = it + ROOM;
    }
}

/* A room of this length, with random octets before it. */
static void *room(int i, size_t length) {
    rooms[i].at = rooms[i].end - length, rooms[i].length = length;
    fill(rooms[i].before, CANARY);
    memcpy(rooms[i].at - CANARY, rooms[i].before, CANARY);
    return rooms[i].at;
}

static void look_at_rooms(void) {
    for (int i = 0; i < ROOMS; i++)
        if (rooms[i].at && memcmp(rooms[i].at - CANARY, rooms[i].before, CANARY) != 0) fail(last, "octets before a room have changed", 0);
}

/* What two rooms had, to compare after a refusal. */
static uint8_t copies[2][MACS_MAX_FRAME + 64];

static void copy(int i, const void *at, size_t length) {
    memcpy(copies[i], at, length < sizeof copies[0] ? length : sizeof copies[0]);
}

static bool is_copy(int i, const void *at, size_t length) {
    return memcmp(copies[i], at, length < sizeof copies[0] ? length : sizeof copies[0]) == 0;
}

/* A few keys and channels, so that commands and frames meet. */
static struct macs_key some_key(void) {
    struct macs_key key;
    memset(&key, 0, sizeof key);
    key.octets[0] = (uint8_t)below(256);
    key.length = below(2) ? 16 : 32;
    if (below(16) == 0) fill(&key, sizeof key);
    return key;
}

static struct macs_sci some_sci(void) {
    return (struct macs_sci){{2, 0, 0, 0, 0, (uint8_t)below(3), 0, 1}};
}

static uint32_t some_number(void) {
    return below(4) ? 1 + below(64) : below(2) ? UINT32_MAX - below(4) : below(UINT32_MAX);
}

static size_t some_length(void) {
    return below(8) ? below(200) : below(2) ? MACS_MAX_FRAME - 64 + below(128) : below(12000);
}

static uint8_t some_offset(void) {
    return (uint8_t)(below(4) ? 0 : below(2) ? 30 + 20 * below(2) : below(256));
}

static struct macs_tag some_tag(void) {
    struct macs_tag tag = {some_sci(), some_number(), (uint8_t)below(4), (uint8_t)below(3), (uint8_t)below(2), some_offset()};
    if (below(8) == 0) fill(&tag, sizeof tag);
    return tag;
}

/* The last command that installed a key to receive under. */
static struct macs_command installed;

/* A frame in a room: random, or a protected one with a change or none, often under that key. */
static size_t some_frame(int i) {
    uint8_t plain[MACS_MAX_FRAME], frame[MACS_MAX_FRAME];
    size_t length = some_length(), written;
    struct macs_tag tag = some_tag();
    struct macs_key key = some_key();
    if (below(2)) {
        tag = (struct macs_tag){installed.sci, installed.start + below(64), installed.an, (uint8_t)below(3), (uint8_t)below(2), installed.offset};
        key = installed.key;
    }
    fill(plain, length < sizeof plain ? length : sizeof plain);
    if (below(4) != 0 && length <= sizeof plain && macs_seal_frame(&key, &tag, plain, length, frame, sizeof frame, &written) == MACS_OK) {
        if (below(4) == 0) frame[below((uint32_t)written)] ^= (uint8_t)(1 << below(8));
        length = below(8) ? written : below((uint32_t)written);
        memcpy(room(i, length), frame, length);
    } else
        fill(room(i, length), length);
    return length;
}

/* A protected frame has this SecTAG. */
static void look_at_tag(int which, const struct macs_tag *tag, const uint8_t *plain, size_t length, const uint8_t *frame, size_t written) {
    struct macs_tag asked = *tag, said;
    uint8_t control = (uint8_t)(tag->an | (tag->encrypted ? 0x0C : 0) | (tag->name == MACS_EXPLICIT ? 0x20 : tag->name ? 0x40 : 0));
    asked.offset = 0;
    if (tag->name != MACS_EXPLICIT) asked.sci = (struct macs_sci){{0}};
    if (tag->name == MACS_END_STATION) memcpy(asked.sci.octets, plain + 6, 6), asked.sci.octets[7] = 1;
    if (macs_read_tag(frame, written, &said) != MACS_OK || memcmp(&said, &asked, sizeof said) != 0) fail(which, "another SecTAG is read", MACS_OK);
    if (written != length + (tag->name == MACS_EXPLICIT ? 32 : 24) || frame[14] != control) fail(which, "the SecTAG", MACS_OK);
}

static struct macs_sector disk[MACS_SECTORS];
static struct macs_endpoint endpoint;
static struct macs_call call;
static bool has_call;

static void fuzz_frames(int which) {
    struct macs_key *key = room(0, sizeof *key);
    struct macs_tag *tag = room(1, sizeof *tag);
    struct macs_sci *sci = room(4, sizeof *sci);
    size_t length = some_frame(2), space = below(4) ? MACS_MAX_FRAME : some_length();
    uint8_t *out = room(3, space);
    uint32_t answer;
    *key = some_key(), *tag = some_tag(), *sci = some_sci();
    memset(out, (int)below(256), space);
    copy(0, out, space);
    if (which == KEY_NEW) {
        length = below(40);
        fill(room(2, length), length);
        note(which, macs_key_new(rooms[2].at, length, key));
    } else if (which == READ_TAG) {
        copy(1, tag, sizeof *tag);
        answer = macs_read_tag(rooms[2].at, length, tag);
        note(which, answer);
        if (answer != MACS_OK && !is_copy(1, tag, sizeof *tag)) fail(which, "the tag has changed", answer);
    } else if (which == SEAL) {
        size_t *written = room(5, sizeof *written);
        answer = macs_seal_frame(key, tag, rooms[2].at, length, out, space, written);
        note(which, answer);
        if (answer != MACS_OK && !is_copy(0, out, space)) fail(which, "the room has changed", answer);
        if (answer == MACS_OK && *written > space) fail(which, "the frame is longer than its room", answer);
        if (answer == MACS_OK) look_at_tag(which, tag, rooms[2].at, length, out, *written);
    } else {
        struct macs_opened *opened = room(5, sizeof *opened);
        answer = macs_open_frame(key, sci, some_offset(), rooms[2].at, length, out, space, opened);
        note(which, answer);
        if (answer != MACS_OK && !is_copy(0, out, space)) fail(which, "the room has changed", answer);
        if (answer == MACS_OK && opened->octets > space) fail(which, "the frame is longer than its room", answer);
    }
}

static void fuzz_opening(int which) {
    size_t sectors = below(4) ? MACS_SECTORS : below(1100);
    struct macs_sector *it = room(2, sectors * sizeof *it);
    if (which == FORMAT) {
        struct macs_identity *identity = room(0, sizeof *identity);
        *identity = (struct macs_identity){some_sci(), below(8) ? 1 + below(65536) : below(UINT32_MAX), 1 + below(64)};
        memset(it, 0, sectors * sizeof *it);
        if (below(4) == 0) fill(it, sectors * sizeof *it);
        if (below(4) == 0 && sectors == MACS_SECTORS) memcpy(it, disk, sizeof disk);
        uint32_t answer = macs_format(it, sectors, identity);
        note(which, answer);
        if (answer == MACS_OK && sectors == MACS_SECTORS && !endpoint.is_open) memcpy(disk, it, sizeof disk);
    } else {
        for (size_t n = 0; n < sectors; n++) it[n] = disk[n % MACS_SECTORS];
        for (uint32_t n = below(2) ? 0 : below(8); n > 0 && sectors > 0; n--)
            fill(&it[below((uint32_t)(below(2) ? sectors : (sectors < 40 ? sectors : 40)))], below(MACS_SECTOR));
        bool was_open = endpoint.is_open;
        uint32_t answer = macs_open(&endpoint, it, sectors);
        note(which, answer);
        if (endpoint.is_open != (was_open || answer == MACS_OK)) fail(which, "is_open", answer);
        if (answer == MACS_OK) {
            begin_life();
            has_call = false;
            for (size_t n = 0; n < MACS_SECTORS; n++) disk[n] = it[n];
        }
    }
}

/* Commands are completed in the order of their tickets. */
static void look_at_done(int which, const struct macs_done *done) {
    const struct macs_command *command = &life.commands[done->ticket % MACS_QUEUE];
    if (done->ticket != ++life.completed || done->ticket > life.queued) fail(which, "no ticket of a pending command", done->answer);
    if (done->answer == MACS_OK && command->kind == MACS_SET_REPLAY) life.window = command->window;
}

static void fuzz_work(int which) {
    struct macs_done *done = room(1, sizeof *done);
    struct macs_call *named = room(0, sizeof *named);
    struct macs_sector *read = room(2, sizeof *read);
    uint64_t *ticket = room(3, sizeof *ticket);
    struct macs_command *command = room(4, sizeof *command);
    uint32_t answer;
    if (which == SUBMIT) {
        fill(command, sizeof *command);
        if (below(8))
            *command = (struct macs_command){1 + below(10),     some_number(), below(WINDOWS), (uint8_t)below(4),
                                             (uint8_t)below(3), some_offset(), some_sci(),     some_key()};
        if (command->kind == MACS_RX_INSTALL) installed = *command;
        answer = macs_submit(&endpoint, command, ticket);
        note(which, answer);
        if (answer == MACS_OK && *ticket != ++life.queued) fail(which, "another ticket", answer);
        if (answer == MACS_OK) life.commands[*ticket % MACS_QUEUE] = *command;
    } else if (which == NEXT_CALL) {
        answer = macs_next_call(&endpoint, named, done);
        note(which, answer);
        has_call = answer == MACS_CALL;
        if (has_call) call = *named;
        if (has_call && (call.kind < MACS_READ || call.kind > MACS_SYNC || (call.kind != MACS_SYNC && call.sector >= MACS_SECTORS)))
            fail(which, "no device call", answer);
        if (answer == MACS_DONE) look_at_done(which, done);
    } else {
        uint32_t ok = below(512) ? 1 : below(UINT32_MAX);
        fill(read, sizeof *read);
        if (has_call && call.kind == MACS_READ && below(16)) *read = disk[call.sector];
        if (has_call && call.kind == MACS_WRITE && below(256)) memcpy(disk[call.sector].octets, call.octets, MACS_SECTOR);
        answer = macs_did_call(&endpoint, read, ok, done);
        note(which, answer);
        if (has_call && answer == MACS_NO_CALL) fail(which, "it was named", answer);
        if (answer == MACS_DONE) look_at_done(which, done);
        has_call = false;
    }
}

static void fuzz_carrying(int which) {
    size_t length = some_frame(2), space = below(16) ? MACS_MAX_FRAME + below(4) : some_length();
    uint8_t *out = room(3, space);
    size_t *written = room(5, sizeof *written);
    uint32_t *pn = room(1, sizeof *pn), answer;
    struct macs_tx before[ANS], tx;
    struct macs_tag tag;
    for (uint8_t an = 0; an < ANS; an++) macs_show_tx(&endpoint, an, &before[an]);
    memset(out, (int)below(256), space);
    copy(0, out, space);
    answer = which == PROTECT ? macs_protect(&endpoint, rooms[2].at, length, out, space, written, pn)
                              : macs_receive(&endpoint, rooms[2].at, length, out, space, written);
    note(which, answer);
    bool is_there = answer == MACS_OK || macs_is_delivered(answer);
    if (!is_there && !is_copy(0, out, space)) fail(which, "the room has changed", answer);
    if (is_there && *written > space) fail(which, "the frame is longer than its room", answer);
    if ((space < MACS_MAX_FRAME) != (answer == MACS_ROOM) && answer != MACS_CLOSED) fail(which, "room", answer);
    if (answer != MACS_OK) return;
    if (macs_read_tag(out, *written, &tag) != MACS_OK || tag.pn != *pn || *pn != before[tag.an].next) fail(which, "the packet number", answer);
    if (macs_show_tx(&endpoint, tag.an, &tx) != MACS_OK || tx.next != before[tag.an].next + 1 || tx.reserved != before[tag.an].reserved - 1)
        fail(which, "the next packet number", answer);
}

static void fuzz_readers(int which) {
    struct macs_tx *tx = room(0, sizeof *tx);
    struct macs_rx *rx = room(1, sizeof *rx);
    struct macs_counters *counters = room(2, sizeof *counters);
    struct macs_sci *sci = room(3, sizeof *sci);
    uint8_t an = (uint8_t)(below(8) ? below(4) : below(256));
    *sci = some_sci();
    if (below(2)) *sci = installed.sci, an = installed.an;
    uint32_t answer = which == SHOW_TX   ? macs_show_tx(&endpoint, an, tx)
                      : which == SHOW_RX ? macs_show_rx(&endpoint, sci, an, rx)
                                         : macs_counters(&endpoint, counters);
    note(which, answer);
    if (answer != MACS_OK) return;
    if (which == SHOW_TX && (tx->next == 0 || tx->next + tx->reserved > END_OF_NUMBERS)) fail(which, "its numbers", answer);
    if (which == SHOW_RX && (rx->lowest == 0 || rx->lowest > rx->next || rx->next > rx->lowest + life.window ||
                             rx->next + rx->reserved > END_OF_NUMBERS))
        fail(which, "its numbers", answer);
    if (which == COUNTERS && (counters->protected_frames != life.counts[MACS_OK] ||
                              memcmp(counters->unsent, &life.counts[MACS_UNSENT_RUNT], sizeof counters->unsent) != 0 ||
                              memcmp(counters->received, &life.counts[MACS_DELIVERED_OK], sizeof counters->received) != 0))
        fail(which, "not as counted here", answer);
}

static void fuzz(void) {
    /* Work and frames come most often, so that commands are completed and numbers reserved. */
    uint32_t turn = below(1024);
    if (turn == 0)
        macs_close(&endpoint), note(CLOSE, 0);
    else if (turn < 9)
        fuzz_opening(turn < 3 ? FORMAT : OPEN);
    else if (turn < 96)
        fuzz_work(SUBMIT);
    else if (turn < 600)
        fuzz_work(has_call == (below(16) != 0) ? DID_CALL : NEXT_CALL);
    else if (turn < 680)
        fuzz_frames(KEY_NEW + (int)below(4));
    else if (turn < 960)
        fuzz_carrying(below(2) ? PROTECT : RECEIVE);
    else
        fuzz_readers(SHOW_TX + (int)below(3));
}

#ifdef __AFL_FUZZ_INIT
__AFL_FUZZ_INIT();

/* Makes the calls that an input chooses, over a new endpoint that is open. */
static void play(const uint8_t *at, size_t length) {
    const struct macs_identity identity = {{{2, 0, 0, 0, 0, 1, 0, 1}}, 4, 4};
    macs_close(&endpoint);
    memset(disk, 0, sizeof disk);
    memset(&installed, 0, sizeof installed);
    if (macs_format(disk, MACS_SECTORS, &identity) != MACS_OK || macs_open(&endpoint, disk, MACS_SECTORS) != MACS_OK) abort();
    begin_life();
    state = 1, input = at, input_left = length, has_ended = has_call = false;
    while (!has_ended) {
        fuzz();
        look_at_rooms();
    }
}
#endif

int main(int count, char **words) {
    uint64_t calls = count > 1 ? strtoull(words[1], NULL, 10) : 1000000, seed = count > 2 ? strtoull(words[2], NULL, 10) : 1;
    state = seed * UINT64_C(0x9E3779B97F4A7C15) + 1;
    make_rooms();
    uint8_t *memory = mmap(NULL, ROOM + PAGE, PROT_READ | PROT_WRITE, MAP_PRIVATE | MAP_ANONYMOUS, -1, 0);
    if (memory == MAP_FAILED || mprotect(memory + ROOM, PAGE, PROT_NONE) != 0) return 2;
    endpoint.at = memory + ROOM - MACS_ENDPOINT;
    if (macs_endpoint_size() != MACS_ENDPOINT || macs_endpoint_alignment() != MACS_ENDPOINT_ALIGNMENT) {
        printf("an endpoint takes %zu octets, aligned to %zu\n", macs_endpoint_size(), macs_endpoint_alignment());
        return 1;
    }
#ifdef __AFL_FUZZ_INIT
    __AFL_INIT();
    const uint8_t *inputs = __AFL_FUZZ_TESTCASE_BUF;
    while (__AFL_LOOP(10000)) play(inputs, (size_t)__AFL_FUZZ_TESTCASE_LEN);
    if (count == 1) return 0;
#endif
    for (uint64_t n = 0; n < calls; n++) {
        fuzz();
        look_at_rooms();
    }
    for (int which = 0; which < CALLS; which++) {
        printf("%s", NAMES[which]);
        for (int code = 0; code < CODES; code++)
            if (counts[which][code]) printf("  %d: %llu", code, (unsigned long long)counts[which][code]);
        printf("\n");
    }
    return 0;
}

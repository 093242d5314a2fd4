/* An endpoint on a simulated flash, whose power is cut at random.
 *
 *     flash [LIVES [SEED]]
 *
 * In each life the endpoint is opened, sends and receives frames and gets commands, until the power is cut inside a device call, or that
 * call fails. A cut leaves each sector that was written since the last sync as it was, as it was written, torn, or with any octets; a write
 * that fails leaves its own sector so. A peer sends new frames and repeats old ones. After 100 lives the flash is formatted for another
 * endpoint, as macsec.h says at macs_format: cuts and calls that fail come there, too, and it begins again until the endpoint opens. Three
 * counts are printed, which have to be 0: packet numbers that went out twice under one key, completed commands that a later opening did not
 * find, and frames that were delivered twice. The status is then 0, and 2 if an answer is not as it has to be. */
#include "macsec.h"

#include <stdio.h>
#include <stdlib.h>
#include <string.h>

enum { LIVES_OF_A_FLASH = 100, KEYS = 1 << 14, SEEN = 1 << 18, PLAIN = 60, ANS = 4 };

static uint64_t state;

static uint32_t below(uint32_t limit) { /* xorshift64* (Vigna, 2016) */
    state ^= state >> 12;
    state ^= state << 25;
    state ^= state >> 27;
    return (uint32_t)((state * UINT64_C(2685821657736338717)) >> 32) % limit;
}

static void expect(bool is_so, const char *what, uint32_t answer) {
    if (is_so) return;
    printf("unexpected: %s: %s\n", what, macs_answer_text(answer));
    exit(2);
}

/* What is counted. */
static uint64_t device_calls, sent_frames, delivered_frames, kept_commands, sent_twice, lost_commands, delivered_twice;

/* The flash: what it shows, what is durable, and where they may differ. */
static struct macs_sector shown[MACS_SECTORS], durable[MACS_SECTORS];
static bool is_pending[MACS_SECTORS];

/* In how many device calls the life ends, and whether by a cut of the power or a call that fails. */
static uint32_t calls_left;
static bool ends_by_cut;

static void sync_flash(void) {
    for (size_t n = 0; n < MACS_SECTORS; n++)
        if (is_pending[n]) durable[n] = shown[n];
    memset(is_pending, 0, sizeof is_pending);
}

/* Leaves a sector as it was, as it was written, torn, or with any octets. */
static void leave(struct macs_sector *sector, const uint8_t *written) {
    size_t from = below(MACS_SECTOR), count = below((uint32_t)(MACS_SECTOR - from) + 1);
    switch (below(4)) {
    case 0:
        break;
    case 1:
        memcpy(sector->octets, written, MACS_SECTOR);
        break;
    case 2:
        memcpy(sector->octets + from, written + from, count);
        break;
    default:
        for (size_t i = 0; i < MACS_SECTOR; i++) sector->octets[i] = (uint8_t)below(256);
    }
}

/* After the last device call of a life: the power is cut, or the flash synced. */
static void end_life(void) {
    if (!ends_by_cut) sync_flash();
    for (size_t n = 0; n < MACS_SECTORS; n++) {
        if (is_pending[n]) leave(&durable[n], shown[n].octets);
        shown[n] = durable[n];
    }
    memset(is_pending, 0, sizeof is_pending);
}

/* Makes a device call: whether it succeeded. The one that ends the life may have begun. */
static bool make(const struct macs_call *call, struct macs_sector *read) {
    bool is_last = calls_left-- == 0;
    expect(call->kind == MACS_SYNC || call->sector < MACS_SECTORS, "sector", 0);
    device_calls++;
    if (call->kind == MACS_READ) *read = shown[call->sector];
    if (call->kind == MACS_WRITE) {
        if (is_last) leave(&shown[call->sector], call->octets);
        if (!is_last) memcpy(shown[call->sector].octets, call->octets, MACS_SECTOR);
        is_pending[call->sector] = true;
    }
    if (call->kind == MACS_SYNC && !is_last) sync_flash();
    return !is_last;
}

/* Numbers of 64 bits that were seen: a key and a packet number. */
struct set {
    uint64_t its[SEEN];
    size_t count;
};

static bool is_new(struct set *set, uint32_t key, uint32_t pn) {
    uint64_t it = (uint64_t)key << 32 | pn;
    size_t at = (it * UINT64_C(0x9E3779B97F4A7C15)) >> 46;
    expect(set->count < SEEN / 2, "too many frames on one flash", 0);
    while (set->its[at] != 0 && set->its[at] != it) at = (at + 1) % SEEN;
    if (set->its[at] == it) return false;
    set->its[at] = it;
    set->count++;
    return true;
}

/* What an operator installed: keys by number, 0 for none, and the association that frames go out under, ANS for none. */
struct config {
    uint32_t tx[ANS], rx[ANS], encoding;
};

/* The configuration of the completed commands, and the one with the command that was submitted after them. `is_asked`: this command may
 * have been kept. `is_queued`: it was submitted in this life, and is not completed. */
static struct config kept, asked;
static bool is_asked, is_queued;

/* The flash is not used further: a command was lost, or nothing is left to do. */
static bool is_over;

static void lose(void) {
    lost_commands++;
    is_over = true;
}

static struct macs_endpoint endpoint;
static struct macs_identity identity;
static struct macs_sci peer;
static struct set sent, delivered;
static uint32_t keys, peer_start[KEYS], peer_next[KEYS];

static struct macs_key key_of(uint32_t number) {
    struct macs_key key;
    uint8_t octets[32] = {(uint8_t)number, (uint8_t)(number >> 8), 0x5A};
    uint32_t answer = macs_key_new(octets, number % 2 ? 16 : 32, &key);
    expect(answer == MACS_OK, "key", answer);
    return key;
}

static bool shows(const struct config *config) {
    struct macs_tx tx;
    struct macs_rx rx;
    for (uint8_t an = 0; an < ANS; an++)
        if ((macs_show_tx(&endpoint, an, &tx) == MACS_OK) != (config->tx[an] != 0) ||
            (macs_show_rx(&endpoint, &peer, an, &rx) == MACS_OK) != (config->rx[an] != 0))
            return false;
    return true;
}

/* The endpoint acts by the configuration that is kept, or by the one with the command that was under way at the end of an earlier life. */
static bool fits(bool is_kept, bool is_other) {
    is_other = is_other && is_asked && !is_queued;
    if (!is_kept && is_other) kept = asked;
    if (is_asked && !is_queued && is_kept != is_other) is_asked = false;
    if (!is_kept && !is_other) lose();
    return is_kept || is_other;
}

/* A device call of the pending work, or a step that needs none: its answer, or MACS_DISK at the end of the life. */
static uint32_t step(void) {
    struct macs_call call;
    struct macs_done done = {0, 0};
    struct macs_sector read = {{0}};
    uint32_t answer = macs_next_call(&endpoint, &call, &done);
    if (answer == MACS_CALL) {
        bool is_made = make(&call, &read);
        if (!is_made && ends_by_cut) return MACS_DISK;
        answer = macs_did_call(&endpoint, &read, is_made, &done);
        expect(is_made == (answer != MACS_DISK), "device call", answer);
    }
    expect(answer >= MACS_IDLE && answer <= MACS_DISK && answer != MACS_STOPPED && answer != MACS_GENERATIONS_SPENT, "step", answer);
    if (answer == MACS_DONE) {
        expect(is_queued, "ticket", answer);
        if (done.answer == MACS_OK)
            kept = asked, kept_commands++;
        else if (done.answer != MACS_REFUSED_SPENT_FULL)
            lose(); /* it fits what is kept: something else is there */
        is_asked = is_queued = false;
    }
    return answer;
}

/* All work that is due: false at the end of the life. */
static bool work(void) {
    uint32_t answer = step();
    while (answer != MACS_IDLE && answer != MACS_DISK) answer = step();
    return answer == MACS_IDLE;
}

/* The first packet number of a key: some are soon at their last one. */
static uint32_t some_start(void) {
    return below(8) ? 1 + below(1000) : UINT32_MAX - below(200);
}

/* Submits a command that fits the configuration, unless the fate of the last one is open. */
static void ask(void) {
    struct macs_command command = {.sci = peer, .an = (uint8_t)below(ANS), .choice = 1};
    uint32_t *slot;
    uint64_t ticket;
    if (is_asked || keys == KEYS - 1) return;
    asked = kept;
    if (below(2)) {
        slot = &asked.rx[command.an];
        command.kind = *slot == 0 ? MACS_RX_INSTALL : MACS_RX_REMOVE;
    } else {
        slot = &asked.tx[command.an];
        command.kind = *slot == 0 ? MACS_TX_INSTALL : below(2) ? MACS_TX_USE : MACS_TX_REMOVE;
        if (command.kind != MACS_TX_INSTALL && asked.encoding == command.an) return;
    }
    if (command.kind == MACS_TX_USE)
        asked.encoding = command.an;
    else if (*slot != 0)
        *slot = 0;
    else {
        *slot = ++keys;
        command.key = key_of(keys);
        command.start = peer_start[keys] = peer_next[keys] = some_start();
    }
    uint32_t answer = macs_submit(&endpoint, &command, &ticket);
    expect(answer == MACS_OK, "submit", answer);
    is_asked = is_queued = true;
}

/* Whether a frame that went out opens under the key of a configuration. */
static bool is_under(const struct config *config, const uint8_t *frame, size_t length, const struct macs_tag *tag) {
    uint8_t plain[MACS_MAX_FRAME];
    struct macs_opened opened;
    if (config->encoding != tag->an || config->tx[tag->an] == 0) return false;
    struct macs_key key = key_of(config->tx[tag->an]);
    return macs_open_frame(&key, &identity.sci, 0, frame, length, plain, sizeof plain, &opened) == MACS_OK;
}

/* Sends a frame: false at the end of the life. */
static bool transmit(void) {
    uint8_t plain[PLAIN] = {2, 0, 0, 0, 0, 2, 2, 0, 0, 0, 0, 1, 8, 0}, out[MACS_MAX_FRAME];
    struct macs_tag tag;
    size_t length;
    uint32_t pn, answer;
    for (int tries = 0; (answer = macs_protect(&endpoint, plain, sizeof plain, out, sizeof out, &length, &pn)) == MACS_UNSENT_NO_NUMBER; tries++) {
        expect(tries == 0, "protect after all work", answer);
        if (!work()) return false;
    }
    if (answer == MACS_UNSENT_NO_ENCODING_SA) fits(kept.encoding == ANS, asked.encoding == ANS);
    if (answer != MACS_OK) {
        expect(answer == MACS_UNSENT_NO_ENCODING_SA || answer == MACS_UNSENT_EXHAUSTED, "protect", answer);
        return true;
    }
    answer = macs_read_tag(out, length, &tag);
    expect(answer == MACS_OK && tag.pn == pn, "tag", answer);
    sent_frames++;
    if (fits(is_under(&kept, out, length, &tag), is_under(&asked, out, length, &tag)) && !is_new(&sent, kept.tx[tag.an], pn)) sent_twice++;
    return true;
}

/* The peer sends a new frame, or one again: false at the end of the life. */
static bool receive(void) {
    uint8_t plain[PLAIN] = {2, 0, 0, 0, 0, 1, 2, 0, 0, 0, 0, 2, 8, 0}, frame[PLAIN + MACS_MAX_OVERHEAD], out[MACS_MAX_FRAME];
    struct macs_tag tag = {peer, 0, (uint8_t)below(ANS), MACS_EXPLICIT, 1, 0};
    uint32_t number = kept.rx[tag.an], answer;
    size_t length, written;
    if (number == 0 || (is_asked && asked.rx[tag.an] != number)) return true;
    uint32_t *next = &peer_next[number], made = *next - peer_start[number];
    if (made != 0 && below(2))
        tag.pn = *next - 1 - below(below(2) && made > 20 ? 20 : made);
    else if (*next < UINT32_MAX - 50) {
        tag.pn = *next + (below(8) ? 0 : below(50));
        *next = tag.pn + 1;
    } else
        return true;
    struct macs_key key = key_of(number);
    answer = macs_seal_frame(&key, &tag, plain, sizeof plain, frame, sizeof frame, &length);
    expect(answer == MACS_OK, "seal", answer);
    for (int tries = 0; (answer = macs_receive(&endpoint, frame, length, out, sizeof out, &written)) == MACS_HELD_BACK; tries++) {
        expect(tries == 0, "receive after all work", answer);
        if (!work()) return false;
    }
    expect(answer != MACS_STOPPED && answer != MACS_ROOM && answer != MACS_CLOSED, "receive", answer);
    if (answer == MACS_DELIVERED_OK) {
        delivered_frames++;
        if (!is_new(&delivered, number, tag.pn)) delivered_twice++;
    } else if (answer != MACS_DISCARDED_LATE)
        lose();
    return true;
}

/* The journal of a new endpoint, as macs_format makes it. */
static struct macs_sector made[MACS_SECTORS];

static bool write_made(size_t n) {
    struct macs_call call = {.kind = MACS_WRITE, .sector = n};
    memcpy(call.octets, made[n].octets, MACS_SECTOR);
    return make(&call, NULL);
}

/* Formats the flash: whether no device call failed. */
static bool format(void) {
    static const struct macs_call sync = {.kind = MACS_SYNC};
    bool writes_all = below(4) == 0;
    uint32_t answer;
    memcpy(made, shown, sizeof made);
    while ((answer = macs_format(made, MACS_SECTORS, &identity)) == MACS_FORMATTED) { /* clear sectors until the old journal is gone */
        size_t n = below(MACS_SECTORS);
        memset(&made[n], 0, MACS_SECTOR);
        durable[n] = shown[n] = made[n];
    }
    expect(answer == MACS_OK, "format", answer);
    calls_left = below(below(2) ? 8 : 1000);
    for (size_t n = 0; n < MACS_SECTORS; n++) {
        bool is_changed = memcmp(&made[n], &shown[n], MACS_SECTOR) != 0;
        expect(n <= MACS_FORMAT_LAST || !is_changed, "a sector above MACS_FORMAT_LAST has changed", answer);
        if (n <= MACS_FORMAT_LAST && n != MACS_HEAD_GATE && (is_changed || writes_all) && !write_made(n)) return false;
    }
    calls_left = below(4); /* of the other three */
    return make(&sync, NULL) && write_made(MACS_HEAD_GATE) && make(&sync, NULL);
}

/* The flash of a new endpoint, of another SCI, with a receive channel for the peer. */
static void take_new_flash(uint32_t number) {
    static const struct config none = {.encoding = ANS};
    struct macs_command add = {.kind = MACS_RX_ADD};
    uint64_t ticket;
    uint32_t answer;
    bool is_made;
    identity = (struct macs_identity){{{2, 0, 0, 1, (uint8_t)(number >> 8), (uint8_t)number, 0, 1}}, 1 + below(below(2) ? 8 : 64), 1 + below(8)};
    add.sci = peer = (struct macs_sci){{2, 0, 0, 2, (uint8_t)(number >> 8), (uint8_t)number, 0, 1}};
    memset(&sent, 0, sizeof sent);
    memset(&delivered, 0, sizeof delivered);
    do {
        ends_by_cut = below(4) != 0;
        is_made = format();
        end_life();
        answer = macs_open(&endpoint, shown, MACS_SECTORS);
        expect(answer == MACS_OK || (!is_made && answer == MACS_NOT_FORMATTED), "open after a format", answer);
    } while (answer != MACS_OK);
    expect(shows(&none), "not a new endpoint", answer);
    keys = 0, calls_left = UINT32_MAX, is_queued = is_asked = true, is_over = false, kept = asked = none;
    answer = macs_submit(&endpoint, &add, &ticket);
    expect(answer == MACS_OK && work() && !is_asked, "first command", answer);
    macs_close(&endpoint);
}

/* From an opening to the last device call. */
static void live(void) {
    is_queued = false;
    if (macs_open(&endpoint, shown, MACS_SECTORS) != MACS_OK)
        lose();
    else
        fits(shows(&kept), shows(&asked));
    for (uint64_t quiet = 0, calls = device_calls; !is_over; quiet++) {
        uint32_t turn = below(16);
        if (turn == 0) ask();
        if (turn > 0 && turn < 8 && !transmit()) return;
        if (turn >= 8 && !receive()) return;
        if (step() == MACS_DISK) return;
        if (device_calls != calls) quiet = 0, calls = device_calls;
        is_over = is_over || quiet == 2000; /* all keys are spent, or used up */
    }
}

int main(int count, char **words) {
    uint64_t lives = count > 1 ? strtoull(words[1], NULL, 10) : 10000, seed = count > 2 ? strtoull(words[2], NULL, 10) : 1;
    uint32_t flashes = 0, of_this = LIVES_OF_A_FLASH;
    state = seed * UINT64_C(0x9E3779B97F4A7C15) + 1;
    endpoint.at = malloc(MACS_ENDPOINT);
    if (!endpoint.at) return 2;
    for (uint64_t life = 0; life < lives; life++, of_this++) {
        if (is_over || of_this >= LIVES_OF_A_FLASH || sent.count > SEEN / 4 || delivered.count > SEEN / 4) take_new_flash(++flashes), of_this = 0;
        calls_left = below(below(8) ? 40 : 1000);
        ends_by_cut = below(4) != 0;
        live();
        macs_close(&endpoint);
        memset(endpoint.at, (int)below(256), MACS_ENDPOINT);
        end_life();
    }
    printf("seed %llu: %llu lives on %u flashes, %llu device calls\n", (unsigned long long)seed, (unsigned long long)lives, (unsigned)flashes,
           (unsigned long long)device_calls);
    printf("%llu frames sent, %llu delivered, %llu commands completed\n", (unsigned long long)sent_frames, (unsigned long long)delivered_frames,
           (unsigned long long)kept_commands);
    printf("packet numbers used twice %llu\ncompleted commands lost %llu\nframes delivered twice %llu\n", (unsigned long long)sent_twice,
           (unsigned long long)lost_commands, (unsigned long long)delivered_twice);
    free(endpoint.at);
    return sent_twice || lost_commands || delivered_twice;
}

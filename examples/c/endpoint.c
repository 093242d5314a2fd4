/* A gateway: plain frames on one side, protected ones on the other, each a datagram of UDP. A file is its disk.
 *
 *     endpoint format DISK SCI
 *     endpoint DISK OWN1 PEER1 OWN2 PEER2 [COMMANDS]
 *
 * The first makes the disk file, once, for an SCI of 16 hex digits. The second stops if there is no file: on a new one the packet numbers of keys
 * that this SCI had before would begin anew. OWN1 and PEER1 are the plain side, OWN2 and PEER2 the protected one, as 127.0.0.1:4001. COMMANDS is a
 * text file with a command a line, all numbers decimal, keys of 32 or 64 hex digits:
 *
 *     tx-install AN KEY START OFFSET      with confidentiality
 *     tx-use AN
 *     rx-add SCI
 *     rx-install SCI AN KEY START OFFSET
 *
 * What cannot be passed on is dropped: macs_counters would say why. Any signal ends it at once, as a power loss would. */
#define _GNU_SOURCE
#include "file_disk.h"

#include <arpa/inet.h>
#include <errno.h>
#include <poll.h>
#include <stdio.h>
#include <stdlib.h>
#include <string.h>
#include <sys/socket.h>
#include <unistd.h>

/* A side of the gateway, with the frame that came there and was not passed on yet. */
struct side {
    int socket;
    bool waits;
    size_t length;
    uint8_t frame[MACS_MAX_FRAME + 1]; /* one octet more, by which a longer frame is noticed */
};

static struct macs_endpoint endpoint;
static const char *disk_name;
static int disk_file;

/* Ends, with no key left in memory that was the endpoint's. */
static void stop(const char *what, const char *why) {
    fprintf(stderr, "endpoint: %s: %s\n", what, why);
    if (endpoint.at) macs_close(&endpoint), explicit_bzero(endpoint.at, MACS_ENDPOINT);
    exit(1);
}

/* Opens the disk and the endpoint on it. */
static void open_endpoint(void) {
    static struct macs_sector sectors[MACS_SECTORS];
    disk_file = file_disk_open(disk_name, sectors);
    if (disk_file < 0) stop(disk_name, "it is not there, is in use, or cannot be read or synced");
    uint32_t answer = macs_open(&endpoint, sectors, MACS_SECTORS);
    explicit_bzero(sectors, sizeof sectors);
    if (answer != MACS_OK) stop(disk_name, macs_answer_text(answer));
}

/* A device call of the pending work. After one that failed the file is made anew and opened again, once. */
static uint32_t step(struct macs_done *done) {
    static bool has_failed;
    struct macs_call call;
    struct macs_sector read = {{0}};
    uint32_t answer = macs_next_call(&endpoint, &call, done);
    if (answer == MACS_CALL) answer = macs_did_call(&endpoint, &read, file_disk_make(disk_file, &call, &read), done);
    explicit_bzero(&call, sizeof call);
    explicit_bzero(&read, sizeof read);
    if (answer != MACS_DISK) return answer;
    if (has_failed) stop(disk_name, macs_answer_text(answer));
    fprintf(stderr, "endpoint: %s: %s\n", disk_name, macs_answer_text(answer));
    has_failed = true;
    macs_close(&endpoint);
    close(disk_file);
    open_endpoint();
    return answer;
}

/* The octets of a word of hex digits alone. */
static bool octets_of(const char *digits, uint8_t *octets, size_t length) {
    if (strlen(digits) != 2 * length || strspn(digits, "0123456789abcdefABCDEF") != 2 * length) return false;
    for (size_t i = 0; i < length; i++) sscanf(digits + 2 * i, "%2hhx", &octets[i]);
    return true;
}

/* The number of a word of decimal digits alone, or -1. Of one that is too long strtoull makes its greatest number, which is above each limit. */
static int64_t number_of(const char *digits, uint32_t limit) {
    unsigned long long it = strtoull(digits, NULL, 10);
    return *digits && strspn(digits, "0123456789") == strlen(digits) && it <= limit ? (int64_t)it : -1;
}

/* An association, by its words AN KEY START OFFSET. */
static bool read_association(char **words, struct macs_command *command) {
    int64_t an = number_of(words[0], UINT8_MAX), start = number_of(words[2], UINT32_MAX), offset = number_of(words[3], UINT8_MAX);
    uint8_t octets[32];
    size_t length = strlen(words[1]) / 2;
    bool is_read = length <= sizeof octets && octets_of(words[1], octets, length) && macs_key_new(octets, length, &command->key) == MACS_OK;
    explicit_bzero(octets, sizeof octets);
    command->an = (uint8_t)an, command->start = (uint32_t)start, command->offset = (uint8_t)offset;
    command->choice = 1; /* confidentiality: read of a transmit association alone */
    return is_read && an >= 0 && start >= 0 && offset >= 0;
}

/* A command from its whole line: one that does not end is longer than the buffer, or the file was cut. */
static bool read_command(char *line, struct macs_command *command) {
    char *words[7];
    size_t count = 0;
    if (!strchr(line, '\n')) return false;
    for (char *word = strtok(line, " \n"); word && count < 7; word = strtok(NULL, " \n")) words[count++] = word;
    memset(command, 0, sizeof *command);
    bool is_tx = count == 5 && strcmp(words[0], "tx-install") == 0, is_rx = count == 6 && strcmp(words[0], "rx-install") == 0;
    if (is_tx || is_rx) {
        command->kind = is_tx ? MACS_TX_INSTALL : MACS_RX_INSTALL;
        return (is_tx || octets_of(words[1], command->sci.octets, 8)) && read_association(words + count - 4, command);
    }
    if (count == 2 && strcmp(words[0], "tx-use") == 0) {
        command->kind = MACS_TX_USE;
        command->an = (uint8_t)number_of(words[1], UINT8_MAX);
        return number_of(words[1], UINT8_MAX) >= 0;
    }
    command->kind = MACS_RX_ADD;
    return count == 2 && strcmp(words[0], "rx-add") == 0 && octets_of(words[1], command->sci.octets, 8);
}

/* Gives the endpoint a command, and prints how it ended. */
static void obey(const struct macs_command *command) {
    struct macs_done done = {0, 0};
    uint64_t ticket;
    uint32_t answer = macs_submit(&endpoint, command, &ticket);
    if (answer != MACS_OK) stop("a command", macs_answer_text(answer));
    do answer = step(&done);
    while (answer == MACS_WORKED || answer == MACS_RESERVED);
    if (answer != MACS_DONE || done.ticket != ticket) stop("a command", "it is not known whether it was kept");
    printf("%u %s\n", (unsigned)ticket, macs_answer_text(done.answer));
}

/* The commands of a file, one after another. */
static void apply(const char *name) {
    char line[256];
    struct macs_command command;
    FILE *file = fopen(name, "r");
    if (!file) stop(name, "it cannot be read");
    setvbuf(file, NULL, _IONBF, 0); /* a buffer would keep the keys */
    while (fgets(line, sizeof line, file)) {
        if (!read_command(line, &command)) stop(name, "the next line is no command");
        obey(&command);
    }
    if (ferror(file)) stop(name, "it cannot be read to its end");
    fclose(file);
    fflush(stdout);
    explicit_bzero(line, sizeof line);
    explicit_bzero(&command, sizeof command);
}

static struct sockaddr_in address_of(const char *text) {
    char host[16];
    int at = 0;
    struct sockaddr_in address = {.sin_family = AF_INET};
    bool has_host = sscanf(text, "%15[0-9.]:%n", host, &at) == 1 && at > 0 && inet_pton(AF_INET, host, &address.sin_addr) == 1;
    int64_t port = number_of(text + at, UINT16_MAX);
    if (!has_host || port < 0) stop(text, "it is no address");
    address.sin_port = htons((uint16_t)port);
    return address;
}

/* A socket that takes datagrams of its peer alone. */
static int wire(const char *own, const char *peer) {
    struct sockaddr_in from = address_of(own), to = address_of(peer);
    int it = socket(AF_INET, SOCK_DGRAM, 0);
    if (it < 0 || bind(it, (struct sockaddr *)&from, sizeof from) != 0 || connect(it, (struct sockaddr *)&to, sizeof to) != 0) stop(own, "no socket");
    return it;
}

/* Sends a frame, once more where the error was that of an earlier datagram, or a signal came. It is never protected again: its number is used. */
static void pass_on(int socket, const uint8_t *frame, size_t length) {
    if (send(socket, frame, length, 0) < 0 && (errno == ECONNREFUSED || errno == EINTR)) send(socket, frame, length, 0);
}

/* Hands in the frame that waits at a side, and sends what comes of it. It still waits if its packet number is not reserved. */
static void carry(struct side *from, const struct side *to, bool is_plain) {
    uint8_t out[MACS_MAX_FRAME];
    size_t written = 0;
    uint32_t pn, answer;
    if (is_plain)
        answer = macs_protect(&endpoint, from->frame, from->length, out, sizeof out, &written, &pn);
    else
        answer = macs_receive(&endpoint, from->frame, from->length, out, sizeof out, &written);
    from->waits = answer == MACS_UNSENT_NO_NUMBER || answer == MACS_HELD_BACK;
    if (answer == MACS_OK || macs_is_delivered(answer)) pass_on(to->socket, out, written);
}

static void take(struct side *side) {
    ssize_t length = recv(side->socket, side->frame, sizeof side->frame, MSG_DONTWAIT);
    side->waits = length >= 0;
    side->length = side->waits ? (size_t)length : 0;
}

/* Carries frames each way, with a device call in between. */
static void serve(struct side *plain, struct side *common) {
    struct macs_done done;
    uint32_t answer = MACS_WORKED;
    for (;;) {
        /* A side whose frame waits takes no other one. Without pending work the next frame is waited for. */
        struct pollfd its[2] = {{.fd = plain->waits ? -1 : plain->socket, .events = POLLIN},
                                {.fd = common->waits ? -1 : common->socket, .events = POLLIN}};
        poll(its, 2, answer == MACS_IDLE && !plain->waits && !common->waits ? -1 : 0);
        if (its[0].revents) take(plain);
        if (its[1].revents) take(common);
        if (plain->waits) carry(plain, common, true);
        if (common->waits) carry(common, plain, false);
        answer = step(&done);
        /* No number can be reserved any more: frames that need one are dropped. */
        if (answer == MACS_GENERATIONS_SPENT) plain->waits = common->waits = false, answer = MACS_IDLE;
    }
}

static int format(const char *name, const char *sci) {
    struct macs_identity identity = {.tx_block = 1024, .rx_block = 16};
    if (!octets_of(sci, identity.sci.octets, 8)) stop(sci, "it has not 16 hex digits");
    if (!file_disk_format(name, &identity)) stop(name, "it is there already, or cannot be made");
    return 0;
}

int main(int count, char **words) {
    static struct side plain, common;
    if (macs_endpoint_size() != MACS_ENDPOINT || macs_endpoint_alignment() != MACS_ENDPOINT_ALIGNMENT) stop("library", "it is not that of macsec.h");
    if (count == 4 && strcmp(words[1], "format") == 0) return format(words[2], words[3]);
    if (count != 6 && count != 7) stop("words", "format DISK SCI, or DISK OWN1 PEER1 OWN2 PEER2 [COMMANDS]");
    disk_name = words[1];
    endpoint.at = aligned_alloc(MACS_ENDPOINT_ALIGNMENT, MACS_ENDPOINT);
    if (!endpoint.at) stop("memory", "there is too little");
    open_endpoint();
    if (count == 7) apply(words[6]);
    plain.socket = wire(words[2], words[3]);
    common.socket = wire(words[4], words[5]);
    serve(&plain, &common);
}

#define _GNU_SOURCE
#include "file_disk.h"

#include <err.h>
#include <stdio.h>
#include <stdlib.h>
#include <string.h>
#include <unistd.h>

static const uint8_t PLAIN[18] = {2, 0, 0, 0, 0, 2, 2, 0, 0, 0, 0, 1, 0x08, 0x00, 1, 2, 3, 4}, KEY[16] = {0x5A};
static struct macs_sector sectors[MACS_SECTORS];

/* Makes device calls until no work is pending. */
static uint32_t work(struct macs_endpoint *e, int file) {
    struct macs_call call;
    struct macs_done done;
    struct macs_sector read = {{0}};
    uint32_t answer;
    do {
        answer = macs_next_call(e, &call, &done);
        if (answer == MACS_CALL) answer = macs_did_call(e, &read, file_disk_make(file, &call, &read), &done);
        if (answer == MACS_DONE) printf("command %u: %s\n", (unsigned)done.ticket, macs_answer_text(done.answer));
    } while (answer == MACS_DONE || answer == MACS_WORKED || answer == MACS_RESERVED);
    explicit_bzero(&call, sizeof call); /* the octets of a write may hold keys */
    return answer;
}

int main(void) {
    struct macs_identity identity = {{{2, 0, 0, 0, 0, 1, 0, 1}}, 1024, 16};
    struct macs_command install = {.kind = MACS_TX_INSTALL, .an = 0, .start = 1, .choice = 1}, use = {.kind = MACS_TX_USE, .an = 0};
    struct macs_endpoint e = {aligned_alloc(MACS_ENDPOINT_ALIGNMENT, MACS_ENDPOINT), false};
    uint8_t out[MACS_MAX_FRAME];
    uint64_t ticket;
    size_t length;
    uint32_t number;
    if (!e.at || macs_endpoint_size() != MACS_ENDPOINT) errx(1, "too little memory, or another library than macsec.h is of");
    if (!file_disk_format("left.disk", &identity)) errx(1, "left.disk is there already, or cannot be made");
    int file = file_disk_open("left.disk", sectors);
    if (file < 0) errx(1, "left.disk is in use, or cannot be read or synced");
    uint32_t answer = macs_open(&e, sectors, MACS_SECTORS);
    if (answer == MACS_OK) answer = macs_key_new(KEY, sizeof KEY, &install.key);
    if (answer == MACS_OK) answer = macs_submit(&e, &install, &ticket);
    if (answer == MACS_OK) answer = macs_submit(&e, &use, &ticket);
    if (answer == MACS_OK) answer = work(&e, file);
    if (answer == MACS_IDLE) answer = macs_protect(&e, PLAIN, sizeof PLAIN, out, sizeof out, &length, &number);
    if (answer == MACS_OK) printf("number %u, %u octets\n", (unsigned)number, (unsigned)length);
    macs_close(&e);
    close(file);
    explicit_bzero(e.at, MACS_ENDPOINT); /* nobody else overwrites the keys */
    explicit_bzero(sectors, sizeof sectors);
    explicit_bzero(&install, sizeof install);
    free(e.at);
    if (answer != MACS_OK) errx(1, "%s", macs_answer_text(answer));
    return 0;
}

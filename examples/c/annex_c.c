/* Single frames: the confidential example of IEEE Std 802.1AE-2018, Annex C, is opened, and sealed again. */
#include "macsec.h"

#include <stdio.h>
#include <string.h>

static const uint8_t KEY[16] = {0xad, 0x7a, 0x2b, 0xd0, 0x3e, 0xac, 0x83, 0x5a, 0x6f, 0x62, 0x0f, 0xdc, 0xb5, 0x06, 0xb3, 0x45};

static const struct macs_sci SCI = {{0x12, 0x15, 0x35, 0x24, 0xc0, 0x89, 0x5e, 0x81}};

static const uint8_t FRAME[] = {
    0xd6, 0x09, 0xb1, 0xf0, 0x56, 0x63, 0x7a, 0x0d, 0x46, 0xdf, 0x99, 0x8d, 0x88, 0xe5, 0x2e, 0x00, 0xb2, 0xc2, 0x84, 0x65, 0x12, 0x15, 0x35,
    0x24, 0xc0, 0x89, 0x5e, 0x81, 0x70, 0x1a, 0xfa, 0x1c, 0xc0, 0x39, 0xc0, 0xd7, 0x65, 0x12, 0x8a, 0x66, 0x5d, 0xab, 0x69, 0x24, 0x38, 0x99,
    0xbf, 0x73, 0x18, 0xcc, 0xdc, 0x81, 0xc9, 0x93, 0x1d, 0xa1, 0x7f, 0xbe, 0x8e, 0xdd, 0x7d, 0x17, 0xcb, 0x8b, 0x4c, 0x26, 0xfc, 0x81, 0xe3,
    0x28, 0x4f, 0x2b, 0x7f, 0xba, 0x71, 0x3d, 0x4f, 0x8d, 0x55, 0xe7, 0xd3, 0xf0, 0x6f, 0xd5, 0xa1, 0x3c, 0x0c, 0x29, 0xb9, 0xd5, 0xb8, 0x80};

static void print_octets(const uint8_t *octets, size_t count) {
    for (size_t i = 0; i < count; i++) printf("%02x", octets[i]);
    printf("\n");
}

/* A key that is no longer used is overwritten. `volatile`: else the compiler may leave that out. */
static void wipe(struct macs_key *key) {
    for (size_t i = 0; i < sizeof *key; i++) ((volatile uint8_t *)key)[i] = 0;
}

static int try_key(struct macs_key *key) {
    struct macs_opened opened;
    struct macs_tag tag = {SCI, 0xb2c28465, 2, MACS_EXPLICIT, 1, 0}, read;
    uint8_t plain[MACS_MAX_FRAME], sealed[MACS_MAX_FRAME];
    size_t count;

    if (macs_read_tag(FRAME, sizeof FRAME, &read) != MACS_OK) return 1;
    printf("under key %u of ", (unsigned)read.an);
    print_octets(read.sci.octets, sizeof read.sci.octets);

    if (macs_key_new(KEY, sizeof KEY, key) != MACS_OK) return 1;
    if (macs_open_frame(key, &SCI, 0, FRAME, sizeof FRAME, plain, sizeof plain, &opened) != MACS_OK) return 1;
    printf("an %u pn %u\n", (unsigned)opened.an, (unsigned)opened.pn);
    print_octets(plain, opened.octets);

    if (macs_seal_frame(key, &tag, plain, opened.octets, sealed, sizeof sealed, &count) != MACS_OK) return 1;
    printf("the same %d\n", count == sizeof FRAME && memcmp(sealed, FRAME, count) == 0);

    sealed[count - 1] ^= 1;
    printf("changed %u\n", (unsigned)macs_open_frame(key, &SCI, 0, sealed, count, plain, sizeof plain, &opened));
    return 0;
}

int main(void) {
    struct macs_key key;
    int status = try_key(&key);
    wipe(&key);
    return status;
}

/* A library that tools/secret_addresses preloads into the program under valgrind's memcheck. Wherever the octets or the hex digits of a
 * secret are read from a file, they are marked as undefined: so memcheck reports each branch and each address that depends on them.
 *
 *     SECRETS=HEX,..  the secrets, of at most 32 octets each
 *
 * Lines on standard error say where the program was loaded (`base ADDRESS`), and which secret was found (`octets HEX`, `digits HEX`). */
#define _GNU_SOURCE
#include <link.h>
#include <stdint.h>
#include <stdio.h>
#include <stdlib.h>
#include <string.h>
#include <sys/syscall.h>
#include <unistd.h>
#include <valgrind/memcheck.h>

/* The bits of an octet, and of a hex digit, that depend on the secret: bits 7 and 5 are the same in all digits. */
enum { MOST = 32, OCTET = 0xff, DIGIT = 0x5f };

static const uint8_t *last_marked;

/* An address that depends on a secret: where memcheck does not report it, it would report no other. */
__attribute__((noipa)) static uint8_t planted_address(const uint8_t *table, uint8_t secret) {
    return table[secret % MOST];
}

static int print_base(struct dl_phdr_info *program, size_t size, void *nothing) {
    (void)size, (void)nothing;
    fprintf(stderr, "base %lx\n", (unsigned long)program->dlpi_addr);
    return 1;
}

/* The first that is gone through is the program; valgrind itself is started with this library too. */
__attribute__((constructor)) static void begin(void) {
    if (RUNNING_ON_VALGRIND) dl_iterate_phdr(print_base, NULL);
}

static void mark_each(uint8_t *octets, size_t count, const void *secret, size_t length, int bits, const char *digits) {
    uint8_t *end = octets + count, marks[2 * MOST];
    memset(marks, bits, sizeof marks);
    for (uint8_t *at = octets; (at = memmem(at, end - at, secret, length)); at += length) {
        VALGRIND_SET_VBITS(at, marks, length);
        last_marked = at;
        fprintf(stderr, "%s %.*s\n", bits == OCTET ? "octets" : "digits", (int)strcspn(digits, ","), digits);
    }
}

static void mark(uint8_t *octets, size_t count) {
    for (const char *digits = getenv("SECRETS"); digits && *digits; digits += *digits == ',') {
        uint8_t secret[MOST];
        size_t length = 0;
        const char *first = digits;
        for (; length < MOST && sscanf(digits, "%2hhx", &secret[length]) == 1; length++) digits += 2;
        mark_each(octets, count, secret, length, OCTET, first);
        mark_each(octets, count, first, 2 * length, DIGIT, first);
    }
}

/* What is marked already is searched without a report. */
static ssize_t marked(uint8_t *octets, ssize_t count) {
    static const uint8_t table[MOST];
    if (count <= 0) return count;
    VALGRIND_DISABLE_ERROR_REPORTING;
    mark(octets, count);
    VALGRIND_ENABLE_ERROR_REPORTING;
    if (last_marked) planted_address(table, *last_marked);
    last_marked = NULL;
    return count;
}

ssize_t read(int file, void *octets, size_t count) {
    return marked(octets, syscall(SYS_read, file, octets, count));
}

ssize_t pread(int file, void *octets, size_t count, off_t at) {
    return marked(octets, syscall(SYS_pread64, file, octets, count, at));
}

ssize_t pread64(int file, void *octets, size_t count, off64_t at) {
    return pread(file, octets, count, at);
}

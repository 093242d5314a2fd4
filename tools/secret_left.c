/* A library that tools/secret_addresses preloads into the program. When the program ends, it searches the memory that the program may
 * write, wherever it was allocated and whether it was freed, for secrets.
 *
 *     SECRETS=HEX,..  the secrets, with each digit's lowest bit inverted, so that they are not found where they are asked for
 *
 * A line on standard error for each secret says how often its hex digits, and how often its octets, are left (`left HEX DIGITS OCTETS`). */
#include <stdint.h>
#include <stdio.h>
#include <stdlib.h>
#include <string.h>

enum { MOST = 64, DISGUISE = 1 };

static int value_of(char digit) {
    return digit <= '9' ? digit - '0' : digit - 'a' + 10;
}

static int are_digits(const uint8_t *at, const char *secret, size_t digits) {
    for (size_t i = 0; i < digits; i++)
        if (at[i] != (uint8_t)(secret[i] ^ DISGUISE)) return 0;
    return 1;
}

static int are_octets(const uint8_t *at, const char *secret, size_t digits) {
    for (size_t i = 0; i < digits; i++)
        if ((at[i / 2] >> (i % 2 ? 0 : 4) & 15) != value_of((char)(secret[i] ^ DISGUISE))) return 0;
    return 1;
}

static void search(const uint8_t *from, const uint8_t *to, const char *secret, size_t digits, unsigned left[2]) {
    for (const uint8_t *at = from; at + digits <= to; at++) {
        left[0] += (unsigned)are_digits(at, secret, digits);
        left[1] += (unsigned)are_octets(at, secret, digits);
    }
}

static void report(const char *secret, size_t digits) {
    char line[256], may[5];
    unsigned left[2] = {0, 0};
    unsigned long from, to;
    FILE *maps = fopen("/proc/self/maps", "r");
    while (maps && fgets(line, sizeof line, maps))
        if (sscanf(line, "%lx-%lx %4s", &from, &to, may) == 3 && !strncmp(may, "rw", 2))
            search((const uint8_t *)from, (const uint8_t *)to, secret, digits, left);
    if (maps) fclose(maps);
    fprintf(stderr, "left %.*s %u %u\n", (int)digits, secret, left[0], left[1]);
}

__attribute__((destructor)) static void end(void) {
    for (const char *secret = getenv("SECRETS"); secret && *secret; secret += *secret == ',') {
        size_t digits = strcspn(secret, ",");
        if (digits <= MOST) report(secret, digits);
        secret += digits;
    }
}

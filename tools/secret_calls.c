/* Seals and opens texts of many lengths under valgrind's memcheck, with keys and texts marked as undefined: so memcheck reports each branch
 * and each address that depends on one of them. It is for tools/secret_addresses. What comes out is public: the ciphertext, the tag, and
 * whether a tag is right. Each call also sets up its key; half of those that seal have one that makes key stream ahead. A call that gives
 * a wrong answer ends the program with status 1. */
#include <stdbool.h>
#include <stdint.h>
#include <stdio.h>
#include <string.h>
#include <valgrind/memcheck.h>

enum { KEY = 32, AAD = 28, TAG = 16, ROOM = 1500, EACH = 200 };

typedef void sealing(const uint8_t *key, const uint8_t *iv, const uint8_t *aad, size_t aad_length, uint8_t *text, size_t length,
                     uint8_t *tag, uint32_t count);
typedef bool opening(const uint8_t *key, const uint8_t *iv, const uint8_t *aad, size_t aad_length, uint8_t *text, size_t length,
                     const uint8_t *sealed, size_t sealed_length, const uint8_t *tag, uint32_t count);

sealing kernel_seal, kernel_seal_long, kernel_seal_next, kernel_seal_next_long;
opening kernel_open_all, kernel_open_all_long;

static const size_t LONGER[] = {244, 1488, 1500};
static uint8_t key[KEY], iv[12], aad[AAD], plain[ROOM], text[ROOM], sealed[ROOM], tag[TAG];

static void set_secret(void *octets, size_t count) {
    VALGRIND_MAKE_MEM_UNDEFINED(octets, count);
}

static void set_public(void *octets, size_t count) {
    VALGRIND_MAKE_MEM_DEFINED(octets, count);
}

/* An address and a branch that depend on a secret: where memcheck does not report these two, it would report no other. */
__attribute__((noipa)) static uint8_t planted_address(const uint8_t *table, uint8_t secret) {
    return table[secret % KEY];
}

__attribute__((noipa)) static void planted_branch(uint8_t secret) {
    if (secret & 1) puts("");
}

static void fill(size_t length) {
    for (int i = 0; i < KEY; i++) key[i] = (uint8_t)(13 * i + 7);
    for (size_t i = 0; i < length; i++) text[i] = plain[i] = (uint8_t)(i * i + length);
    set_secret(key, KEY);
    set_secret(text, length);
}

/* Whether the text is opened, which leaves the plaintext or the ciphertext. */
static bool is_opened(opening *open_all, size_t length) {
    bool is_right = open_all(key, iv, aad, AAD, text, length, sealed, length, tag, 1);
    set_public(&is_right, sizeof is_right);
    set_public(text, length);
    return is_right && !memcmp(text, plain, length);
}

static bool is_sound(sealing *seal, opening *open_all, size_t length) {
    fill(length);
    seal(key, iv, aad, AAD, text, length, tag, 1);
    set_public(text, length);
    set_public(tag, TAG);
    memcpy(sealed, text, length);
    if (!is_opened(open_all, length)) return false;
    tag[length % TAG] ^= 1;
    return !is_opened(open_all, length) && !memcmp(text, sealed, length);
}

static bool are_sound(size_t length) {
    if (is_sound(kernel_seal, kernel_open_all, length) && is_sound(kernel_seal_next, kernel_open_all, length)
        && is_sound(kernel_seal_long, kernel_open_all_long, length) && is_sound(kernel_seal_next_long, kernel_open_all_long, length))
        return true;
    fprintf(stderr, "secret_calls: a wrong answer at %zu octets\n", length);
    return false;
}

int main(void) {
    fill(0);
    planted_address(plain, key[0]);
    planted_branch(key[1]);
    for (size_t length = 0; length <= EACH; length++)
        if (!are_sound(length)) return 1;
    for (size_t i = 0; i < sizeof LONGER / sizeof *LONGER; i++)
        if (!are_sound(LONGER[i])) return 1;
    return 0;
}

/* Seals a text in place, so many times, under a key of 128 bits: what `parts.py` counts the instructions of.
 *
 *     sealing OCTETS COUNT
 */
#include <stdint.h>
#include <stdlib.h>

enum { ROOM = 9216, AAD = 28 };

void kernel_seal(const uint8_t *key, const uint8_t *iv, const uint8_t *aad, size_t aad_len, uint8_t *text, size_t len, uint8_t *tag,
                 uint32_t count);

static uint8_t key[16], iv[12], aad[AAD], text[ROOM], tag[16];

int main(int count, char **words) {
    if (count != 3 || strtoul(words[1], NULL, 10) > ROOM) return 2;
    kernel_seal(key, iv, aad, AAD, text, strtoul(words[1], NULL, 10), tag, (uint32_t)strtoul(words[2], NULL, 10));
    return 0;
}

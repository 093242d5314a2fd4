/* Sealing and opening beside other libraries: that all give the same octets, and then how fast each is.
 *
 *     peers ROUNDS
 *
 * In each round every library does its work once; the least time of each counts. Under OPENSSL_ia32cap=~0x200000200000000
 * OpenSSL goes without the processor's instructions for AES and for products of polynomials, and under NETTLE_FAT_OVERRIDE=vendor:intel
 * nettle does. `bench/run` builds it.
 */
#include <nettle/gcm.h>
#include <openssl/evp.h>
#include <stdbool.h>
#include <stdint.h>
#include <stdio.h>
#include <stdlib.h>
#include <string.h>
#include <time.h>

enum { ROOM = 9216, AAD = 28, LENGTHS = 4 };

/* Ours for each level of processors, the same under a key that makes key stream ahead, and others'. */
enum { V2, V3, V2_NEXT, V3_NEXT, OPENSSL, NETTLE, LIBRARIES };

/* Texts of 0 to so many octets are compared, and one of the longest frame. */
enum { COMPARED = 2100, LONGEST = 9172 };

/* The two lengths of keys. */
enum { SHORT, LONG, KEYS };

#define CALLS(cpu, length)                                                                                                      \
    void cpu##_kernel_seal##length(const uint8_t *key, const uint8_t *iv, const uint8_t *aad, size_t aad_len, uint8_t *text,     \
                                   size_t len, uint8_t *tag, uint32_t count);                                                   \
    void cpu##_kernel_seal_next##length(const uint8_t *key, const uint8_t *iv, const uint8_t *aad, size_t aad_len,              \
                                        uint8_t *text, size_t len, uint8_t *tag, uint32_t count);                               \
    bool cpu##_kernel_open_all##length(const uint8_t *key, const uint8_t *iv, const uint8_t *aad, size_t aad_len, uint8_t *text, \
                                       size_t len, const uint8_t *sealed, size_t sealed_len, const uint8_t *tag,                \
                                       uint32_t count);
CALLS(v2, )
CALLS(v2, _long)
CALLS(v3, )
CALLS(v3, _long)

static const size_t octets_of_frames[LENGTHS] = {64, 256, 1500, 9184};

static const char *const ciphers[KEYS] = {"AES-128", "AES-256"};

/* A short key is the first 16 octets of the long one. */
static uint8_t key[32], iv[12], aad[AAD], plain[ROOM];
static EVP_CIPHER_CTX *openssl_seals[KEYS], *openssl_opens[KEYS];
static struct gcm_aes128_ctx nettle_short;
static struct gcm_aes256_ctx nettle_long;

static void must(bool done, const char *what) {
    if (!done) {
        fprintf(stderr, "peers: %s\n", what);
        exit(1);
    }
}

static double seconds(void) {
    struct timespec now;
    clock_gettime(CLOCK_MONOTONIC, &now);
    return (double)now.tv_sec + 1e-9 * (double)now.tv_nsec;
}

/* One library: under a key of this length it seals the text in place, so many times, and opens copies of a sealed text, where it
 * has a way of its own to do so. */
struct library {
    const char *name;
    void (*seal)(int keys, uint8_t *text, size_t len, uint8_t *tag, uint32_t count);
    bool (*open)(int keys, uint8_t *text, size_t len, const uint8_t *sealed, const uint8_t *tag, uint32_t count);
};

static void v2_seal(int keys, uint8_t *text, size_t len, uint8_t *tag, uint32_t count) {
    (keys == LONG ? v2_kernel_seal_long : v2_kernel_seal)(key, iv, aad, AAD, text, len, tag, count);
}

static void v2_seal_next(int keys, uint8_t *text, size_t len, uint8_t *tag, uint32_t count) {
    (keys == LONG ? v2_kernel_seal_next_long : v2_kernel_seal_next)(key, iv, aad, AAD, text, len, tag, count);
}

static bool v2_open(int keys, uint8_t *text, size_t len, const uint8_t *sealed, const uint8_t *tag, uint32_t count) {
    return (keys == LONG ? v2_kernel_open_all_long : v2_kernel_open_all)(key, iv, aad, AAD, text, len, sealed, len, tag, count);
}

static void v3_seal(int keys, uint8_t *text, size_t len, uint8_t *tag, uint32_t count) {
    (keys == LONG ? v3_kernel_seal_long : v3_kernel_seal)(key, iv, aad, AAD, text, len, tag, count);
}

static void v3_seal_next(int keys, uint8_t *text, size_t len, uint8_t *tag, uint32_t count) {
    (keys == LONG ? v3_kernel_seal_next_long : v3_kernel_seal_next)(key, iv, aad, AAD, text, len, tag, count);
}

static bool v3_open(int keys, uint8_t *text, size_t len, const uint8_t *sealed, const uint8_t *tag, uint32_t count) {
    return (keys == LONG ? v3_kernel_open_all_long : v3_kernel_open_all)(key, iv, aad, AAD, text, len, sealed, len, tag, count);
}

static void openssl_seal(int keys, uint8_t *text, size_t len, uint8_t *tag, uint32_t count) {
    EVP_CIPHER_CTX *seals = openssl_seals[keys];
    uint8_t next[12];
    memcpy(next, iv, 12);
    for (uint32_t i = 0; i < count; i++) {
        int done;
        EVP_EncryptInit_ex(seals, NULL, NULL, NULL, next);
        EVP_EncryptUpdate(seals, NULL, &done, aad, AAD);
        EVP_EncryptUpdate(seals, text, &done, text, (int)len);
        EVP_EncryptFinal_ex(seals, text + len, &done);
        EVP_CIPHER_CTX_ctrl(seals, EVP_CTRL_GCM_GET_TAG, 16, tag);
        next[11]++;
    }
}

static bool openssl_open(int keys, uint8_t *text, size_t len, const uint8_t *sealed, const uint8_t *tag, uint32_t count) {
    EVP_CIPHER_CTX *opens = openssl_opens[keys];
    bool all = true;
    for (uint32_t i = 0; i < count; i++) {
        int done;
        memcpy(text, sealed, len);
        EVP_DecryptInit_ex(opens, NULL, NULL, NULL, iv);
        EVP_DecryptUpdate(opens, NULL, &done, aad, AAD);
        EVP_DecryptUpdate(opens, text, &done, text, (int)len);
        EVP_CIPHER_CTX_ctrl(opens, EVP_CTRL_GCM_SET_TAG, 16, (void *)tag);
        all = all && EVP_DecryptFinal_ex(opens, text + len, &done) == 1;
    }
    return all;
}

/* What nettle does for one text, by its calls for a length of keys. */
#define NETTLE(bits, context)                                                                                                   \
    static void nettle_seal_##bits(const uint8_t *vector, uint8_t *text, size_t len, uint8_t *tag) {                             \
        gcm_aes##bits##_set_iv(&context, 12, vector);                                                                           \
        gcm_aes##bits##_update(&context, AAD, aad);                                                                             \
        gcm_aes##bits##_encrypt(&context, len, text, text);                                                                     \
        gcm_aes##bits##_digest(&context, 16, tag);                                                                              \
    }                                                                                                                           \
    static void nettle_open_##bits(uint8_t *text, size_t len, uint8_t *found) {                                                  \
        gcm_aes##bits##_set_iv(&context, 12, iv);                                                                               \
        gcm_aes##bits##_update(&context, AAD, aad);                                                                             \
        gcm_aes##bits##_decrypt(&context, len, text, text);                                                                     \
        gcm_aes##bits##_digest(&context, 16, found);                                                                            \
    }
NETTLE(128, nettle_short)
NETTLE(256, nettle_long)

static void nettle_seal(int keys, uint8_t *text, size_t len, uint8_t *tag, uint32_t count) {
    uint8_t next[12];
    memcpy(next, iv, 12);
    for (uint32_t i = 0; i < count; i++) {
        (keys == LONG ? nettle_seal_256 : nettle_seal_128)(next, text, len, tag);
        next[11]++;
    }
}

static bool nettle_open(int keys, uint8_t *text, size_t len, const uint8_t *sealed, const uint8_t *tag, uint32_t count) {
    bool all = true;
    for (uint32_t i = 0; i < count; i++) {
        uint8_t found[16];
        memcpy(text, sealed, len);
        (keys == LONG ? nettle_open_256 : nettle_open_128)(text, len, found);
        all = all && memcmp(found, tag, 16) == 0;
    }
    return all;
}

static const struct library libraries[LIBRARIES] = {
    [V2] = {"x86-64-v2", v2_seal, v2_open},
    [V3] = {"x86-64-v3", v3_seal, v3_open},
    [V2_NEXT] = {"v2, ahead", v2_seal_next, NULL},
    [V3_NEXT] = {"v3, ahead", v3_seal_next, NULL},
    [OPENSSL] = {"OpenSSL", openssl_seal, openssl_open},
    [NETTLE] = {"nettle", nettle_seal, nettle_open},
};

static void check_length(int keys, size_t len) {
    uint8_t expected[ROOM], tag[16];
    memcpy(expected, plain, len);
    openssl_seal(keys, expected, len, tag, 1);
    for (int i = 0; i < LIBRARIES; i++) {
        uint8_t text[ROOM], found[16], changed[16];
        memcpy(text, plain, len);
        libraries[i].seal(keys, text, len, found, 1);
        must(memcmp(text, expected, len) == 0 && memcmp(found, tag, 16) == 0, "other octets are sealed");
        if (!libraries[i].open) continue;
        must(libraries[i].open(keys, text, len, expected, tag, 1) && memcmp(text, plain, len) == 0, "other octets are opened");
        memcpy(changed, tag, 16);
        changed[len % 16] ^= 1;
        must(!libraries[i].open(keys, text, len, expected, changed, 1), "a changed tag is taken");
    }
}

/* The least seconds so far of one call, which has the key's preparation as well, and of all. */
struct least {
    double one, all;
};

static void keep_least(double *least, double time) {
    if (time < *least) *least = time;
}

/* A call more than `count`, so that the difference is that of `count` calls. */
static uint32_t calls(int n) { return (uint32_t)(30000 / octets_of_frames[n]) + 2; }

static void time_sealing(const struct library *library, int keys, int n, struct least *least) {
    uint8_t text[ROOM], tag[16];
    size_t len = octets_of_frames[n] - 12;
    memcpy(text, plain, len);
    double start = seconds();
    library->seal(keys, text, len, tag, 1);
    double one = seconds();
    library->seal(keys, text, len, tag, calls(n) + 1);
    keep_least(&least->all, seconds() - one);
    keep_least(&least->one, one - start);
}

static void time_opening(const struct library *library, int keys, int n, struct least *least) {
    uint8_t text[ROOM], sealed[ROOM], tag[16];
    size_t len = octets_of_frames[n] - 12;
    memcpy(sealed, plain, len);
    libraries[OPENSSL].seal(keys, sealed, len, tag, 1);
    double start = seconds();
    bool first = library->open(keys, text, len, sealed, tag, 1);
    double one = seconds();
    bool all = library->open(keys, text, len, sealed, tag, calls(n) + 1);
    keep_least(&least->all, seconds() - one);
    keep_least(&least->one, one - start);
    must(first && all, "a text is not opened");
}

static double nanoseconds(const struct least *least, int n) { return 1e9 * (least->all - least->one) / calls(n); }

typedef struct least rows[LIBRARIES][LENGTHS];

static void print_rows(const char *what, bool seals, int keys, rows times) {
    for (int i = 0; i < LIBRARIES; i++) {
        if (!seals && !libraries[i].open) continue;
        printf("%-5s %-8s %-10s", what, ciphers[keys], libraries[i].name);
        for (int n = 0; n < LENGTHS; n++) printf(" %9.0f", nanoseconds(&times[i][n], n));
        printf("  | of OpenSSL");
        for (int n = 0; n < LENGTHS; n++) printf(" %5.2f", nanoseconds(&times[OPENSSL][n], n) / nanoseconds(&times[i][n], n));
        printf("  | of nettle");
        for (int n = 0; n < LENGTHS; n++) printf(" %5.2f", nanoseconds(&times[NETTLE][n], n) / nanoseconds(&times[i][n], n));
        printf("\n");
    }
}

/* How much longer AES-256 takes than AES-128. */
static void print_ratios(const char *what, bool seals, rows short_times, rows long_times) {
    for (int i = 0; i < LIBRARIES; i++) {
        if (!seals && !libraries[i].open) continue;
        printf("%-5s %-10s", what, libraries[i].name);
        for (int n = 0; n < LENGTHS; n++) printf(" %5.2f", nanoseconds(&long_times[i][n], n) / nanoseconds(&short_times[i][n], n));
        printf("\n");
    }
}

static void prepare(void) {
    const EVP_CIPHER *of[KEYS] = {EVP_aes_128_gcm(), EVP_aes_256_gcm()};
    for (size_t i = 0; i < 32; i++) key[i] = (uint8_t)(13 * i + 7);
    for (size_t i = 0; i < 12; i++) iv[i] = (uint8_t)(17 * i + 3);
    for (size_t i = 0; i < AAD; i++) aad[i] = (uint8_t)(11 * i + 5);
    for (size_t i = 0; i < ROOM; i++) plain[i] = (uint8_t)(i * i / 3 + 7 * i);
    for (int keys = 0; keys < KEYS; keys++) {
        openssl_seals[keys] = EVP_CIPHER_CTX_new();
        openssl_opens[keys] = EVP_CIPHER_CTX_new();
        must(EVP_EncryptInit_ex(openssl_seals[keys], of[keys], NULL, key, NULL) == 1, "no such cipher in OpenSSL");
        must(EVP_DecryptInit_ex(openssl_opens[keys], of[keys], NULL, key, NULL) == 1, "no such cipher in OpenSSL");
    }
    gcm_aes128_set_key(&nettle_short, key);
    gcm_aes256_set_key(&nettle_long, key);
}

int main(int count, char **words) {
    int rounds = count > 1 ? atoi(words[1]) : 200;
    static rows seal[KEYS], open[KEYS];
    prepare();
    for (int keys = 0; keys < KEYS; keys++) {
        for (size_t len = 0; len <= COMPARED; len++) check_length(keys, len);
        check_length(keys, LONGEST);
    }
    printf("all give the same octets at each length of 0 to %d and at %d, under short and long keys\n", COMPARED, LONGEST);

    for (int keys = 0; keys < KEYS; keys++)
        for (int i = 0; i < LIBRARIES; i++)
            for (int n = 0; n < LENGTHS; n++) seal[keys][i][n] = open[keys][i][n] = (struct least){1e18, 1e18};
    for (int r = 0; r < rounds; r++)
        for (int n = 0; n < LENGTHS; n++)
            for (int keys = 0; keys < KEYS; keys++)
                for (int i = 0; i < LIBRARIES; i++) {
                    time_sealing(&libraries[i], keys, n, &seal[keys][i][n]);
                    if (libraries[i].open) time_opening(&libraries[i], keys, n, &open[keys][i][n]);
                }
    printf("nanoseconds for frames of 64, 256, 1500 and 9184 octets, and speed relative to OpenSSL and nettle\n");
    for (int keys = 0; keys < KEYS; keys++) {
        print_rows("seal", true, keys, seal[keys]);
        print_rows("open", false, keys, open[keys]);
    }
    printf("times of AES-256 by those of AES-128\n");
    print_ratios("seal", true, seal[SHORT], seal[LONG]);
    print_ratios("open", false, open[SHORT], open[LONG]);
    return 0;
}

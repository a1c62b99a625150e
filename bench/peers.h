/* The library, OpenSSL, nettle, libgcrypt and libsodium, for bench.c: each seals or opens one message.

   Peers may use neither AES instructions nor carry-less products, which the library does not use, nor vectors
   past 128 bits. With AVX2 they may use it too, beside a library that was built with --cpu=x86-64-v3; with
   ALL they use what the processor has. libcrypto and nettle read what they may use from the environment as
   they are loaded, so the program sets it and starts itself again. libsodium cannot be told, so it is left
   out under PLAIN. */
#include "aeadkit.h"

#include <stdio.h>
#include <stdlib.h>
#include <string.h>
#include <unistd.h>

enum direction { SEALING, OPENING };
enum form { CHACHA, GCM, SIV, WRAP, PADDED };
static enum { PLAIN, AVX2, ALL } capability;

/* Under --kept the messages that are made at once have one key, which each party sets once. */
static int kept;
static unsigned keys_made;

/* Whether a party that set its key last at `*set` has to set it. */
static int to_set(unsigned *set) {
    int again = !kept || *set != keys_made;
    *set = keys_made;
    return again;
}

static const struct kind {
    const char *name;
    enum form form;
    uint32_t suite;
    size_t key_length;
} kinds[] = {
    {"ChaCha20-Poly1305", CHACHA, AEADKIT_CHACHA20_POLY1305, 32},
    {"AES-128-GCM", GCM, AEADKIT_AES_128_GCM, 16},
    {"AES-192-GCM", GCM, AEADKIT_AES_192_GCM, 24},
    {"AES-256-GCM", GCM, AEADKIT_AES_256_GCM, 32},
    {"AES-128-GCM-SIV", SIV, AEADKIT_AES_128_GCM_SIV, 16},
    {"AES-256-GCM-SIV", SIV, AEADKIT_AES_256_GCM_SIV, 32},
    {"AES-128-WRAP", WRAP, 0, 16},
    {"AES-256-WRAP", WRAP, 0, 32},
    {"AES-192-WRAP", WRAP, 0, 24},
    {"AES-128-WRAP-PAD", PADDED, 0, 16},
    {"AES-192-WRAP-PAD", PADDED, 0, 24},
    {"AES-256-WRAP-PAD", PADDED, 0, 32},
};
enum { KINDS = sizeof kinds / sizeof *kinds, SUITES = 6, MEASURED = 8 };

/* `bytes` are a text and then room for its tag; for wrapping, room for 8 bytes and then the text, with room for its padding. */
struct message {
    uint8_t key[32], nonce[AEADKIT_NONCE_BYTES];
    const uint8_t *aad;
    size_t aad_length;
    uint8_t *bytes;
    size_t length;
};

static size_t whole(const struct kind *kind, const struct message *m) {
    return kind->form == PADDED ? (m->length + 7) / 8 * 8 + AEADKIT_WRAP_BYTES
                                : m->length + (kind->form == WRAP ? AEADKIT_WRAP_BYTES : AEADKIT_TAG_BYTES);
}

static uint8_t *text_of(const struct kind *kind, const struct message *m) {
    return m->bytes + (kind->form >= WRAP ? AEADKIT_WRAP_BYTES : 0);
}

/* Each of by_aeadkit, by_openssl .. seals or opens a message in place, and returns whether it could. Opening a wrapping with
   padding, as edges.cc does, begins with the most bytes that its text may have. */

static int aeadkit_has(const struct kind *kind) {
    return kind != NULL;
}

/* Whole messages are sealed and opened in place. Key wrap has no call in place: its result is copied to where the
   peers have theirs, and the copy is part of the time. */
static int by_aeadkit(const struct kind *kind, const struct message *m, enum direction direction) {
    static struct aeadkit_key keys[KINDS];
    static unsigned set[KINDS];
    static uint8_t apart[1 << 15];
    size_t n = m->length, k = kind->key_length;
    uint8_t *bytes = m->bytes, *tag = bytes + n;
    if (kind->form == PADDED) {
        size_t length = n, all = whole(kind, m);
        uint8_t *text = text_of(kind, m);
        if (direction == SEALING ? aeadkit_wrap_padded(m->key, k, text, n, apart, all)
                                 : aeadkit_unwrap_padded(m->key, k, bytes, n + 8, apart, n, &length)) return 0;
        memcpy(direction == SEALING ? bytes : text, apart, direction == SEALING ? all : length);
        return 1;
    }
    if (kind->form == WRAP) {
        uint8_t *text = text_of(kind, m);
        if (direction == SEALING ? aeadkit_wrap(m->key, k, text, n, apart, n + 8)
                                 : aeadkit_unwrap(m->key, k, bytes, n + 8, apart, n)) return 0;
        memcpy(direction == SEALING ? bytes : text, apart, direction == SEALING ? n + 8 : n);
        return 1;
    }
    if (kept) {
        struct aeadkit_key *key = &keys[kind - kinds];
        if (to_set(&set[kind - kinds]) && aeadkit_key_init(key, kind->suite, m->key, k)) return 0;
        return !(direction == SEALING
            ? aeadkit_seal_in_place_with(key, m->nonce, 12, bytes, n, m->aad, m->aad_length, tag)
            : aeadkit_open_in_place_with(key, m->nonce, 12, bytes, n, m->aad, m->aad_length, tag));
    }
    return !(direction == SEALING
        ? aeadkit_seal_in_place(kind->suite, m->key, k, m->nonce, 12, bytes, n, m->aad, m->aad_length, tag)
        : aeadkit_open_in_place(kind->suite, m->key, k, m->nonce, 12, bytes, n, m->aad, m->aad_length, tag));
}

#ifdef WITH_OPENSSL
#include <openssl/crypto.h>
#include <openssl/evp.h>

static EVP_CIPHER_CTX *openssl_contexts[KINDS][2];

/* AES-GCM-SIV from OpenSSL 3.2 on. */
static int openssl_has(const struct kind *kind) {
    EVP_CIPHER_CTX **contexts = openssl_contexts[kind - kinds];
    EVP_CIPHER *cipher = contexts[OPENING] ? NULL : EVP_CIPHER_fetch(NULL, kind->name, NULL);
    for (int direction = SEALING; cipher && direction <= OPENING; direction++) {
        contexts[direction] = EVP_CIPHER_CTX_new();
        EVP_CIPHER_CTX_set_flags(contexts[direction], EVP_CIPHER_CTX_FLAG_WRAP_ALLOW);
        EVP_CipherInit_ex(contexts[direction], cipher, NULL, NULL, NULL, direction == SEALING);
    }
    EVP_CIPHER_free(cipher);
    return contexts[OPENING] != NULL;
}

static int by_openssl(const struct kind *kind, const struct message *m, enum direction direction) {
    static unsigned set[KINDS][2];
    EVP_CIPHER_CTX *context = openssl_contexts[kind - kinds][direction];
    uint8_t *bytes = m->bytes, *text = text_of(kind, m), *tag = bytes + m->length;
    const uint8_t *key = to_set(&set[kind - kinds][direction]) || kind->form == WRAP ? m->key : NULL;
    int got, n = (int)m->length;
    if (kind->form == PADDED) {
        static uint8_t apart[1 << 13];
        if (!EVP_CipherInit_ex(context, NULL, NULL, m->key, NULL, -1)
            || (direction == SEALING ? EVP_CipherUpdate(context, apart, &got, text, n)
                                     : EVP_CipherUpdate(context, apart, &got, bytes, n + 8)) != 1 || got <= 0) return 0;
        memcpy(direction == SEALING ? bytes : text, apart, (size_t)got);
        return 1;
    }
    if (!EVP_CipherInit_ex(context, NULL, NULL, key, kind->form == WRAP ? NULL : m->nonce, -1)) return 0;
    if (kind->form == WRAP)
        return direction == SEALING ? EVP_CipherUpdate(context, bytes, &got, text, n) == 1
                                    : EVP_CipherUpdate(context, text, &got, bytes, n + 8) == 1;
    return (direction == SEALING || EVP_CIPHER_CTX_ctrl(context, EVP_CTRL_AEAD_SET_TAG, 16, tag) == 1)
        && (m->aad_length == 0 || EVP_CipherUpdate(context, NULL, &got, m->aad, (int)m->aad_length) == 1)
        && EVP_CipherUpdate(context, bytes, &got, bytes, n) == 1
        && EVP_CipherFinal_ex(context, tag, &got) == 1
        && (direction == OPENING || EVP_CIPHER_CTX_ctrl(context, EVP_CTRL_AEAD_GET_TAG, 16, tag) == 1);
}
#endif

#ifdef WITH_NETTLE
#include <nettle/chacha-poly1305.h>
#include <nettle/gcm.h>
#include <nettle/nettle-meta.h>
#include <nettle/nist-keywrap.h>
#include <nettle/version.h>

static int nettle_has(const struct kind *kind) {
    return kind->form != SIV && kind->form != PADDED;
}

static int by_nettle(const struct kind *kind, const struct message *m, enum direction direction) {
    static const uint8_t a6[8] = {0xa6, 0xa6, 0xa6, 0xa6, 0xa6, 0xa6, 0xa6, 0xa6};
    const struct nettle_cipher *aes = kind->key_length == 16 ? &nettle_aes128
        : kind->key_length == 24 ? &nettle_aes192 : &nettle_aes256;
    static struct keyed {
        unsigned set;
        struct aes256_ctx cipher; /* as large as the other two */
        struct gcm_key key;
        struct chacha_poly1305_ctx chacha;
    } all[KINDS];
    struct keyed *own = &all[kind - kinds];
    struct aes256_ctx cipher;
    uint8_t found[16], *bytes = m->bytes, *text = text_of(kind, m);
    uint8_t *tag = direction == SEALING ? bytes + m->length : found;
    size_t n = m->length;
    if (kind->form == WRAP) {
        (direction == SEALING ? aes->set_encrypt_key : aes->set_decrypt_key)(&cipher, m->key);
        if (direction == OPENING) return nist_keyunwrap16(&cipher, aes->decrypt, a6, n, text, bytes);
        nist_keywrap16(&cipher, aes->encrypt, a6, n + 8, bytes, text);
        return 1;
    }
    if (kind->form == CHACHA) {
        struct chacha_poly1305_ctx *context = &own->chacha;
        if (to_set(&own->set)) chacha_poly1305_set_key(context, m->key);
        chacha_poly1305_set_nonce(context, m->nonce);
        chacha_poly1305_update(context, m->aad_length, m->aad);
        (direction == SEALING ? chacha_poly1305_encrypt : chacha_poly1305_decrypt)(context, n, bytes, bytes);
        chacha_poly1305_digest(context, 16, tag);
    } else {
        struct gcm_ctx context;
        if (to_set(&own->set)) {
            aes->set_encrypt_key(&own->cipher, m->key);
            gcm_set_key(&own->key, &own->cipher, aes->encrypt);
        }
        gcm_set_iv(&context, &own->key, 12, m->nonce);
        gcm_update(&context, &own->key, m->aad_length, m->aad);
        (direction == SEALING ? gcm_encrypt : gcm_decrypt)(&context, &own->key, &own->cipher, aes->encrypt, n,
                                                           bytes, bytes);
        gcm_digest(&context, &own->key, &own->cipher, aes->encrypt, 16, tag);
    }
    return direction == SEALING || memcmp(found, bytes + n, 16) == 0;
}
#endif

#ifdef WITH_GCRYPT
#include <gcrypt.h>

static gcry_cipher_hd_t gcrypt_handles[KINDS];

/* AES-GCM-SIV from libgcrypt 1.10 on. */
static int gcrypt_has(const struct kind *kind) {
    static const int modes[] = {GCRY_CIPHER_MODE_POLY1305, GCRY_CIPHER_MODE_GCM, GCRY_CIPHER_MODE_GCM_SIV,
                                GCRY_CIPHER_MODE_AESWRAP, GCRY_CIPHER_MODE_AESWRAP};
    gcry_cipher_hd_t *handle = &gcrypt_handles[kind - kinds];
    int algorithm = kind->form == CHACHA ? GCRY_CIPHER_CHACHA20 : kind->key_length == 16 ? GCRY_CIPHER_AES128
        : kind->key_length == 24 ? GCRY_CIPHER_AES192 : GCRY_CIPHER_AES256;
    return *handle || gcry_cipher_open(handle, algorithm, modes[kind->form], kind->form == PADDED ? GCRY_CIPHER_EXTENDED : 0) == 0;
}

static int by_gcrypt(const struct kind *kind, const struct message *m, enum direction direction) {
    static unsigned set[KINDS];
    gcry_cipher_hd_t handle = gcrypt_handles[kind - kinds];
    uint8_t *bytes = m->bytes, *text = text_of(kind, m), *tag = bytes + m->length;
    size_t n = m->length;
    /* Under AES-GCM-SIV 1.10.1 gives other bytes for a second message if its key is not set again. */
    int again = to_set(&set[kind - kinds]) || kind->form >= SIV;
    if (again && gcry_cipher_setkey(handle, m->key, kind->key_length)) return 0;
    if (kind->form >= WRAP)
        return (direction == SEALING ? gcry_cipher_encrypt(handle, bytes, whole(kind, m), text, n)
                                     : gcry_cipher_decrypt(handle, text, n, bytes, n + 8)) == 0;
    if (gcry_cipher_setiv(handle, m->nonce, 12)) return 0;
    if (m->aad_length && gcry_cipher_authenticate(handle, m->aad, m->aad_length)) return 0;
    if (kind->form == SIV && (gcry_cipher_final(handle)
                              || (direction == OPENING && gcry_cipher_set_decryption_tag(handle, tag, 16))))
        return 0;
    return direction == SEALING
        ? gcry_cipher_encrypt(handle, bytes, n, NULL, 0) == 0 && gcry_cipher_gettag(handle, tag, 16) == 0
        : gcry_cipher_decrypt(handle, bytes, n, NULL, 0) == 0 && gcry_cipher_checktag(handle, tag, 16) == 0;
}
#endif

#ifdef WITH_SODIUM
#include <sodium.h>

static int sodium_has(const struct kind *kind) {
    return kind->form == CHACHA && capability != PLAIN;
}

static int by_sodium(const struct kind *kind, const struct message *m, enum direction direction) {
    uint8_t *bytes = m->bytes, *tag = bytes + m->length;
    return kind->form == CHACHA && (direction == SEALING
        ? crypto_aead_chacha20poly1305_ietf_encrypt_detached(bytes, tag, NULL, bytes, m->length, m->aad,
                                                             m->aad_length, NULL, m->nonce, m->key)
        : crypto_aead_chacha20poly1305_ietf_decrypt_detached(bytes, NULL, bytes, m->length, tag, m->aad,
                                                             m->aad_length, m->nonce, m->key)) == 0;
}
#endif

static const struct party {
    const char *name;
    int (*has)(const struct kind *);
    int (*act)(const struct kind *, const struct message *, enum direction);
} parties[] = {
    {"aeadkit", aeadkit_has, by_aeadkit},
#ifdef WITH_OPENSSL
    {"OpenSSL", openssl_has, by_openssl},
#endif
#ifdef WITH_NETTLE
    {"nettle", nettle_has, by_nettle},
#endif
#ifdef WITH_GCRYPT
    {"libgcrypt", gcrypt_has, by_gcrypt},
#endif
#ifdef WITH_SODIUM
    {"libsodium", sodium_has, by_sodium},
#endif
};
enum { PARTIES = sizeof parties / sizeof *parties };

/* Holds the peers to the instructions that they may use, and prints their versions. */
static void prepare(char **argv) {
    /* With AVX2 the peers do without AES, PCLMULQDQ, 512 bits, VAES and VPCLMULQDQ. Otherwise they also do without
       AVX, FMA and every feature in leaf 7 of CPUID. */
    const char *may = capability == AVX2 ? "~0x200000200000000:~0x5f42dc230000" : "~0x1200180200000000:0";
    const char *set = getenv("OPENSSL_ia32cap");
    if (capability != ALL && (!set || strcmp(set, may) != 0)) {
        setenv("OPENSSL_ia32cap", may, 1);
        setenv("NETTLE_FAT_OVERRIDE", "none", 1);
        execv("/proc/self/exe", argv);
        exit(2);
    }
#ifdef WITH_OPENSSL
    printf("%s, %s. ", OpenSSL_version(OPENSSL_VERSION), OpenSSL_version(OPENSSL_CPU_INFO));
#endif
#ifdef WITH_NETTLE
    printf("nettle %d.%d. ", nettle_version_major(), nettle_version_minor());
#endif
#ifdef WITH_GCRYPT
    if (capability == PLAIN) gcry_control(GCRYCTL_DISABLE_HWF, "intel-avx:intel-avx2", NULL);
    /* libgcrypt stops at the first name that its version does not know, so the oldest names come first. */
    if (capability != ALL)
        gcry_control(GCRYCTL_DISABLE_HWF,
                     "padlock-aes:intel-pclmul:intel-aesni:intel-vaes-vpclmul:intel-avx512:intel-gfni", NULL);
    printf("libgcrypt %s, ", gcry_check_version(NULL));
    gcry_control(GCRYCTL_DISABLE_SECMEM, 0);
    gcry_control(GCRYCTL_INITIALIZATION_FINISHED, 0);
    char *used = gcry_get_config(0, "hwflist");
    printf("%.*s. ", used ? (int)strcspn(used, "\n") : 0, used ? used : "");
    gcry_free(used);
#endif
#ifdef WITH_SODIUM
    if (sodium_init() < 0) exit(2);
    if (capability != PLAIN) printf("libsodium %s. ", sodium_version_string());
#endif
    puts("\n");
}

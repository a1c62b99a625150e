/* Makes every call of libaeadkit that takes a secret. constant-time.sh runs this program under valgrind and under QEMU.

   calls cells                                  prints a line 'SUITE CALL VARIANT' for each cell
   calls taint SUITE CALL VARIANT whole|short   under memcheck: marks the secrets as undefined, so that memcheck reports each
                                                conditional jump and each address that depends on them, during CALL alone
   calls trace SUITE CALL VARIANT whole|short   under QEMU: runs CALL over the same lengths with several secrets, between the
                                                marks by which traces.c cuts the trace

   Secret are keys, texts, what a call decrypts, and of the structs each byte that differs between keys. Public are suites,
   lengths, nonces, associated data, ciphertexts and tags once they are returned, and statuses. SUITE 0 is known code (known.c), 1
   to 6 are those of the header, and 16, 24 and 32 stand for key wrap under a key of that length. VARIANT is 'ok', or 'no' where
   the call refuses: a forged sealing or wrapping, or another text in a second pass.
   Standard output has the lines of marks.h, and 'group TEXT_LENGTH AAD_LENGTH UNDEFINED_STATUSES' for each. */
#include "marks.h"
#include <stdlib.h>
#include <string.h>
#include <valgrind/memcheck.h>
#include "aeadkit.h"
#include "known.h"

enum { MOST_SECRETS = 5, DRY_RUNS = 4, MOST_TEXT = 20000, MOST_AAD = 800, MOST_STATES = 400, MOST_STATE = 808 };

static unsigned suite;
static const char *target;
static int tainting, refused, brief;
static enum { DRY, WET } run_kind;
static unsigned dry_run, undefined_statuses;

static struct { uint8_t first[MOST_STATE], mask[MOST_STATE]; } states[MOST_STATES];
static unsigned state_count;

static uint8_t key[32], nonce[12], aad[MOST_AAD], tag[16];
static uint8_t text[MOST_TEXT + 64] __attribute__((aligned(64)));
static uint8_t work[MOST_TEXT + 64] __attribute__((aligned(64)));
static uint8_t sealed[MOST_TEXT + 64] __attribute__((aligned(64)));
static uint8_t opened[MOST_TEXT + 64] __attribute__((aligned(64)));
static struct aeadkit_key kept;
static struct aeadkit_sealer sealer;
static struct aeadkit_opener opener;
static struct aeadkit_siv siv;

static void fill(void *to, size_t length, uint64_t seed) {
    uint8_t *bytes = to;
    uint64_t x = seed * 0x9E3779B97F4A7C15u + 1;
    for (size_t i = 0; i < length; i += 8) {
        x ^= x << 13;
        x ^= x >> 7;
        x ^= x << 17;
        uint64_t word = (x ^ x >> 31) * 0x2545F4914F6CDD1Du;
        memcpy(bytes + i, &word, length - i < 8 ? length - i : 8);
    }
}

static void secret(void *at, size_t length) {
    if (tainting && run_kind == WET && length) (void)VALGRIND_MAKE_MEM_UNDEFINED(at, length);
}

static void public(void *at, size_t length) {
    if (tainting && length) (void)VALGRIND_MAKE_MEM_DEFINED(at, length);
}

/* A struct that the next call reads. Its bytes that differ between secrets are marked as secret, whatever memcheck has kept of
   them: it takes what is looked up in a table of public bytes as public. */
static void state(void *at, size_t length) {
    if (!tainting) return;
    if (state_count == MOST_STATES || length > MOST_STATE) {
        fprintf(stderr, "calls: too many structs\n");
        exit(3);
    }
    uint8_t *bytes = at, *first = states[state_count].first, *mask = states[state_count].mask;
    state_count++;
    if (run_kind == DRY) {
        for (size_t i = 0; i < length; i++) {
            if (dry_run == 0) first[i] = bytes[i], mask[i] = 0;
            else mask[i] |= first[i] ^ bytes[i];
        }
        return;
    }
    for (size_t i = 0; i < length; i++)
        if (mask[i]) (void)VALGRIND_MAKE_MEM_UNDEFINED(bytes + i, 1);
}

static int measured(const char *name) { return !strcmp(name, target); }

static void before(const char *name) {
    if (!measured(name)) return;
    if (tainting) {
        if (run_kind == WET) VALGRIND_ENABLE_ERROR_REPORTING;
    } else
        ct_on = 1;
}

static void after(const char *name, uint32_t *status, uint32_t wanted) {
    if (measured(name)) {
        if (tainting) {
            uint32_t bits = 0;
            if (run_kind == WET) {
                VALGRIND_DISABLE_ERROR_REPORTING;
                (void)VALGRIND_GET_VBITS(status, &bits, sizeof bits);
                undefined_statuses += bits != 0;
            }
        } else
            ct_off = 1;
    }
    public(status, sizeof *status);
    if (*status != wanted) {
        fprintf(stderr, "calls: suite %u, %s: status %u in the place of %u\n", suite, name, *status, wanted);
        exit(3);
    }
}

#define CALL(name, wanted, ...) \
    do { \
        uint32_t status_; \
        before(name); \
        status_ = __VA_ARGS__; \
        after(name, &status_, wanted); \
    } while (0)
#define CALL_VOID(name, ...) CALL(name, 0, (__VA_ARGS__, 0))

static int is(const char *name) { return !strcmp(name, target); }
static int starts(const char *prefix) { return !strncmp(prefix, target, strlen(prefix)); }

static size_t key_length(void) { return suite > 6 ? suite : suite == 0 ? 32 : aeadkit_key_length(suite); }

/* Secret bytes from the number of the secret, public ones from the lengths. */
static void inputs(size_t n, size_t a, uint64_t number) {
    public(key, sizeof key);
    public(text, sizeof text);
    public(work, sizeof work);
    public(sealed, sizeof sealed);
    public(opened, sizeof opened);
    fill(key, sizeof key, 1000 * number + 1);
    fill(text, n, 1000 * number + 3);
    fill(nonce, sizeof nonce, 7 * n + a);
    fill(aad, a, 11 * n + a + 5);
    secret(key, sizeof key);
    secret(text, n);
    memcpy(work, text, n);
}

/* Changes a sealing. Where the computed and the given tag differ is secret, so each secret has another difference. */
static void forge(uint8_t *ciphertext, size_t n, uint8_t *its_tag, uint64_t number) {
    switch (number % 5) {
    case 0: its_tag[15] ^= 1; break;
    case 1: its_tag[0] ^= 0x80; break;
    case 2: its_tag[7] ^= 8; break;
    case 3:
        if (n) ciphertext[n / 2] ^= 1;
        else its_tag[3] ^= 0x55;
        break;
    default:
        for (int i = 0; i < 16; i++) its_tag[i] ^= (uint8_t)(i + 1);
    }
}

static void whole(size_t n, size_t a, uint64_t number) {
    uint32_t wanted = refused ? AEADKIT_TAG_MISMATCH : AEADKIT_DONE;
    int with = strstr(target, "_with") != NULL;
    size_t k = key_length();
    if (with) {
        CALL("key_init", AEADKIT_DONE, aeadkit_key_init(&kept, suite, key, k));
        state(&kept, sizeof kept);
    }
    if (is("key_init")) {
        CALL("key_init", AEADKIT_DONE, aeadkit_key_init(&kept, suite, key, k));
        return;
    }
    if (is("wipe")) {
        CALL_VOID("wipe", aeadkit_wipe(text, n));
        return;
    }
    if (is("key_wipe")) {
        CALL("key_init", AEADKIT_DONE, aeadkit_key_init(&kept, suite, key, k));
        state(&kept, sizeof kept);
        CALL_VOID("key_wipe", aeadkit_key_wipe(&kept));
        return;
    }
    if (strstr(target, "in_place")) {
        if (with) CALL("seal_in_place_with", AEADKIT_DONE, aeadkit_seal_in_place_with(&kept, nonce, 12, work, n, aad, a, tag));
        else CALL("seal_in_place", AEADKIT_DONE, aeadkit_seal_in_place(suite, key, k, nonce, 12, work, n, aad, a, tag));
        public(work, n);
        public(tag, sizeof tag);
        if (refused) forge(work, n, tag, number);
        if (with) CALL("open_in_place_with", wanted, aeadkit_open_in_place_with(&kept, nonce, 12, work, n, aad, a, tag));
        else CALL("open_in_place", wanted, aeadkit_open_in_place(suite, key, k, nonce, 12, work, n, aad, a, tag));
    } else {
        if (with) CALL("seal_with", AEADKIT_DONE, aeadkit_seal_with(&kept, nonce, 12, text, n, aad, a, sealed, n + 16));
        else CALL("seal", AEADKIT_DONE, aeadkit_seal(suite, key, k, nonce, 12, text, n, aad, a, sealed, n + 16));
        public(sealed, n + 16);
        if (refused) forge(sealed, n, sealed + n, number);
        if (with) CALL("open_with", wanted, aeadkit_open_with(&kept, nonce, 12, sealed, n + 16, aad, a, opened, n));
        else CALL("open", wanted, aeadkit_open(suite, key, k, nonce, 12, sealed, n + 16, aad, a, opened, n));
    }
}

/* The length of the next piece, which ends within blocks and at their ends, and at last takes the rest. */
static size_t piece(size_t at, size_t n, unsigned number) {
    static const size_t cuts[] = {1, 15, 0, 16, 17, 48, 64, 100, 256, 704, 5, 2048};
    size_t next = number < sizeof cuts / sizeof *cuts ? cuts[number] : n;
    return next < n - at ? next : n - at;
}

static void begin_with(void) {
    CALL("key_init", AEADKIT_DONE, aeadkit_key_init(&kept, suite, key, key_length()));
    state(&kept, sizeof kept);
}

static void in_pieces(size_t n, size_t a, uint64_t number) {
    size_t k = key_length(), at = 0;
    (void)number;
    if (is("sealer_init_with")) {
        begin_with();
        CALL("sealer_init_with", AEADKIT_DONE, aeadkit_sealer_init_with(&sealer, &kept, nonce, 12, aad, a));
    } else
        CALL("sealer_init", AEADKIT_DONE, aeadkit_sealer_init(&sealer, suite, key, k, nonce, 12, aad, a));
    for (unsigned i = 0; at < n; i++) {
        size_t length = piece(at, n, i);
        state(&sealer, sizeof sealer);
        CALL("sealer_update", AEADKIT_DONE, aeadkit_sealer_update(&sealer, work + at, length));
        public(work + at, length);
        at += length;
    }
    if (is("sealer_wipe")) {
        state(&sealer, sizeof sealer);
        CALL_VOID("sealer_wipe", aeadkit_sealer_wipe(&sealer));
        return;
    }
    state(&sealer, sizeof sealer);
    CALL("sealer_finish", AEADKIT_DONE, aeadkit_sealer_finish(&sealer, tag));
}

static void in_two_readings(size_t n, size_t a, uint64_t number) {
    size_t k = key_length(), at = 0;
    if (is("siv_init_with")) {
        begin_with();
        CALL("siv_init_with", AEADKIT_DONE, aeadkit_siv_init_with(&siv, &kept, nonce, 12, aad, a));
    } else
        CALL("siv_init", AEADKIT_DONE, aeadkit_siv_init(&siv, suite, key, k, nonce, 12, aad, a));
    for (unsigned i = 0; at < n; i++) {
        size_t length = piece(at, n, i);
        state(&siv, sizeof siv);
        CALL("siv_absorb", AEADKIT_DONE, aeadkit_siv_absorb(&siv, work + at, length));
        at += length;
    }
    if (is("siv_wipe")) {
        state(&siv, sizeof siv);
        CALL_VOID("siv_wipe", aeadkit_siv_wipe(&siv));
        return;
    }
    state(&siv, sizeof siv);
    CALL("siv_begin_second", AEADKIT_DONE, aeadkit_siv_begin_second(&siv, tag));
    public(tag, sizeof tag);
    if (refused) work[number % n] ^= (uint8_t)(number + 1);
    at = 0;
    for (unsigned i = 0; at < n; i++) {
        size_t length = piece(at, n, i);
        state(&siv, sizeof siv);
        CALL("siv_update", AEADKIT_DONE, aeadkit_siv_update(&siv, work + at, length));
        public(work + at, length);
        at += length;
    }
    state(&siv, sizeof siv);
    CALL("siv_finish", refused ? AEADKIT_SOURCE_CHANGED : AEADKIT_DONE, aeadkit_siv_finish(&siv));
}

static void in_two_passes(size_t n, size_t a, uint64_t number) {
    size_t k = key_length(), at = 0;
    int forged = refused && is("opener_begin_second");
    CALL("", AEADKIT_DONE, aeadkit_seal_in_place(suite, key, k, nonce, 12, work, n, aad, a, tag));
    public(work, n);
    public(tag, sizeof tag);
    if (forged) forge(work, n, tag, number);
    if (is("opener_init_with")) {
        begin_with();
        CALL("opener_init_with", AEADKIT_DONE, aeadkit_opener_init_with(&opener, &kept, nonce, 12, aad, a, tag));
    } else
        CALL("opener_init", AEADKIT_DONE, aeadkit_opener_init(&opener, suite, key, k, nonce, 12, aad, a, tag));
    for (unsigned i = 0; at < n; i++) {
        size_t length = piece(at, n, i);
        state(&opener, sizeof opener);
        CALL("opener_check", AEADKIT_DONE, aeadkit_opener_check(&opener, work + at, length));
        at += length;
    }
    if (is("opener_wipe")) {
        state(&opener, sizeof opener);
        CALL_VOID("opener_wipe", aeadkit_opener_wipe(&opener));
        return;
    }
    state(&opener, sizeof opener);
    CALL("opener_begin_second", forged ? AEADKIT_TAG_MISMATCH : AEADKIT_DONE, aeadkit_opener_begin_second(&opener));
    if (forged) return;
    if (refused) work[number % n] ^= (uint8_t)(number + 1);
    at = 0;
    for (unsigned i = 0; at < n; i++) {
        size_t length = piece(at, n, i);
        state(&opener, sizeof opener);
        CALL("opener_update", AEADKIT_DONE, aeadkit_opener_update(&opener, work + at, length));
        at += length;
    }
    state(&opener, sizeof opener);
    CALL("opener_finish", refused ? AEADKIT_SOURCE_CHANGED : AEADKIT_DONE, aeadkit_opener_finish(&opener));
}

/* AES, forward and slow, to make wrappings whose constant is right and whose length or padding is wrong. */
static uint8_t times_two(uint8_t x) { return (uint8_t)(x << 1 ^ (x >> 7) * 0x1b); }

static uint8_t s_box(uint8_t x) {
    uint8_t inverse = 0;
    for (unsigned y = 1; y < 256 && x; y++) {
        uint8_t product = 0, power = x;
        for (unsigned bits = y; bits; bits >>= 1, power = times_two(power))
            if (bits & 1) product ^= power;
        if (product == 1) inverse = (uint8_t)y;
    }
    uint8_t out = 0x63;
    for (int i = 0; i < 5; i++) out ^= (uint8_t)(inverse << i | inverse >> (8 - i));
    return out;
}

static void aes(const uint8_t *with, size_t k, uint8_t block[16]) {
    static uint8_t box[256];
    uint8_t schedule[240];
    size_t words = k / 4, rounds = words + 6;
    if (!box[0])
        for (int i = 0; i < 256; i++) box[i] = s_box((uint8_t)i);
    memcpy(schedule, with, k);
    for (size_t i = words, constant = 1; i < 4 * (rounds + 1); i++) {
        uint8_t t[4];
        memcpy(t, schedule + 4 * (i - 1), 4);
        if (i % words == 0) {
            uint8_t first = t[0];
            for (int j = 0; j < 4; j++) t[j] = box[j < 3 ? t[j + 1] : first];
            t[0] ^= (uint8_t)constant;
            constant = times_two((uint8_t)constant);
        } else if (words > 6 && i % words == 4)
            for (int j = 0; j < 4; j++) t[j] = box[t[j]];
        for (int j = 0; j < 4; j++) schedule[4 * i + j] = schedule[4 * (i - words) + j] ^ t[j];
    }
    for (int j = 0; j < 16; j++) block[j] ^= schedule[j];
    for (size_t round = 1; round <= rounds; round++) {
        uint8_t s[16];
        for (int j = 0; j < 16; j++) s[j] = box[block[(j + 4 * (j % 4)) % 16]];
        for (int c = 0; c < 16; c += 4)
            for (int j = 0; j < 4; j++)
                block[c + j] = round == rounds ? s[c + j]
                                               : (uint8_t)(times_two(s[c + j] ^ s[c + (j + 1) % 4]) ^ s[c + (j + 1) % 4] ^
                                                           s[c + (j + 2) % 4] ^ s[c + (j + 3) % 4]);
        for (int j = 0; j < 16; j++) block[j] ^= schedule[16 * round + j];
    }
}

/* Wraps `n` bytes, a multiple of 8, under any initial value (RFC 3394, 2.2.1; RFC 5649, 4.1). */
static void raw_wrap(const uint8_t *with, size_t k, const uint8_t initial[8], const uint8_t *from, size_t n, uint8_t *to) {
    uint8_t block[16];
    memcpy(to + 8, from, n);
    memcpy(block, initial, 8);
    if (n == 8) {
        memcpy(block + 8, from, 8);
        aes(with, k, block);
        memcpy(to, block, 16);
        return;
    }
    for (size_t j = 0, t = 1; j < 6; j++)
        for (size_t i = 1; i <= n / 8; i++, t++) {
            memcpy(block + 8, to + 8 * i, 8);
            aes(with, k, block);
            for (int b = 0; b < 8; b++) block[b] ^= (uint8_t)((uint64_t)t >> (56 - 8 * b));
            memcpy(to + 8 * i, block + 8, 8);
        }
    memcpy(to, block, 8);
}

/* Whether this file wraps as the library did. */
static void confirm(const uint8_t initial[8], const uint8_t *from, size_t n) {
    raw_wrap(key, suite, initial, from, n, work);
    if (!tainting && memcmp(work, sealed, n + 8)) {
        fprintf(stderr, "calls: another wrapping\n");
        exit(3);
    }
}

/* Each secret has another fault, and the status is the same for all: another byte of the initial value, the length, the zeros. */
static void raw_padded(size_t n, uint64_t number) {
    uint8_t initial[8] = {0xa6, 0x59, 0x59, 0xa6}, padded[4096 + 8] = {0};
    size_t room = (n + 7) / 8 * 8;
    memcpy(padded, text, n);
    for (int i = 0; i < 4; i++) initial[4 + i] = (uint8_t)(n >> (24 - 8 * i));
    confirm(initial, padded, room);
    switch (number % 5) {
    case 0: initial[0] ^= 1; break;
    case 1: initial[3] ^= 0x80; break;
    case 2: initial[7] ^= 8; initial[6] ^= 0x40; break;
    case 3:
        if (room > n) padded[room - 1] = 1;
        else initial[4] ^= 1;
        break;
    default:
        if (room > n) padded[n] = 0x80;
        else initial[5] ^= 1;
    }
    raw_wrap(key, suite, initial, padded, room, sealed);
}

static void raw_plain(size_t n, uint64_t number) {
    uint8_t initial[8];
    memset(initial, 0xa6, 8);
    confirm(initial, text, n);
    if (number % 5 == 4) memset(initial, 0x11, 8);
    else initial[number % 5 == 3 ? 7 : 2 * (number % 5)] ^= (uint8_t)(1 << number % 8);
    raw_wrap(key, suite, initial, text, n, sealed);
}

static void wrapping(size_t n, size_t a, uint64_t number) {
    size_t room = (n + 7) / 8 * 8, length = 0;
    uint32_t wanted = refused ? AEADKIT_WRAP_INTEGRITY : AEADKIT_DONE;
    (void)a;
    if (strstr(target, "padded")) {
        CALL("wrap_padded", AEADKIT_DONE, aeadkit_wrap_padded(key, suite, text, n, sealed, room + 8));
        public(sealed, room + 8);
        if (refused) raw_padded(n, number);
        public(sealed, room + 8);
        CALL("unwrap_padded", wanted, aeadkit_unwrap_padded(key, suite, sealed, room + 8, opened, room, &length));
    } else {
        CALL("wrap", AEADKIT_DONE, aeadkit_wrap(key, suite, text, n, sealed, n + 8));
        public(sealed, n + 8);
        if (refused) raw_plain(n, number);
        public(sealed, n + 8);
        CALL("unwrap", wanted, aeadkit_unwrap(key, suite, sealed, n + 8, opened, n));
    }
}

/* Known code: its first argument is secret, the second is n and public. */
static void known(size_t n, size_t a, uint64_t number) {
    (void)a;
    (void)number;
    for (const struct known *k = known_code; k->name; k++)
        if (is(k->name)) CALL(k->name, 0, (k->run(key, work, n), 0));
}

/* ---- Cells and lengths ---- */

static const char *const whole_calls[] = {
    "seal_in_place ok", "open_in_place ok", "open_in_place no", "seal ok", "open ok", "open no", "key_init ok", "key_wipe ok", "wipe ok",
    "seal_in_place_with ok", "open_in_place_with ok", "open_in_place_with no", "seal_with ok", "open_with ok", "open_with no",
    "opener_init ok", "opener_init_with ok", "opener_check ok", "opener_begin_second ok", "opener_begin_second no",
    "opener_update ok", "opener_finish ok", "opener_finish no", "opener_wipe ok", NULL};
static const char *const sealer_calls[] = {"sealer_init ok", "sealer_init_with ok", "sealer_update ok", "sealer_finish ok",
                                           "sealer_wipe ok", NULL};
static const char *const siv_calls[] = {"siv_init ok", "siv_init_with ok", "siv_absorb ok", "siv_begin_second ok", "siv_update ok",
                                        "siv_finish ok", "siv_finish no", "siv_wipe ok", NULL};
static const char *const wrap_calls[] = {"wrap ok", "unwrap ok", "unwrap no", "wrap_padded ok", "unwrap_padded ok",
                                         "unwrap_padded no", NULL};

static void print_cells(unsigned of, const char *const *calls) {
    for (; *calls; calls++) printf("%u %s\n", of, *calls);
}

static void cells(void) {
#ifdef __x86_64__
    int has_avx2 = __builtin_cpu_supports("avx2");
#else
    int has_avx2 = 0;
#endif
    for (const struct known *k = known_code; k->name; k++)
        if (!strstr(k->name, "32") || has_avx2)
            printf("0 %s ok %d %d %d %d\n", k->name, k->taint_branches, k->taint_addresses, k->trace_branches, k->trace_addresses);
    for (unsigned s = 1; s <= 6; s++) {
        print_cells(s, whole_calls);
        print_cells(s, s <= 4 ? sealer_calls : siv_calls);
    }
    for (unsigned k = 16; k <= 32; k += 8) print_cells(k, wrap_calls);
}

/* A kind of call: how one is made, and the lengths of its texts and its associated data. */
struct kind {
    void (*run)(size_t n, size_t a, uint64_t number);
    const size_t *texts;
    size_t text_count, aad_count;
};
static const size_t no_lengths[] = {16};
static const size_t text_lengths[] = {0, 1, 15, 16, 17, 33, 48, 49, 64, 100, 129, 256, 330, 449, 512, 703, 704, 1024, 4096, 20000};
static const size_t wrap_lengths[] = {16, 24, 32, 40, 64, 256, 1024};
static const size_t padded_lengths[] = {1, 7, 8, 9, 15, 16, 17, 20, 32, 100, 1024};
static const size_t short_text_lengths[] = {17, 330, 4096};
static const size_t short_wrap_lengths[] = {16, 40};
static const size_t short_padded_lengths[] = {7, 9, 16};
static const size_t aad_lengths[] = {13, 0, 800};

#define LENGTHS(name) brief ? short_##name : name, brief ? sizeof short_##name / sizeof *name : sizeof name / sizeof *name

static struct kind kind_of_target(void) {
    if (suite == 0) return (struct kind){known, no_lengths, 1, 1};
    if (suite > 6 && strstr(target, "padded")) return (struct kind){wrapping, LENGTHS(padded_lengths), 1};
    if (suite > 6) return (struct kind){wrapping, LENGTHS(wrap_lengths), 1};
    if (starts("key_")) return (struct kind){whole, no_lengths, 1, 1};
    return (struct kind){starts("sealer_")   ? in_pieces
                         : starts("siv_")    ? in_two_readings
                         : starts("opener_") ? in_two_passes
                                             : whole,
                         LENGTHS(text_lengths), brief ? 1 : 3};
}

/* Runs the target under memcheck for a group of lengths. The dry runs, under other keys, find which bytes of structs are secret. */
static void taint(const struct kind *kind, size_t n, size_t a, uint64_t number) {
    undefined_statuses = 0;
    run_kind = DRY;
    for (dry_run = 0; dry_run < DRY_RUNS; dry_run++) {
        state_count = 0;
        inputs(n, a, 50 + dry_run);
        kind->run(n, a, dry_run);
        if (!state_count) break;
    }
    run_kind = WET;
    state_count = 0;
    inputs(n, a, 1);
    kind->run(n, a, number);
}

/* Runs the target under QEMU with several secrets. First it runs without a mark: a first call may look functions up. */
static void trace(const struct kind *kind, size_t n, size_t a) {
    inputs(n, a, 99);
    kind->run(n, a, 0);
    for (unsigned s = 0; s < (brief ? 3 : MOST_SECRETS); s++) {
        inputs(n, a, s + 1);
        ct_secret = s;
        kind->run(n, a, s);
    }
}

int main(int argc, char **argv) {
    if (argc == 2 && !strcmp(argv[1], "cells")) {
        cells();
        return 0;
    }
    if (argc != 6) return 2;
    tainting = !strcmp(argv[1], "taint");
    suite = (unsigned)atoi(argv[2]);
    target = argv[3];
    refused = !strcmp(argv[4], "no");
    brief = !strcmp(argv[5], "short");
    if (tainting) VALGRIND_DISABLE_ERROR_REPORTING;
    print_places(stdout);

    struct kind kind = kind_of_target();
    for (size_t i = 0; i < kind.text_count; i++)
        for (size_t j = 0; j < kind.aad_count; j++) {
            size_t n = kind.texts[i], a = aad_lengths[j];
            /* No second pass can have another text if there is none. */
            if (n == 0 && refused && (is("siv_finish") || is("opener_finish"))) continue;
            /* Other associated data with some texts only; and a trace of the longest text would be too long. */
            if ((j > 0 && n != 17 && n != 1024) || (n > 4096 && !tainting)) continue;
            ct_group = 1;
            if (tainting) taint(&kind, n, a, i);
            else trace(&kind, n, a);
            printf("group %zu %zu %u\n", n, a, undefined_statuses);
        }
    if (tainting) VALGRIND_ENABLE_ERROR_REPORTING;
    return 0;
}

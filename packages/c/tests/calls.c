/* Calls every function of the library: published vectors, each wrong length, the order of the statuses, what is left in every
   buffer, NULL with length 0, and the facts. It is C and C++, and a test: the examples are message.c, file.c, wrap.c and
   threads.c. It prints nothing, or what is wrong, and then exits with 1. */
#define _DEFAULT_SOURCE
#include "aeadkit.h"
#include <stdio.h>
#include <string.h>
#include <sys/mman.h>

enum { LONGEST = 100, GUARD = 16, SUITES = 6 };

static int wrong;

static void is(const char *what, int holds) {
    if (!holds) {
        wrong = 1;
        printf("wrong: %s\n", what);
    }
}

static int all(const void *bytes, size_t length, uint8_t value) {
    for (size_t i = 0; i < length; i++)
        if (((const uint8_t *)bytes)[i] != value) return 0;
    return 1;
}

static const size_t key_lengths[7] = {0, 32, 16, 24, 32, 16, 32};
static const uint64_t gcm_limit = ((uint64_t)1 << 36) - 32, siv_limit = (uint64_t)1 << 36, chacha_limit = ((uint64_t)1 << 38) - 64;

/* ---- published vectors ---- */

/* AES-128-GCM of sixteen zero bytes under a zero key and nonce: test case 2 of GCM's vectors; the empty text is test case 1. */
static void sealing(void) {
    static const uint8_t want[32] = {0x03, 0x88, 0xda, 0xce, 0x60, 0xb6, 0xa3, 0x92, 0xf3, 0x28, 0xc2,
                                     0xb9, 0x71, 0xb2, 0xfe, 0x78, 0xab, 0x6e, 0x47, 0xd4, 0x2c, 0xec,
                                     0x13, 0xbd, 0xf5, 0x3a, 0x67, 0xb2, 0x12, 0x57, 0xbd, 0xdf};
    static const uint8_t empty[16] = {0x58, 0xe2, 0xfc, 0xce, 0xfa, 0x7e, 0x30, 0x61,
                                      0x36, 0x7f, 0x1d, 0x57, 0xa4, 0xe7, 0x45, 0x5a};
    static const uint8_t zero[16] = {0};
    uint8_t sealed[32], text[16], tag[16];
    is("seal", aeadkit_seal(AEADKIT_AES_128_GCM, zero, 16, zero, 12, zero, 16, NULL, 0, sealed, 32) == AEADKIT_DONE);
    is("the sealing", !memcmp(sealed, want, 32));
    memset(text, 0x5a, 16);
    is("open", aeadkit_open(AEADKIT_AES_128_GCM, zero, 16, zero, 12, sealed, 32, NULL, 0, text, 16) == AEADKIT_DONE);
    is("the text", !memcmp(text, zero, 16));
    is("seal in place", aeadkit_seal_in_place(AEADKIT_AES_128_GCM, zero, 16, zero, 12, text, 16, NULL, 0, tag) == AEADKIT_DONE);
    is("the sealing in place", !memcmp(text, want, 16) && !memcmp(tag, want + 16, 16));
    is("open in place", aeadkit_open_in_place(AEADKIT_AES_128_GCM, zero, 16, zero, 12, text, 16, NULL, 0, tag) == AEADKIT_DONE);
    is("the text in place", !memcmp(text, zero, 16) && !memcmp(tag, want + 16, 16));
    is("seal nothing", aeadkit_seal(AEADKIT_AES_128_GCM, zero, 16, zero, 12, NULL, 0, NULL, 0, sealed, 16) == AEADKIT_DONE);
    is("the tag of nothing", !memcmp(sealed, empty, 16));
    is("open nothing", aeadkit_open(AEADKIT_AES_128_GCM, zero, 16, zero, 12, empty, 16, NULL, 0, NULL, 0) == AEADKIT_DONE);
}

/* RFC 3394, 4.1, and RFC 5649, 6. */
static void wrapping(void) {
    static const uint8_t want[24] = {0x1f, 0xa6, 0x8b, 0x0a, 0x81, 0x12, 0xb4, 0x47, 0xae, 0xf3, 0x4b, 0xd8,
                                     0xfb, 0x5a, 0x7b, 0x82, 0x9d, 0x3e, 0x86, 0x23, 0x71, 0xd2, 0xcf, 0xe5};
    static const uint8_t long_key[24] = {0x58, 0x40, 0xdf, 0x6e, 0x29, 0xb0, 0x2a, 0xf1, 0xab, 0x49, 0x3b, 0x70,
                                         0x5b, 0xf1, 0x6e, 0xa1, 0xae, 0x83, 0x38, 0xf4, 0xdc, 0xc1, 0x76, 0xa8};
    static const uint8_t seven[7] = {0x46, 0x6f, 0x72, 0x50, 0x61, 0x73, 0x69};
    static const uint8_t padded[16] = {0xaf, 0xbe, 0xb0, 0xf0, 0x7d, 0xfb, 0xf5, 0x41,
                                       0x92, 0x00, 0xf2, 0xcc, 0xb5, 0x0b, 0xb2, 0x4f};
    uint8_t key[16], text[16], wrapped[24], unwrapped[16];
    size_t length = 99;
    for (int i = 0; i < 16; i++) {
        key[i] = (uint8_t)i;
        text[i] = (uint8_t)(0x11 * i);
    }
    is("wrap", aeadkit_wrap(key, 16, text, 16, wrapped, 24) == AEADKIT_DONE);
    is("the wrapping", !memcmp(wrapped, want, 24));
    is("unwrap", aeadkit_unwrap(key, 16, wrapped, 24, unwrapped, 16) == AEADKIT_DONE);
    is("the key data", !memcmp(unwrapped, text, 16));
    is("wrap with padding", aeadkit_wrap_padded(long_key, 24, seven, 7, wrapped, 16) == AEADKIT_DONE);
    is("the wrapping with padding", !memcmp(wrapped, padded, 16));
    memset(unwrapped, 0x5a, 16);
    is("unwrap with padding", aeadkit_unwrap_padded(long_key, 24, wrapped, 16, unwrapped, 8, &length) == AEADKIT_DONE);
    is("the text and its padding", length == 7 && !memcmp(unwrapped, seven, 7) && unwrapped[7] == 0 && unwrapped[8] == 0x5a);
}

/* RFC 8452, C.1, the text of eight bytes: sealed in two readings, and opened in two passes. */
static void two_readings(void) {
    static const uint8_t text[8] = {1}, key[16] = {1}, nonce[12] = {3};
    static const uint8_t want[24] = {0xb5, 0xd8, 0x39, 0x33, 0x0a, 0xc7, 0xb7, 0x86, 0x57, 0x87, 0x82, 0xff,
                                     0xf6, 0x01, 0x3b, 0x81, 0x5b, 0x28, 0x7c, 0x22, 0x49, 0x3a, 0x36, 0x4c};
    uint8_t bytes[24];
    struct aeadkit_siv siv;
    struct aeadkit_opener opener;
    memcpy(bytes, text, 8);
    is("begin", aeadkit_siv_init(&siv, AEADKIT_AES_128_GCM_SIV, key, 16, nonce, 12, NULL, 0) == AEADKIT_DONE);
    is("the first reading", aeadkit_siv_absorb(&siv, bytes, 3) == AEADKIT_DONE);
    is("its rest", aeadkit_siv_absorb(&siv, bytes + 3, 5) == AEADKIT_DONE);
    is("a tag", aeadkit_siv_begin_second(&siv, bytes + 8) == AEADKIT_DONE);
    is("the second reading", aeadkit_siv_update(&siv, bytes, 8) == AEADKIT_DONE);
    is("one text", aeadkit_siv_finish(&siv) == AEADKIT_DONE);
    is("the sealing of RFC 8452", !memcmp(bytes, want, 24));
    is("begin to open", aeadkit_opener_init(&opener, AEADKIT_AES_128_GCM_SIV, key, 16, nonce, 12, NULL, 0, bytes + 8)
                            == AEADKIT_DONE);
    is("the first pass", aeadkit_opener_check(&opener, bytes, 8) == AEADKIT_DONE);
    is("a sealing", aeadkit_opener_begin_second(&opener) == AEADKIT_DONE);
    is("the second pass", aeadkit_opener_update(&opener, bytes, 8) == AEADKIT_DONE);
    is("one ciphertext", aeadkit_opener_finish(&opener) == AEADKIT_DONE);
    is("the text of RFC 8452", !memcmp(bytes, text, 8));
}

/* ---- whole messages: the order of the statuses, and what is left ---- */

enum call { SEAL_IN_PLACE, OPEN_IN_PLACE, SEAL, OPEN, CALLS };
enum fault { NO_KEY, SUITE, KEY, NONCE, AAD, SHORT, TEXT, OUTPUT, TAG, FAULTS };

static const uint32_t statuses[FAULTS] = {AEADKIT_NOT_BEGUN,    AEADKIT_UNKNOWN_SUITE, AEADKIT_KEY_LENGTH,
                                          AEADKIT_NONCE_LENGTH, AEADKIT_AAD_TOO_LONG,  AEADKIT_TOO_SHORT,
                                          AEADKIT_TEXT_TOO_LONG, AEADKIT_OUTPUT_LENGTH, AEADKIT_TAG_MISMATCH};
static uint8_t *vast; /* more zeros than any limit that memory can hold, which no call touches; or NULL if there is no such room */
static const size_t vast_length = ((size_t)1 << 38) + 64;

/* A call on a text of `length` bytes with these faults at once: the status is that of the first fault. */
static void with_faults(enum call call, int with, uint32_t suite, size_t length, unsigned faults) {
    static const uint8_t zeros[33] = {0};
    uint8_t from[LONGEST + 16], to[GUARD + LONGEST + 16 + GUARD], tag[16], from_before[LONGEST + 16], tag_before[16];
    uint8_t *out = to + GUARD, *text = from;
    struct aeadkit_key kept;
    size_t from_length = call == OPEN ? length + 16 : length, to_length = call == OPEN ? length : length + 16;
    size_t key_length = key_lengths[suite], nonce_length = 12, aad_length = 5;
    const uint8_t *aad = zeros;
    uint32_t status, wanted = AEADKIT_DONE;
    memset(from, 0x61, sizeof from);
    memset(to, 0xa5, sizeof to);
    is("the sealing to open", aeadkit_seal_in_place(suite, zeros, key_length, zeros, 12, from, length, zeros, 5, tag) == AEADKIT_DONE);
    if (call == SEAL || call == SEAL_IN_PLACE) memset(from, 0x61, sizeof from);
    if (call == OPEN) memcpy(from + length, tag, 16);
    if (faults & 1u << TAG) (call == OPEN ? from + length : tag)[3] ^= 1;
    is("key_init", aeadkit_key_init(&kept, suite, zeros, key_length) == AEADKIT_DONE);
    if (faults & 1u << NO_KEY) aeadkit_key_wipe(&kept);
    if (faults & 1u << SUITE) suite = 7;
    if (faults & 1u << KEY) key_length++;
    if (faults & 1u << NONCE) nonce_length = 11;
    if (faults & 1u << AAD) aad = vast, aad_length = (size_t)siv_limit + 1;
    if (faults & 1u << OUTPUT) to_length ^= 1;
    memcpy(from_before, from, sizeof from);
    memcpy(tag_before, tag, 16);
    if (faults & 1u << TEXT) {
        text = vast;
        from_length = (size_t)(suite == 1 ? chacha_limit : siv_limit) + (call == OPEN ? 17 : 1);
    }
    if (faults & 1u << SHORT) text = from, from_length = 15;
    if (call == SEAL_IN_PLACE)
        status = with ? aeadkit_seal_in_place_with(&kept, zeros, nonce_length, text, from_length, aad, aad_length, tag)
                      : aeadkit_seal_in_place(suite, zeros, key_length, zeros, nonce_length, text, from_length, aad, aad_length, tag);
    else if (call == OPEN_IN_PLACE)
        status = with ? aeadkit_open_in_place_with(&kept, zeros, nonce_length, text, from_length, aad, aad_length, tag)
                      : aeadkit_open_in_place(suite, zeros, key_length, zeros, nonce_length, text, from_length, aad, aad_length, tag);
    else if (call == SEAL)
        status = with ? aeadkit_seal_with(&kept, zeros, nonce_length, text, from_length, aad, aad_length, out, to_length)
                      : aeadkit_seal(suite, zeros, key_length, zeros, nonce_length, text, from_length, aad, aad_length, out, to_length);
    else
        status = with ? aeadkit_open_with(&kept, zeros, nonce_length, text, from_length, aad, aad_length, out, to_length)
                      : aeadkit_open(suite, zeros, key_length, zeros, nonce_length, text, from_length, aad, aad_length, out, to_length);
    for (int fault = FAULTS - 1; fault >= 0; fault--)
        if (faults & 1u << fault) wanted = statuses[fault];
    if (status != wanted) {
        wrong = 1;
        printf("wrong: call %d, with %d, suite %u, length %zu, faults %x: the status is %u and not %u\n", (int)call, with,
               (unsigned)suite, length, faults, (unsigned)status, (unsigned)wanted);
    }
    if (status == AEADKIT_DONE) {
        if (call == SEAL_IN_PLACE) is("the ciphertext changes", length < 16 || memcmp(from, from_before, length));
        if (call == OPEN_IN_PLACE) is("the text in place", all(from, length, 0x61));
        if (call == OPEN) is("the text elsewhere", all(out, length, 0x61));
    }
    if (status != AEADKIT_DONE || call == SEAL || call == OPEN)
        is("the input is as it was", !memcmp(from, from_before, sizeof from));
    if (status != AEADKIT_DONE || call != SEAL_IN_PLACE) is("the tag is as it was", !memcmp(tag, tag_before, 16));
    is("around the output", all(to, GUARD, 0xa5) && all(out + length + 16, GUARD, 0xa5));
    if (call == OPEN && status == AEADKIT_TAG_MISMATCH)
        is("zeros at a mismatch", all(out, length, 0) && all(out + length, 16, 0xa5));
    else if (status != AEADKIT_DONE || call < SEAL) is("nothing is written", all(to, sizeof to, 0xa5));
}

static void whole_messages(void) {
    for (int call = 0; call < CALLS; call++)
        for (int with = 0; with < 2; with++)
            for (uint32_t suite = 1; suite <= SUITES; suite++) {
                unsigned possible = 1u << NONCE | (with ? 1u << NO_KEY : 1u << SUITE | 1u << KEY);
                if (vast) possible |= 1u << TEXT | (suite > 4 ? 1u << AAD : 0);
                if (call >= SEAL) possible |= 1u << OUTPUT;
                if (call == OPEN) possible |= 1u << SHORT;
                if (call == OPEN || call == OPEN_IN_PLACE) possible |= 1u << TAG;
                for (unsigned faults = 0; faults < 1u << FAULTS; faults++)
                    if ((faults & possible) == faults) with_faults((enum call)call, with, suite, faults % 3 ? 40 : 0, faults);
            }
}

/* Every wrong length of the output, and the right one. */
static void output_lengths(void) {
    static const uint8_t zeros[32] = {0};
    static const size_t lengths[] = {0, 1, 15, 16, 17, 40};
    uint8_t text[40] = {0}, sealed[56], out[80];
    for (uint32_t suite = 1; suite <= SUITES; suite++)
        for (size_t i = 0; i < sizeof lengths / sizeof *lengths; i++)
            for (size_t length = lengths[i], room = 0; room <= 80; room++) {
                struct aeadkit_key kept;
                size_t k = key_lengths[suite];
                is("key_init", aeadkit_key_init(&kept, suite, zeros, k) == AEADKIT_DONE);
                for (int with = 0; with < 2; with++) {
                    memset(out, 0xa5, sizeof out);
                    uint32_t status = with ? aeadkit_seal_with(&kept, zeros, 12, text, length, NULL, 0, out, room)
                                           : aeadkit_seal(suite, zeros, k, zeros, 12, text, length, NULL, 0, out, room);
                    is("the status of seal by its output", status == (room == length + 16 ? AEADKIT_DONE : AEADKIT_OUTPUT_LENGTH));
                    if (status == AEADKIT_DONE) is("behind the sealing", all(out + room, sizeof out - room, 0xa5));
                    else is("nothing is sealed", all(out, sizeof out, 0xa5));
                    is("seal", aeadkit_seal(suite, zeros, k, zeros, 12, text, length, NULL, 0, sealed, length + 16) == AEADKIT_DONE);
                    memset(out, 0xa5, sizeof out);
                    status = with ? aeadkit_open_with(&kept, zeros, 12, sealed, length + 16, NULL, 0, out, room)
                                  : aeadkit_open(suite, zeros, k, zeros, 12, sealed, length + 16, NULL, 0, out, room);
                    is("the status of open by its output", status == (room == length ? AEADKIT_DONE : AEADKIT_OUTPUT_LENGTH));
                    if (status == AEADKIT_DONE) is("the opened text", all(out, room, 0) && all(out + room, sizeof out - room, 0xa5));
                    else is("nothing is opened", all(out, sizeof out, 0xa5));
                }
            }
}

/* ---- key wrap ---- */

/* Every length of key, input and output up to 56, each with a valid input and with a changed one. */
static void wrap_lengths(void) {
    static const uint8_t key[33] = {9};
    uint8_t text[56], wrapped[64], in[72], out[72];
    memset(text, 0x61, sizeof text);
    for (size_t k = 15; k <= 33; k++)
        for (size_t n = 0; n <= 56; n++)
            for (size_t room = 0; room <= 64; room++) {
                int aes = k == 16 || k == 24 || k == 32, changed = (int)(n / 8) % 2;
                size_t eight = (n + 7) / 8 * 8 + 8, length = 99;
                uint32_t status;
                memset(out, 0xa5, sizeof out);
                status = aeadkit_wrap(key, k, text, n, out, room);
                is("the status of wrap", status == (!aes ? AEADKIT_KEY_LENGTH : n < 16 || n % 8 ? AEADKIT_WRAP_LENGTH
                                                    : room != n + 8 ? AEADKIT_OUTPUT_LENGTH : AEADKIT_DONE));
                is("what wrap leaves", all(out + (status ? 0 : room), sizeof out - (status ? 0 : room), 0xa5));
                memset(out, 0xa5, sizeof out);
                status = aeadkit_wrap_padded(key, k, text, n, out, room);
                is("the status of wrap_padded", status == (!aes ? AEADKIT_KEY_LENGTH : n == 0 ? AEADKIT_WRAP_LENGTH
                                                           : room != eight ? AEADKIT_OUTPUT_LENGTH : AEADKIT_DONE));
                is("what wrap_padded leaves", all(out + (status ? 0 : room), sizeof out - (status ? 0 : room), 0xa5));
                /* `room` bytes are unwrapped to `n`: a wrapping of `room - 8` bytes if there is one */
                memset(in, 0x33, sizeof in);
                memset(out, 0xa5, sizeof out);
                if (aes && room >= 24 && room % 8 == 0) {
                    is("wrap", aeadkit_wrap(key, k, text, room - 8, in, room) == AEADKIT_DONE);
                    in[5] ^= (uint8_t)changed;
                }
                status = aeadkit_unwrap(key, k, in, room, out, n);
                is("the status of unwrap", status == (!aes ? AEADKIT_KEY_LENGTH : room < 24 || room % 8 ? AEADKIT_WRAP_LENGTH
                                                      : n != room - 8 ? AEADKIT_OUTPUT_LENGTH
                                                      : changed ? AEADKIT_WRAP_INTEGRITY : AEADKIT_DONE));
                if (status == AEADKIT_DONE) is("the text", !memcmp(out, text, n));
                else is("what unwrap leaves", all(out, n, status == AEADKIT_WRAP_INTEGRITY ? 0 : 0xa5));
                is("behind the text", all(out + n, sizeof out - n, 0xa5));
                memset(out, 0xa5, sizeof out);
                size_t most = room < 16 || room % 8 ? 0 : room - 8 - room % 3;
                if (aes && most) {
                    is("wrap_padded", aeadkit_wrap_padded(key, k, text, most, wrapped, room) == AEADKIT_DONE);
                    memcpy(in, wrapped, room);
                    in[5] ^= (uint8_t)changed;
                }
                status = aeadkit_unwrap_padded(key, k, in, room, out, n, &length);
                is("the status of unwrap_padded", status == (!aes ? AEADKIT_KEY_LENGTH : room < 16 || room % 8 ? AEADKIT_WRAP_LENGTH
                                                             : n != room - 8 ? AEADKIT_OUTPUT_LENGTH
                                                             : changed ? AEADKIT_WRAP_INTEGRITY : AEADKIT_DONE));
                is("the text's length", length == (status == AEADKIT_DONE ? most : 99));
                if (status == AEADKIT_DONE) is("the text and zeros", !memcmp(out, text, most) && all(out + most, n - most, 0));
                else is("what unwrap_padded leaves", all(out, n, status == AEADKIT_WRAP_INTEGRITY ? 0 : 0xa5));
                is("behind the padded text", all(out + n, sizeof out - n, 0xa5));
            }
    if (vast) {
        size_t length = 99, past = (size_t)1 << 32;
        memset(out, 0xa5, sizeof out);
        is("a text of 2^32 bytes", aeadkit_wrap_padded(key, 16, vast, past, out, 3) == AEADKIT_TEXT_TOO_LONG);
        is("a wrapping of 2^32 + 16 bytes", aeadkit_unwrap_padded(key, 16, vast, past + 16, out, 3, &length) == AEADKIT_TEXT_TOO_LONG);
        is("the longest wrapping", aeadkit_unwrap_padded(key, 16, vast, past + 8, out, 3, &length) == AEADKIT_OUTPUT_LENGTH);
        is("nothing is written at long texts", all(out, sizeof out, 0xa5) && length == 99);
    }
}

/* ---- NULL with length 0, wherever a pointer has a length ---- */

static void nothing(void) {
    static const uint8_t zeros[32] = {0};
    uint8_t tag[16] = {0}, sealed[16];
    size_t length = 99;
    struct aeadkit_key kept;
    struct aeadkit_sealer sealer;
    struct aeadkit_opener opener;
    struct aeadkit_siv siv;
    for (uint32_t suite = 1; suite <= SUITES; suite++) {
        size_t k = key_lengths[suite];
        is("no key to keep", aeadkit_key_init(&kept, suite, NULL, 0) == AEADKIT_KEY_LENGTH && all(&kept, sizeof kept, 0));
        is("key_init", aeadkit_key_init(&kept, suite, zeros, k) == AEADKIT_DONE);
        is("seal in place under no key", aeadkit_seal_in_place(suite, NULL, 0, NULL, 0, NULL, 0, NULL, 0, tag) == AEADKIT_KEY_LENGTH);
        is("open in place under no key", aeadkit_open_in_place(suite, NULL, 0, NULL, 0, NULL, 0, NULL, 0, tag) == AEADKIT_KEY_LENGTH);
        is("seal under no key", aeadkit_seal(suite, NULL, 0, NULL, 0, NULL, 0, NULL, 0, NULL, 0) == AEADKIT_KEY_LENGTH);
        is("open under no key", aeadkit_open(suite, NULL, 0, NULL, 0, NULL, 0, NULL, 0, NULL, 0) == AEADKIT_KEY_LENGTH);
        is("seal in place with no nonce", aeadkit_seal_in_place(suite, zeros, k, NULL, 0, NULL, 0, NULL, 0, tag) == AEADKIT_NONCE_LENGTH);
        is("open with no nonce", aeadkit_open(suite, zeros, k, NULL, 0, NULL, 0, NULL, 0, NULL, 0) == AEADKIT_NONCE_LENGTH);
        is("no sealing", aeadkit_open(suite, zeros, k, zeros, 12, NULL, 0, NULL, 0, NULL, 0) == AEADKIT_TOO_SHORT);
        is("no sealing under a kept key", aeadkit_open_with(&kept, zeros, 12, NULL, 0, NULL, 0, NULL, 0) == AEADKIT_TOO_SHORT);
        is("no room for a sealing", aeadkit_seal(suite, zeros, k, zeros, 12, NULL, 0, NULL, 0, NULL, 0) == AEADKIT_OUTPUT_LENGTH);
        is("no room under a kept key", aeadkit_seal_with(&kept, zeros, 12, NULL, 0, NULL, 0, NULL, 0) == AEADKIT_OUTPUT_LENGTH);
        is("seal nothing in place", aeadkit_seal_in_place(suite, zeros, k, zeros, 12, NULL, 0, NULL, 0, tag) == AEADKIT_DONE);
        is("open nothing in place", aeadkit_open_in_place(suite, zeros, k, zeros, 12, NULL, 0, NULL, 0, tag) == AEADKIT_DONE);
        is("seal nothing", aeadkit_seal(suite, zeros, k, zeros, 12, NULL, 0, NULL, 0, sealed, 16) == AEADKIT_DONE);
        is("open nothing", aeadkit_open(suite, zeros, k, zeros, 12, sealed, 16, NULL, 0, NULL, 0) == AEADKIT_DONE);
        is("its tag", !memcmp(sealed, tag, 16));
        is("seal nothing in place with", aeadkit_seal_in_place_with(&kept, zeros, 12, NULL, 0, NULL, 0, tag) == AEADKIT_DONE);
        is("open nothing in place with", aeadkit_open_in_place_with(&kept, zeros, 12, NULL, 0, NULL, 0, tag) == AEADKIT_DONE);
        is("seal nothing with", aeadkit_seal_with(&kept, zeros, 12, NULL, 0, NULL, 0, sealed, 16) == AEADKIT_DONE);
        is("open nothing with", aeadkit_open_with(&kept, zeros, 12, sealed, 16, NULL, 0, NULL, 0) == AEADKIT_DONE);
        is("no nonce with a kept key", aeadkit_seal_in_place_with(&kept, NULL, 0, NULL, 0, NULL, 0, tag) == AEADKIT_NONCE_LENGTH
                                           && aeadkit_open_in_place_with(&kept, NULL, 0, NULL, 0, NULL, 0, tag) == AEADKIT_NONCE_LENGTH
                                           && aeadkit_seal_with(&kept, NULL, 0, NULL, 0, NULL, 0, NULL, 0) == AEADKIT_NONCE_LENGTH
                                           && aeadkit_open_with(&kept, NULL, 0, NULL, 0, NULL, 0, NULL, 0) == AEADKIT_NONCE_LENGTH);
        if (suite < 5) {
            is("a sealer of no key", aeadkit_sealer_init(&sealer, suite, NULL, 0, NULL, 0, NULL, 0) == AEADKIT_KEY_LENGTH);
            is("a sealer of no nonce", aeadkit_sealer_init_with(&sealer, &kept, NULL, 0, NULL, 0) == AEADKIT_NONCE_LENGTH);
            is("sealer_init", aeadkit_sealer_init(&sealer, suite, zeros, k, zeros, 12, NULL, 0) == AEADKIT_DONE);
            is("sealer_init_with", aeadkit_sealer_init_with(&sealer, &kept, zeros, 12, NULL, 0) == AEADKIT_DONE);
            is("no piece", aeadkit_sealer_update(&sealer, NULL, 0) == AEADKIT_DONE);
            is("finish", aeadkit_sealer_finish(&sealer, sealed) == AEADKIT_DONE && !memcmp(sealed, tag, 16));
        } else {
            is("a siv of no key", aeadkit_siv_init(&siv, suite, NULL, 0, NULL, 0, NULL, 0) == AEADKIT_KEY_LENGTH);
            is("a siv of no nonce", aeadkit_siv_init_with(&siv, &kept, NULL, 0, NULL, 0) == AEADKIT_NONCE_LENGTH);
            is("siv_init", aeadkit_siv_init(&siv, suite, zeros, k, zeros, 12, NULL, 0) == AEADKIT_DONE);
            is("siv_init_with", aeadkit_siv_init_with(&siv, &kept, zeros, 12, NULL, 0) == AEADKIT_DONE);
            is("nothing to absorb", aeadkit_siv_absorb(&siv, NULL, 0) == AEADKIT_DONE);
            is("siv_begin_second", aeadkit_siv_begin_second(&siv, sealed) == AEADKIT_DONE && !memcmp(sealed, tag, 16));
            is("nothing to update", aeadkit_siv_update(&siv, NULL, 0) == AEADKIT_DONE);
            is("siv_finish", aeadkit_siv_finish(&siv) == AEADKIT_DONE);
        }
        is("an opener of no key", aeadkit_opener_init(&opener, suite, NULL, 0, NULL, 0, NULL, 0, tag) == AEADKIT_KEY_LENGTH);
        is("an opener of no nonce", aeadkit_opener_init_with(&opener, &kept, NULL, 0, NULL, 0, tag) == AEADKIT_NONCE_LENGTH);
        is("opener_init", aeadkit_opener_init(&opener, suite, zeros, k, zeros, 12, NULL, 0, tag) == AEADKIT_DONE);
        is("opener_init_with", aeadkit_opener_init_with(&opener, &kept, zeros, 12, NULL, 0, tag) == AEADKIT_DONE);
        is("nothing to check", aeadkit_opener_check(&opener, NULL, 0) == AEADKIT_DONE);
        is("opener_begin_second", aeadkit_opener_begin_second(&opener) == AEADKIT_DONE);
        is("no piece to open", aeadkit_opener_update(&opener, NULL, 0) == AEADKIT_DONE);
        is("opener_finish", aeadkit_opener_finish(&opener) == AEADKIT_DONE);
    }
    is("wrap under no key", aeadkit_wrap(NULL, 0, NULL, 0, NULL, 0) == AEADKIT_KEY_LENGTH);
    is("wrap nothing", aeadkit_wrap(zeros, 16, NULL, 0, NULL, 0) == AEADKIT_WRAP_LENGTH);
    is("wrap to nothing", aeadkit_wrap(zeros, 16, zeros, 16, NULL, 0) == AEADKIT_OUTPUT_LENGTH);
    is("unwrap under no key", aeadkit_unwrap(NULL, 0, NULL, 0, NULL, 0) == AEADKIT_KEY_LENGTH);
    is("unwrap nothing", aeadkit_unwrap(zeros, 16, NULL, 0, NULL, 0) == AEADKIT_WRAP_LENGTH);
    is("unwrap to nothing", aeadkit_unwrap(zeros, 16, zeros, 24, NULL, 0) == AEADKIT_OUTPUT_LENGTH);
    is("wrap_padded under no key", aeadkit_wrap_padded(NULL, 0, NULL, 0, NULL, 0) == AEADKIT_KEY_LENGTH);
    is("wrap_padded nothing", aeadkit_wrap_padded(zeros, 16, NULL, 0, NULL, 0) == AEADKIT_WRAP_LENGTH);
    is("wrap_padded to nothing", aeadkit_wrap_padded(zeros, 16, zeros, 1, NULL, 0) == AEADKIT_OUTPUT_LENGTH);
    is("unwrap_padded under no key", aeadkit_unwrap_padded(NULL, 0, NULL, 0, NULL, 0, &length) == AEADKIT_KEY_LENGTH);
    is("unwrap_padded nothing", aeadkit_unwrap_padded(zeros, 16, NULL, 0, NULL, 0, &length) == AEADKIT_WRAP_LENGTH);
    is("unwrap_padded to nothing", aeadkit_unwrap_padded(zeros, 16, zeros, 16, NULL, 0, &length) == AEADKIT_OUTPUT_LENGTH);
    is("no length", length == 99);
}

/* ---- facts, and wiping ---- */

static void facts(void) {
    static const char *const texts[19] = {
        "done", "wrong key length", "wrong nonce length", "text too long", "associated data too long", "too short",
        "authentication failed", "wrong length for wrapping", "unwrapping failed", "", "", "", "", "source changed",
        "unknown suite", "not begun", "wrong output length", "overlapping output", ""};
    for (uint32_t suite = 0; suite < 9; suite++) {
        int known = suite > 0 && suite <= SUITES;
        is("a key's length", aeadkit_key_length(suite) == (known ? key_lengths[suite] : 0));
        is("a text's limit", aeadkit_text_limit(suite) == (!known ? 0 : suite == 1 ? chacha_limit : suite < 5 ? gcm_limit : siv_limit));
        is("a limit of associated data", aeadkit_aad_limit(suite) == (!known ? 0 : suite == 1 ? UINT64_MAX
                                                                      : suite < 5 ? ((uint64_t)1 << 61) - 1 : siv_limit));
    }
    is("the largest number is not a suite", aeadkit_key_length(UINT32_MAX) == 0 && aeadkit_text_limit(UINT32_MAX) == 0
                                             && aeadkit_aad_limit(UINT32_MAX) == 0);
    for (uint32_t status = 0; status < 19; status++)
        is("a status's string", !strcmp(aeadkit_status_string(status), *texts[status] ? texts[status] : "unknown status"));
    is("the largest number is not a status", !strcmp(aeadkit_status_string(UINT32_MAX), "unknown status"));
    unsigned major = 0, minor = 0, patch = 0;
    is("the header's version", sscanf(AEADKIT_VERSION, "%u.%u.%u", &major, &minor, &patch) == 3 && major == AEADKIT_VERSION_MAJOR
                                   && minor == AEADKIT_VERSION_MINOR && patch == AEADKIT_VERSION_PATCH);
    is("the library's version", aeadkit_version() == AEADKIT_VERSION_NUMBER);
    is("sizes", aeadkit_sealer_size() == AEADKIT_SEALER_BYTES && aeadkit_opener_size() == AEADKIT_OPENER_BYTES
                    && aeadkit_siv_size() == AEADKIT_SIV_BYTES && aeadkit_key_size() == AEADKIT_KEPT_KEY_BYTES);
    is("structs", sizeof(struct aeadkit_sealer) == AEADKIT_SEALER_BYTES && sizeof(struct aeadkit_opener) == AEADKIT_OPENER_BYTES
                      && sizeof(struct aeadkit_siv) == AEADKIT_SIV_BYTES && sizeof(struct aeadkit_key) == AEADKIT_KEPT_KEY_BYTES);
}

/* A wiped struct is zeros to its last byte, whatever it held: anything, or a key or a message under a suite. */
static void wiping(void) {
    static const uint8_t zeros[32] = {0};
    struct {
        uint64_t before[2];
        struct aeadkit_key kept;
        uint64_t after_key[2];
        struct aeadkit_sealer sealer;
        uint64_t after_sealer[2];
        struct aeadkit_opener opener;
        uint64_t after_opener[2];
        struct aeadkit_siv siv;
        uint64_t after[2];
    } held;
    for (uint32_t suite = 0; suite <= SUITES; suite++) {
        size_t k = key_lengths[suite];
        memset(&held, 0xa5, sizeof held);
        if (suite) {
            is("begin", aeadkit_key_init(&held.kept, suite, zeros, k) == AEADKIT_DONE
                            && aeadkit_opener_init(&held.opener, suite, zeros, k, zeros, 12, "aad", 3, zeros) == AEADKIT_DONE
                            && (suite > 4 || aeadkit_sealer_init(&held.sealer, suite, zeros, k, zeros, 12, "aad", 3) == AEADKIT_DONE)
                            && (suite < 5 || aeadkit_siv_init(&held.siv, suite, zeros, k, zeros, 12, "aad", 3) == AEADKIT_DONE));
        }
        aeadkit_key_wipe(&held.kept);
        aeadkit_sealer_wipe(&held.sealer);
        aeadkit_opener_wipe(&held.opener);
        aeadkit_siv_wipe(&held.siv);
        aeadkit_wipe(held.before, 8);
        aeadkit_wipe(NULL, 0);
        is("wiped to its end", all(held.before, 8, 0) && all((const uint8_t *)held.before + 8, 8, 0xa5));
        memset(held.before, 0xa5, 8);
        is("wiped", all(&held.kept, sizeof held.kept, 0) && all(&held.sealer, sizeof held.sealer, 0)
                        && all(&held.opener, sizeof held.opener, 0) && all(&held.siv, sizeof held.siv, 0));
        is("beside what is wiped", all(held.before, 16, 0xa5) && all(held.after_key, 16, 0xa5) && all(held.after_sealer, 16, 0xa5)
                                       && all(held.after_opener, 16, 0xa5) && all(held.after, 16, 0xa5));
    }
}

int main(void) {
    void *room = mmap(NULL, vast_length, PROT_READ | PROT_WRITE, MAP_PRIVATE | MAP_ANONYMOUS | MAP_NORESERVE, -1, 0);
    if (room != MAP_FAILED) vast = (uint8_t *)room;
    sealing();
    wrapping();
    two_readings();
    whole_messages();
    output_lengths();
    wrap_lengths();
    nothing();
    facts();
    wiping();
    if (!vast) printf("left out: texts past the limits, no room for them\n");
    return wrong;
}

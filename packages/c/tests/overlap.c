/* Moves the output of each call that writes beside what it reads along everything else that the call is given. Where they share a
   byte the status is OVERLAP and every byte is as it was; where they only touch, or one is empty, the result is right. It prints a
   line, or what is wrong, and then exits with 1. */
#include "aeadkit.h"
#include <stdio.h>
#include <stdlib.h>
#include <string.h>

enum call { SEAL, OPEN, SEAL_WITH, OPEN_WITH, WRAP, UNWRAP, WRAP_PADDED, UNWRAP_PADDED, CALLS };
enum argument { KEY, NONCE, IN, AAD, LENGTH, ARGUMENTS }; /* LENGTH is where unwrap_padded writes the length of its text */
enum { AWAY = 40, LONGEST = 5000, SIZE = 8 * LONGEST };

static uint64_t words[SIZE / 8];
static uint8_t *const memory = (uint8_t *)words;
static uint8_t before[SIZE], wanted[LONGEST + 16];
static const uint8_t key[32] = {1};
static size_t refusals, results;

/* A call but for the place of its output. */
static struct {
    enum call call;
    uint32_t suite; /* or the length of the key that wraps */
    uint8_t *at[ARGUMENTS];
    size_t length[ARGUMENTS], output_length, text_length, used; /* and how much of the memory is in use */
} m;

static uint32_t status_of(uint8_t *out) {
    uint8_t **p = m.at, *text = p[IN];
    size_t *n = m.length, length = n[IN], room = m.output_length;
    const struct aeadkit_key *kept = (const struct aeadkit_key *)(void *)p[KEY];
    switch (m.call) {
    case SEAL: return aeadkit_seal(m.suite, p[KEY], n[KEY], p[NONCE], n[NONCE], text, length, p[AAD], n[AAD], out, room);
    case OPEN: return aeadkit_open(m.suite, p[KEY], n[KEY], p[NONCE], n[NONCE], text, length, p[AAD], n[AAD], out, room);
    case SEAL_WITH: return aeadkit_seal_with(kept, p[NONCE], n[NONCE], text, length, p[AAD], n[AAD], out, room);
    case OPEN_WITH: return aeadkit_open_with(kept, p[NONCE], n[NONCE], text, length, p[AAD], n[AAD], out, room);
    case WRAP: return aeadkit_wrap(p[KEY], n[KEY], text, length, out, room);
    case UNWRAP: return aeadkit_unwrap(p[KEY], n[KEY], text, length, out, room);
    case WRAP_PADDED: return aeadkit_wrap_padded(p[KEY], n[KEY], text, length, out, room);
    default: return aeadkit_unwrap_padded(p[KEY], n[KEY], text, length, out, room, (size_t *)(void *)p[LENGTH]);
    }
}

static void is(const char *what, int holds, long shift) {
    if (holds) return;
    printf("wrong: %s, call %d, suite %u, text of %zu bytes, output moved by %ld\n", what, (int)m.call, (unsigned)m.suite,
           m.text_length, shift);
    exit(1);
}

static int wraps(void) { return m.call >= WRAP; }

/* Lays out a call over a text of `n` bytes and so much associated data, and finds its result. */
static void set(enum call call, uint32_t suite, size_t n, size_t aad_length) {
    size_t padded = (n + 7) / 8 * 8, sealed_length = call < WRAP ? n + 16 : padded + 8, gap = padded + 16 + 2 * AWAY;
    uint8_t text[LONGEST + 16], sealed[LONGEST + 16];
    int opens = call % 2, with = call == SEAL_WITH || call == OPEN_WITH;
    m.call = call, m.suite = suite, m.text_length = n, m.used = 0;
    m.length[KEY] = wraps() ? suite : with ? AEADKIT_KEPT_KEY_BYTES : aeadkit_key_length(suite);
    m.length[NONCE] = wraps() ? 0 : 12;
    m.length[IN] = opens ? sealed_length : n;
    m.length[AAD] = wraps() ? 0 : aad_length;
    m.length[LENGTH] = call == UNWRAP_PADDED ? 8 : 0;
    m.output_length = !opens ? sealed_length : wraps() ? padded : n;
    for (int i = 0; i < ARGUMENTS; i++) {
        m.at[i] = memory + m.used + gap;
        m.used += gap + (m.length[i] + 7) / 8 * 8;
    }
    m.used += gap;
    for (size_t i = 0; i < m.used; i++) memory[i] = (uint8_t)(i * 31 + i / 7);
    for (size_t i = 0; i < n; i++) text[i] = (uint8_t)(i * 7 + 3);
    memset(text + n, 0, 8);
    memcpy(m.at[KEY], key, 32);
    if (!wraps()) {
        size_t k = aeadkit_key_length(suite);
        is("seal", aeadkit_seal(suite, key, k, m.at[NONCE], 12, text, n, m.at[AAD], aad_length, sealed, n + 16) == 0, 0);
        if (with) is("key_init", aeadkit_key_init((struct aeadkit_key *)(void *)m.at[KEY], suite, key, k) == AEADKIT_DONE, 0);
    } else if (call < WRAP_PADDED) is("wrap", aeadkit_wrap(key, suite, text, n, sealed, n + 8) == AEADKIT_DONE, 0);
    else is("wrap_padded", aeadkit_wrap_padded(key, suite, text, n, sealed, padded + 8) == AEADKIT_DONE, 0);
    memcpy(m.at[IN], opens ? sealed : text, m.length[IN]);
    memcpy(wanted, opens ? text : sealed, m.output_length);
}

static int share(const uint8_t *a, size_t a_length, const uint8_t *b, size_t b_length) {
    return a_length && b_length && a < b + b_length && b < a + a_length;
}

/* Makes the call with its output there. */
static void write_to(uint8_t *out, long shift) {
    int shared = share(m.at[LENGTH], m.length[LENGTH], m.at[KEY], m.length[KEY])
                 || share(m.at[LENGTH], m.length[LENGTH], m.at[IN], m.length[IN]);
    for (int i = 0; i < ARGUMENTS; i++) shared |= share(out, m.output_length, m.at[i], m.length[i]);
    memcpy(before, memory, m.used);
    uint32_t status = status_of(out);
    is("the status", status == (shared ? AEADKIT_OVERLAP : AEADKIT_DONE), shift);
    if (!shared) {
        is("the result", !memcmp(out, wanted, m.output_length), shift);
        if (m.call == UNWRAP_PADDED) is("its length", *(size_t *)(void *)m.at[LENGTH] == m.text_length, shift);
        memcpy(out, before + (out - memory), m.output_length);
        memcpy(m.at[LENGTH], before + (m.at[LENGTH] - memory), m.length[LENGTH]);
    }
    is("other bytes", !memcmp(memory, before, m.used), shift);
    *(shared ? &refusals : &results) += 1;
}

/* Moves the output along an argument: about its first byte, and to where they touch. */
static void move_along(enum argument along) {
    long length = (long)m.length[along], touching[4] = {-(long)m.output_length, 1 - (long)m.output_length, length - 1, length};
    for (long shift = -AWAY; shift <= AWAY; shift++) write_to(m.at[along] + shift, shift);
    for (int i = 0; i < 4; i++) write_to(m.at[along] + touching[i], touching[i]);
}

static void move_all(enum call call, uint32_t suite, size_t n) {
    for (size_t aad_length = 0; aad_length < 14; aad_length += 13) {
        set(call, suite, n, aad_length);
        for (int along = 0; along < ARGUMENTS; along++)
            if (m.length[along] || along == IN || (along == AAD && !wraps())) move_along((enum argument)along);
    }
}

/* The length that unwrap_padded writes, along the key and the wrapping. */
static void move_length(uint32_t key_length) {
    set(UNWRAP_PADDED, key_length, 61, 0);
    uint8_t *out = m.at[LENGTH] + 2 * AWAY;
    for (int along = KEY; along <= IN; along += IN)
        for (long shift = -AWAY; shift <= 80; shift += 8) {
            m.at[LENGTH] = m.at[along] + shift;
            write_to(out, shift);
        }
}

/* OVERLAP comes before any other status, and ranges that wrap round are ranges. */
static void order(enum call call, uint32_t suite) {
    for (int fault = 0; fault < 5; fault++) {
        set(call, suite, 40, 13);
        if (fault == 0) m.suite = 9;
        if (fault == 1) memset(m.at[KEY], 0, m.length[KEY]), m.length[KEY] = 5;
        if (fault == 2) m.length[NONCE] = 11;
        if (fault == 3) m.length[IN] = 9;
        if (fault == 4) m.output_length = 3;
        memcpy(before, memory, m.used);
        is("the order", status_of(m.at[IN] + 1) == AEADKIT_OVERLAP && !memcmp(memory, before, m.used), 1);
    }
    set(call, suite, 40, 13);
    m.length[IN] = 100 - (size_t)m.at[IN]; /* to the address 100 */
    is("a range that wraps round", status_of(m.at[IN] + 1) == AEADKIT_OVERLAP, 1);
    m.length[IN] = SIZE_MAX / 2 - 7;
    uint32_t status = status_of(m.at[IN] - 64);
    is("a range that does not", status != AEADKIT_OVERLAP && status != AEADKIT_DONE, -64);
}

/* A key along the struct that is to keep it. */
static void move_key(uint32_t suite) {
    size_t k = aeadkit_key_length(suite);
    struct aeadkit_key *kept = (struct aeadkit_key *)(void *)(memory + 1024);
    for (long shift = -(long)k; shift <= AEADKIT_KEPT_KEY_BYTES; shift++) {
        int shared = shift != -(long)k && shift != AEADKIT_KEPT_KEY_BYTES;
        memset(memory, 0xa5, 2048);
        memcpy(before, memory, 2048);
        uint32_t status = aeadkit_key_init(kept, suite, memory + 1024 + shift, k);
        is("the status of key_init", status == (shared ? AEADKIT_OVERLAP : AEADKIT_DONE), shift);
        is("a struct that keeps no key", !shared || !memcmp(memory, before, 2048), shift);
        *(shared ? &refusals : &results) += 1;
    }
}

int main(void) {
    for (uint32_t suite = 1; suite <= 6; suite++) move_key(suite);
    for (int call = SEAL; call < WRAP; call++)
        for (uint32_t suite = 1; suite <= 6; suite++) {
            for (size_t n = 1; n < LONGEST; n += n < 300 ? 1 : 97) {
                set((enum call)call, suite, n, 0);
                move_along(IN);
            }
            move_all((enum call)call, suite, 0);
            move_all((enum call)call, suite, 57);
            order((enum call)call, suite);
        }
    for (int call = WRAP; call < CALLS; call++)
        for (uint32_t key_length = 16; key_length <= 32; key_length += 8) {
            for (size_t n = 16; n < 150; n += 24) move_all((enum call)call, key_length, call < WRAP_PADDED ? n : n - n % 7);
            move_length(key_length);
        }
    printf("overlap: %zu outputs that overlap are refused, and %zu that do not are right\n", refusals, results);
    return 0;
}

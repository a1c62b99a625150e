/* The known code of known.c for AArch64. QEMU runs it on any machine, and memcheck on one for AArch64, or under QEMU. */
#include "known.h"
#include <arm_neon.h>
#include <string.h>

static uint8_t table[256], table2[256];
#define SEEN(x) __asm__ volatile("" : "+r"(x))

__attribute__((constructor)) static void fill_tables(void) {
    for (int i = 0; i < 256; i++) table[i] = (uint8_t)(i * 167 + 13), table2[i] = (uint8_t)(i * 91 + 7);
}

/* ---- Must not be found ---- */

/* A look-up in a table that stands in a register, as in the S-boxes of the library. */
static uint32_t good_tbl(const uint8_t *key, uint8_t *out, size_t n) {
    uint8x16_t t = vld1q_u8(table), mask = vdupq_n_u8(15);
    for (size_t i = 0; i + 16 <= n; i += 16) {
        uint8x16_t k = vld1q_u8(key + i);
        uint8x16_t low = vqtbl1q_u8(t, vandq_u8(k, mask)), high = vqtbl1q_u8(t, vshrq_n_u8(k, 4));
        vst1q_u8(out + i, vqtbl1q_u8(t, vandq_u8(veorq_u8(low, high), mask)));
    }
    return 0;
}

static uint32_t good_arx(const uint8_t *key, uint8_t *out, size_t n) {
    uint32_t w[8];
    (void)n;
    memcpy(w, key, 32);
    for (int i = 0; i < 20; i++) {
        w[0] += w[1], w[3] ^= w[0], w[3] = w[3] << 16 | w[3] >> 16;
        w[2] += w[3], w[1] ^= w[2], w[1] = w[1] << 12 | w[1] >> 20;
        w[4] += w[5], w[7] ^= w[4], w[7] = w[7] << 8 | w[7] >> 24;
    }
    memcpy(out, w, 32);
    return 0;
}

static uint32_t good_mask(const uint8_t *key, uint8_t *out, size_t n) {
    unsigned __int128 sum, product;
    uint64_t a, b;
    (void)n;
    memcpy(&a, key, 8), memcpy(&b, key + 8, 8), memcpy(&sum, key + 16, 16);
    product = (unsigned __int128)a * b;
    sum += product;
    uint64_t carry = sum < product, mask = -carry;
    SEEN(mask);
    sum ^= ((sum ^ (sum - 5)) & mask);
    memcpy(out, &sum, 16);
    return 0;
}

static uint32_t good_select(const uint8_t *key, uint8_t *out, size_t n) {
    uint64_t a, b, c, below;
    (void)n;
    memcpy(&a, key, 8), memcpy(&b, key + 8, 8);
    __asm__ volatile("cmp %2, %3\n\tcsel %0, %2, %3, lo\n\tcset %1, lo" : "=&r"(c), "=&r"(below) : "r"(a), "r"(b) : "cc");
    memcpy(out, &c, 8);
    out[8] = (uint8_t)below;
    return 0;
}

static uint32_t good_compare(const uint8_t *key, uint8_t *out, size_t n) {
    uint32_t difference = 0;
    (void)n;
    for (int i = 0; i < 16; i++) difference |= key[i] ^ key[16 + i];
    uint32_t same = (difference - 1) >> 31;
    SEEN(same);
    out[0] = (uint8_t)same;
    return 0;
}

static uint32_t good_public(const uint8_t *key, uint8_t *out, size_t n) {
    uint8_t copy[32];
    memcpy(copy, key, 32);
    __asm__ volatile("" :: "r"(copy) : "memory");
    memset(copy, 3, 32);
    __asm__ volatile("" :: "r"(copy) : "memory");
    for (size_t i = 0; i < n; i++) out[i] = table[copy[i]];
    return 0;
}

static uint32_t good_bit_of_length(const uint8_t *key, uint8_t *out, size_t n) {
    uint64_t x = 1, secret;
    memcpy(&secret, key, 8);
    __asm__ volatile("adds %1, %1, %1\n\ttbnz %2, #3, 1f\n\tadd %0, %0, #5\n1:" : "+r"(x), "+r"(secret) : "r"((uint64_t)n) : "cc");
    memcpy(out, &x, 8);
    return 0;
}

/* ---- Must be found ---- */

static uint32_t bad_table(const uint8_t *key, uint8_t *out, size_t n) {
    uint32_t y;
    (void)n;
    __asm__ volatile("ldrb %w0, [%1, %2]" : "=r"(y) : "r"(table), "r"((uint64_t)key[0]) : "memory");
    out[0] = (uint8_t)y;
    return 0;
}

static uint32_t bad_two_tables(const uint8_t *key, uint8_t *out, size_t n) {
    uint32_t y, z;
    (void)n;
    __asm__ volatile("ldrb %w0, [%2, %4]\n\tldrb %w1, [%3, %4]" : "=&r"(y), "=&r"(z)
                     : "r"(table), "r"(table2), "r"((uint64_t)key[0]) : "memory");
    out[0] = (uint8_t)(y ^ z);
    return 0;
}

static uint32_t bad_chain(const uint8_t *key, uint8_t *out, size_t n) {
    uint64_t x = key[0];
    (void)n;
    __asm__ volatile("ldrb %w0, [%1, %0]\n\tldrb %w0, [%1, %0]" : "+r"(x) : "r"(table) : "memory");
    out[0] = (uint8_t)x;
    return 0;
}

/* A vector that is loaded from a secret place. */
static uint32_t bad_vector(const uint8_t *key, uint8_t *out, size_t n) {
    (void)n;
    vst1q_u8(out, vld1q_u8(table + (key[0] & 127)));
    return 0;
}

static uint32_t bad_rare_after_table(const uint8_t *key, uint8_t *out, size_t n) {
    uint64_t x = key[0];
    uint32_t y;
    (void)n;
    __asm__ volatile("ldrb %w0, [%1, %2]\n\tcmp %2, #0xee\n\tb.eq 1f\n\tadd %w0, %w0, #5\n1:" : "=&r"(y) : "r"(table), "r"(x)
                     : "cc", "memory");
    out[0] = (uint8_t)y;
    return 0;
}

static uint32_t bad_store(const uint8_t *key, uint8_t *out, size_t n) {
    (void)n;
    __asm__ volatile("strb wzr, [%0, %1]" :: "r"(out), "r"((uint64_t)(key[0] & 63)) : "memory");
    return 0;
}

static uint32_t bad_branch(const uint8_t *key, uint8_t *out, size_t n) {
    uint64_t x = 1, k = key[0];
    (void)n;
    __asm__ volatile("tbz %1, #0, 1f\n\tadd %0, %0, #5\n1:" : "+r"(x) : "r"(k));
    out[0] = (uint8_t)x;
    return 0;
}

static uint32_t bad_rare_branch(const uint8_t *key, uint8_t *out, size_t n) {
    uint64_t x, y = 1;
    (void)n;
    memcpy(&x, key, 8);
    __asm__ volatile("cmn %1, #5\n\tb.lo 1f\n\tadd %0, %0, #5\n1:" : "+r"(y) : "r"(x) : "cc");
    memcpy(out, &y, 8);
    return 0;
}

static uint32_t bad_compare(const uint8_t *key, uint8_t *out, size_t n) {
    uint64_t i = 0, byte;
    (void)n;
    __asm__ volatile("1:\tldrb %w1, [%2, %0]\n\tands %w1, %w1, #3\n\tb.ne 2f\n\tadd %0, %0, #1\n\tcmp %0, #16\n\tb.lo 1b\n2:"
                     : "+r"(i), "=&r"(byte) : "r"(key) : "cc", "memory");
    out[0] = (uint8_t)i;
    return 0;
}

static uint32_t bad_loop(const uint8_t *key, uint8_t *out, size_t n) {
    uint64_t turns = key[0] & 7, x = 0;
    (void)n;
    __asm__ volatile("1:\tadd %0, %0, #3\n\tsubs %1, %1, #1\n\tb.pl 1b" : "+r"(x), "+r"(turns) :: "cc");
    out[0] = (uint8_t)x;
    return 0;
}

__attribute__((noinline)) static uint32_t one(uint32_t x) { return x + 1; }
__attribute__((noinline)) static uint32_t two(uint32_t x) { return x * 3; }

static uint32_t bad_jump(const uint8_t *key, uint8_t *out, size_t n) {
    static uint32_t (*const functions[])(uint32_t) = {one, two};
    uint32_t (*chosen)(uint32_t) = functions[key[0] & 1];
    (void)n;
    SEEN(chosen);
    out[0] = (uint8_t)chosen(key[1]);
    return 0;
}

const struct known known_code[] = {
    {"good_tbl", 0, 0, 0, 0, good_tbl},
    {"good_arx", 0, 0, 0, 0, good_arx},
    {"good_mask", 0, 0, 0, 0, good_mask},
    {"good_select", 0, 0, 0, 0, good_select},
    {"good_compare", 0, 0, 0, 0, good_compare},
    {"good_public", 0, 0, 0, 0, good_public},
    {"good_bit_of_length", 0, 0, 0, 0, good_bit_of_length},
    {"bad_table", 0, 1, 0, 1, bad_table},
    {"bad_two_tables", 0, 2, 0, 2, bad_two_tables},
    {"bad_chain", 0, 1, 0, 2, bad_chain},
    {"bad_vector", 0, 1, 0, 1, bad_vector},
    {"bad_rare_after_table", 1, 1, 0, 1, bad_rare_after_table},
    {"bad_store", 0, 1, 0, 1, bad_store},
    {"bad_branch", 1, 0, 1, 0, bad_branch},
    {"bad_rare_branch", 1, 0, 0, 0, bad_rare_branch},
    {"bad_compare", 1, 0, 1, 0, bad_compare},
    {"bad_loop", 1, 0, 1, 0, bad_loop},
    {"bad_jump", 0, 1, 1, 1, bad_jump},
    {NULL, 0, 0, 0, 0, NULL},
};

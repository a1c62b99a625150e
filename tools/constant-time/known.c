/* Known code for calls.c: what the check must find ('bad_..') and what it must let pass ('good_..'). The first argument is secret,
   `out` gets results, and `n` is public. Where the compiler could choose, the instruction is written out. */
#include "known.h"
#include <string.h>
#include <tmmintrin.h>
#define SEEN(x) __asm__ volatile("" : "+r"(x))

static uint8_t table[256], table2[256];
static volatile uint32_t sink;

__attribute__((constructor)) static void fill_tables(void) {
    for (int i = 0; i < 256; i++) table[i] = (uint8_t)(i * 167 + 13), table2[i] = (uint8_t)(i * 91 + 7);
}

/* ---- Must pass ---- */

/* As in vpaes: a table of 16 bytes in a register, indexed by secret nibbles. */
static uint32_t good_shuffle(const uint8_t *key, uint8_t *out, size_t n) {
    __m128i t = _mm_loadu_si128((const __m128i *)table), mask = _mm_set1_epi8(15);
    for (size_t i = 0; i + 16 <= n; i += 16) {
        __m128i k = _mm_loadu_si128((const __m128i *)(key + i));
        __m128i low = _mm_shuffle_epi8(t, _mm_and_si128(k, mask));
        __m128i high = _mm_shuffle_epi8(t, _mm_and_si128(_mm_srli_epi16(k, 4), mask));
        __m128i twice = _mm_shuffle_epi8(t, _mm_and_si128(_mm_xor_si128(low, high), mask));
        _mm_storeu_si128((__m128i *)(out + i), twice);
    }
    return 0;
}

/* The same in 32 bytes of AVX2. */
__attribute__((target("avx2"))) static uint32_t good_shuffle32(const uint8_t *key, uint8_t *out, size_t n) {
    (void)n;
    __asm__ volatile("vmovdqu (%0), %%ymm0\n\tvmovdqu (%1), %%ymm1\n\tvpshufb %%ymm1, %%ymm0, %%ymm2\n\t"
                     "vpermq $0x4e, %%ymm2, %%ymm2\n\tvmovdqu %%ymm2, (%2)\n\tvzeroupper"
                     :: "r"(table), "r"(key), "r"(out) : "xmm0", "xmm1", "xmm2", "memory");
    return 0;
}

/* As in ChaCha20. */
static uint32_t good_arx(const uint8_t *key, uint8_t *out, size_t n) {
    uint32_t w[8];
    (void)n;
    memcpy(w, key, 32);
    for (int i = 0; i < 20; i++) {
        w[0] += w[1], w[3] ^= w[0], w[3] = w[3] << 16 | w[3] >> 16;
        w[2] += w[3], w[1] ^= w[2], w[1] = w[1] << 12 | w[1] >> 20;
        w[4] += w[5], w[7] ^= w[4], w[7] = w[7] << 8 | w[7] >> 24;
    }
    memcpy(out, w, 32);
    return 0;
}

/* As in Poly1305: products, a carry, and a subtraction that a mask chooses. */
static uint32_t good_mask(const uint8_t *key, uint8_t *out, size_t n) {
    unsigned __int128 sum, product;
    uint64_t a, b;
    (void)n;
    memcpy(&a, key, 8), memcpy(&b, key + 8, 8), memcpy(&sum, key + 16, 16);
    product = (unsigned __int128)a * b;
    sum += product;
    uint64_t carry = sum < product, mask = -carry;
    SEEN(mask);
    sum ^= ((sum ^ (sum - 5)) & mask);
    memcpy(out, &sum, 16);
    return 0;
}

static uint32_t good_select(const uint8_t *key, uint8_t *out, size_t n) {
    uint64_t a, b, c = 17;
    uint8_t below;
    (void)n;
    memcpy(&a, key, 8), memcpy(&b, key + 8, 8);
    __asm__ volatile("cmp %3, %2\n\tcmovb %3, %0\n\tsetb %1" : "+r"(c), "=&q"(below) : "r"(a), "r"(b) : "cc");
    memcpy(out, &c, 8);
    out[8] = below;
    return 0;
}

/* All bytes before a decision, which is not taken here. */
static uint32_t good_compare(const uint8_t *key, uint8_t *out, size_t n) {
    uint32_t difference = 0;
    (void)n;
    for (int i = 0; i < 16; i++) difference |= key[i] ^ key[16 + i];
    uint32_t same = (difference - 1) >> 31;
    SEEN(same);
    out[0] = (uint8_t)same;
    return 0;
}

/* Bits of words, and bits of a vector moved to a register: no branch on them. */
static uint32_t good_bits(const uint8_t *key, uint8_t *out, size_t n) {
    __m128i k = _mm_loadu_si128((const __m128i *)key);
    uint32_t bits = (uint32_t)_mm_movemask_epi8(_mm_cmpeq_epi8(k, _mm_setzero_si128()));
    uint64_t x;
    (void)n;
    memcpy(&x, key, 8);
    x = x >> (bits & 7) | (uint64_t)bits << 32;
    __asm__ volatile("neg %0\n\tsbb %0, %0" : "+r"(x) :: "cc");
    memcpy(out, &x, 8);
    return 0;
}

/* A secret that is used only after it was overwritten, and a branch on a length. */
static uint32_t good_public(const uint8_t *key, uint8_t *out, size_t n) {
    uint8_t copy[32];
    memcpy(copy, key, 32);
    __asm__ volatile("" :: "r"(copy) : "memory");
    memset(copy, 3, 32);
    __asm__ volatile("" :: "r"(copy) : "memory");
    for (size_t i = 0; i < n; i++) out[i] = table[copy[i]];
    return 0;
}

/* A branch on a bit of a length, by an instruction that keeps the flags of secret numbers beside the one that it sets. */
static uint32_t good_bit_of_length(const uint8_t *key, uint8_t *out, size_t n) {
    uint64_t x = 1, secret;
    memcpy(&secret, key, 8);
    __asm__ volatile("add %1, %1\n\tbt %3, %2\n\tjc 1f\n\tlea 5(%0), %0\n1:" : "+r"(x), "+r"(secret)
                     : "r"((uint64_t)n), "r"((uint64_t)3) : "cc");
    memcpy(out, &x, 8);
    return 0;
}

/* ---- Must be found ---- */

/* As in a table of an AES round. */
static uint32_t bad_table(const uint8_t *key, uint8_t *out, size_t n) {
    uint32_t x = key[0], y;
    (void)n;
    __asm__ volatile("movzbl (%1,%2,1), %0" : "=r"(y) : "r"(table), "r"((uint64_t)x) : "memory");
    out[0] = (uint8_t)y;
    return 0;
}

/* Two tables at one index: memcheck reports an index once for a stretch of code, unless a stretch is one instruction. */
static uint32_t bad_two_tables(const uint8_t *key, uint8_t *out, size_t n) {
    uint32_t x = key[0], y, z;
    (void)n;
    __asm__ volatile("movzbl (%2,%4,1), %0\n\tmovzbl (%3,%4,1), %1" : "=&r"(y), "=&r"(z)
                     : "r"(table), "r"(table2), "r"((uint64_t)x) : "memory");
    out[0] = (uint8_t)(y ^ z);
    return 0;
}

/* The second index is what the first look-up found: memcheck takes it as public, and only the traces show it. */
static uint32_t bad_chain(const uint8_t *key, uint8_t *out, size_t n) {
    uint64_t x = key[0];
    (void)n;
    __asm__ volatile("movzbl (%1,%0,1), %k0\n\tmovzbl (%1,%0,1), %k0" : "+r"(x) : "r"(table) : "memory");
    out[0] = (uint8_t)x;
    return 0;
}

/* A look-up, and then a branch on the same register, which few secrets take: memcheck reports one of the two for a stretch of
   code, and no trace here shows the branch. */
static uint32_t bad_rare_after_table(const uint8_t *key, uint8_t *out, size_t n) {
    uint64_t x = key[0];
    uint32_t y;
    (void)n;
    __asm__ volatile("movzbl (%1,%2,1), %0\n\tcmp $0xee, %2\n\tje 1f\n\tadd $5, %0\n1:" : "=&r"(y) : "r"(table), "r"(x)
                     : "cc", "memory");
    out[0] = (uint8_t)y;
    return 0;
}

static uint32_t bad_store(const uint8_t *key, uint8_t *out, size_t n) {
    (void)n;
    __asm__ volatile("movb $1, (%0,%1,1)" :: "r"(out), "r"((uint64_t)(key[0] & 63)) : "memory");
    return 0;
}

static uint32_t bad_branch(const uint8_t *key, uint8_t *out, size_t n) {
    uint32_t x = 1;
    (void)n;
    __asm__ volatile("testb $1, (%1)\n\tjz 1f\n\taddl $5, %0\n1:" : "+r"(x) : "r"(key) : "cc", "memory");
    out[0] = (uint8_t)x;
    return 0;
}

/* A branch for one in 2^64 secrets: no trace shows it. */
static uint32_t bad_rare_branch(const uint8_t *key, uint8_t *out, size_t n) {
    uint64_t x, y = 1;
    (void)n;
    memcpy(&x, key, 8);
    __asm__ volatile("cmp $-5, %1\n\tjb 1f\n\tadd $5, %0\n1:" : "+r"(y) : "r"(x) : "cc");
    memcpy(out, &y, 8);
    return 0;
}

/* A comparison that ends at the first byte that differs. */
static uint32_t bad_compare(const uint8_t *key, uint8_t *out, size_t n) {
    uint64_t i = 0;
    uint8_t byte;
    (void)n;
    __asm__ volatile("1:\tmovb (%2,%0,1), %1\n\tandb $3, %1\n\tjnz 2f\n\tinc %0\n\tcmp $16, %0\n\tjb 1b\n2:"
                     : "+r"(i), "=&q"(byte) : "r"(key) : "cc", "memory");
    out[0] = (uint8_t)i;
    return 0;
}

static uint32_t bad_loop(const uint8_t *key, uint8_t *out, size_t n) {
    uint32_t turns = key[0] & 7, x = 0;
    (void)n;
    __asm__ volatile("1:\tadd $3, %0\n\tsub $1, %1\n\tjns 1b" : "+r"(x), "+r"(turns) :: "cc");
    out[0] = (uint8_t)x;
    return 0;
}

__attribute__((noinline)) static uint32_t one(uint32_t x) { return x + 1; }
__attribute__((noinline)) static uint32_t two(uint32_t x) { return x * 3; }

/* A call through a table of functions: the table is looked up at a secret index, and the jump goes to a secret place. */
static uint32_t bad_jump(const uint8_t *key, uint8_t *out, size_t n) {
    static uint32_t (*const functions[])(uint32_t) = {one, two};
    uint32_t (*chosen)(uint32_t) = functions[key[0] & 1];
    (void)n;
    SEEN(chosen);
    out[0] = (uint8_t)chosen(key[1]);
    return 0;
}

const struct known known_code[] = {
    {"good_shuffle", 0, 0, 0, 0, good_shuffle},
    {"good_shuffle32", 0, 0, 0, 0, good_shuffle32},
    {"good_arx", 0, 0, 0, 0, good_arx},
    {"good_mask", 0, 0, 0, 0, good_mask},
    {"good_select", 0, 0, 0, 0, good_select},
    {"good_compare", 0, 0, 0, 0, good_compare},
    {"good_bits", 0, 0, 0, 0, good_bits},
    {"good_public", 0, 0, 0, 0, good_public},
    {"good_bit_of_length", 0, 0, 0, 0, good_bit_of_length},
    {"bad_table", 0, 1, 0, 1, bad_table},
    {"bad_two_tables", 0, 2, 0, 2, bad_two_tables},
    {"bad_chain", 0, 1, 0, 2, bad_chain},
    {"bad_rare_after_table", 1, 1, 0, 1, bad_rare_after_table},
    {"bad_store", 0, 1, 0, 1, bad_store},
    {"bad_branch", 1, 0, 1, 0, bad_branch},
    {"bad_rare_branch", 1, 0, 0, 0, bad_rare_branch},
    {"bad_compare", 1, 0, 1, 0, bad_compare},
    {"bad_loop", 1, 0, 1, 0, bad_loop},
    {"bad_jump", 0, 1, 1, 1, bad_jump},
    {NULL, 0, 0, 0, 0, NULL},
};

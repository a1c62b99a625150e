/* Measures the stack that each call takes, under every suite, with texts and pieces of several lengths and also where it
   refuses, and fails if that is more than AEADKIT_STACK_BYTES. The calls are made in a thread whose whole stack is 32 KiB, or the
   least that the C library allows. It prints what is wrong, or with the word `print`, in a thread of 256 KiB, what each call took.

   Before a call the stack below the caller is painted. What is no longer paint afterwards was used; and the pages beyond the
   allowed bytes are closed, so that a touch which leaves the paint as it was ends the program. */
#define _DEFAULT_SOURCE
#include "aeadkit.h"
#include <pthread.h>
#include <stdio.h>
#include <stdlib.h>
#include <string.h>
#include <sys/mman.h>
#include <unistd.h>

enum { STACK = 1 << 15, PRINTING = 1 << 18, FRAME = 256, MOST = 1 << 16, NAMES = 64, COUNT = 7 };

static const uint64_t paint = 0x5bd1e995a3c59ac3;
static unsigned char *base, *lowest, *caller; /* the stack's end, the first byte that a call may use, where a call begins */
static int printing;
static size_t page; /* 4, 16 or 64 KiB on AArch64 */
static const char *wrong_status; /* the last call with a wrong status */
static struct {
    const char *call;
    size_t most;
} took[NAMES];

/* Closes what a call may not use, and paints the rest; FRAME bytes are this function's own. */
__attribute__((noinline)) static void before(void) {
    caller = (unsigned char *)__builtin_frame_address(0);
    lowest = base;
    if (!printing && caller - base > AEADKIT_STACK_BYTES) {
        lowest += ((size_t)(caller - base) - AEADKIT_STACK_BYTES) / page * page;
        if (lowest > base && mprotect(base, (size_t)(lowest - base), PROT_NONE)) abort();
    }
    for (unsigned char *p = lowest; p < caller - FRAME; p += 8) *(volatile uint64_t *)p = paint;
}

/* Finds how deep the call went. */
__attribute__((noinline)) static void after(const char *call, int as_wanted) {
    unsigned char *p = lowest;
    while (p < caller - FRAME && *(uint64_t *)p == paint) p += 8;
    if (lowest > base && mprotect(base, (size_t)(lowest - base), PROT_READ | PROT_WRITE)) abort();
    size_t depth = (size_t)(caller - p), length = strcspn(call, "("), i = 0;
    while (took[i].call && (strncmp(took[i].call, call, length) || took[i].call[length] != '(')) i++;
    took[i].call = call;
    if (took[i].most < depth) took[i].most = depth;
    if (!as_wanted) wrong_status = call;
}

/* Makes a call that has to return this number. */
#define TAKES(wanted, call)                         \
    do {                                            \
        size_t returned;                            \
        before();                                   \
        returned = (size_t)(call);                  \
        after(#call, returned == (size_t)(wanted)); \
    } while (0)

/* Makes a call that returns nothing. */
#define WIPES(call)      \
    do {                 \
        before();        \
        call;            \
        after(#call, 1); \
    } while (0)

static const size_t key_lengths[7] = {0, 32, 16, 24, 32, 16, 32};
static size_t aad_length;
static uint8_t key[32], nonce[12], aad[MOST], bytes[MOST + 16], others[MOST + 16], tag[16];
static struct aeadkit_key kept;
static struct aeadkit_sealer sealer;
static struct aeadkit_opener opener;
static struct aeadkit_siv siv;

static void whole(uint32_t suite, size_t n) {
    size_t k = key_lengths[suite];
    TAKES(0, aeadkit_key_init(&kept, suite, key, k));
    for (uint8_t changed = 0; changed < 2; changed++) {
        uint32_t opens = changed ? AEADKIT_TAG_MISMATCH : AEADKIT_DONE;
        TAKES(0, aeadkit_seal_in_place(suite, key, k, nonce, 12, bytes, n, aad, aad_length, tag));
        tag[0] ^= changed;
        TAKES(opens, aeadkit_open_in_place(suite, key, k, nonce, 12, bytes, n, aad, aad_length, tag));
        TAKES(0, aeadkit_seal_in_place_with(&kept, nonce, 12, bytes, n, aad, aad_length, tag));
        tag[0] ^= changed;
        TAKES(opens, aeadkit_open_in_place_with(&kept, nonce, 12, bytes, n, aad, aad_length, tag));
        TAKES(0, aeadkit_seal(suite, key, k, nonce, 12, bytes, n, aad, aad_length, others, n + 16));
        others[n] ^= changed;
        TAKES(opens, aeadkit_open(suite, key, k, nonce, 12, others, n + 16, aad, aad_length, bytes, n));
        TAKES(0, aeadkit_seal_with(&kept, nonce, 12, bytes, n, aad, aad_length, others, n + 16));
        others[n] ^= changed;
        TAKES(opens, aeadkit_open_with(&kept, nonce, 12, others, n + 16, aad, aad_length, bytes, n));
    }
    TAKES(AEADKIT_OUTPUT_LENGTH, aeadkit_seal(suite, key, k, nonce, 12, bytes, n, aad, aad_length, others, n + 15));
}

static void wrapped(size_t k, size_t length) {
    size_t eights = length < 16 ? 16 : length / 8 * 8, text = length ? length : 1, padded = (text + 7) / 8 * 8;
    for (uint8_t changed = 0; changed < 2; changed++) {
        uint32_t unwraps = changed ? AEADKIT_WRAP_INTEGRITY : AEADKIT_DONE;
        TAKES(0, aeadkit_wrap(key, k, bytes, eights, others, eights + 8));
        others[9] ^= changed;
        TAKES(unwraps, aeadkit_unwrap(key, k, others, eights + 8, bytes, eights));
        TAKES(0, aeadkit_wrap_padded(key, k, bytes, text, others, padded + 8));
        others[9] ^= changed;
        TAKES(unwraps, aeadkit_unwrap_padded(key, k, others, padded + 8, bytes, padded, &text));
    }
}

/* A sealing of two pieces, of which the first has `lead` bytes. */
static void sealed(uint32_t suite, size_t lead, size_t n) {
    size_t k = key_lengths[suite];
    TAKES(0, aeadkit_key_init(&kept, suite, key, k));
    for (uint8_t changed = 0; changed < 2; changed++) {
        if (suite < 5) {
            if (changed) TAKES(0, aeadkit_sealer_init_with(&sealer, &kept, nonce, 12, aad, aad_length));
            else TAKES(0, aeadkit_sealer_init(&sealer, suite, key, k, nonce, 12, aad, aad_length));
            TAKES(0, aeadkit_sealer_update(&sealer, bytes, lead));
            TAKES(0, aeadkit_sealer_update(&sealer, bytes + lead, n - lead));
            TAKES(0, aeadkit_sealer_finish(&sealer, tag));
            continue;
        }
        if (changed) TAKES(0, aeadkit_siv_init_with(&siv, &kept, nonce, 12, aad, aad_length));
        else TAKES(0, aeadkit_siv_init(&siv, suite, key, k, nonce, 12, aad, aad_length));
        TAKES(0, aeadkit_siv_absorb(&siv, bytes, lead));
        TAKES(0, aeadkit_siv_absorb(&siv, bytes + lead, n - lead));
        TAKES(0, aeadkit_siv_begin_second(&siv, tag));
        bytes[0] ^= changed;
        TAKES(0, aeadkit_siv_update(&siv, bytes, lead));
        TAKES(0, aeadkit_siv_update(&siv, bytes + lead, n - lead));
        TAKES((changed && n ? AEADKIT_SOURCE_CHANGED : AEADKIT_DONE), aeadkit_siv_finish(&siv));
    }
}

/* An opening whose passes are cut in two: as it should be, with another tag, and with another second pass. */
static void opened(uint32_t suite, size_t lead, size_t n) {
    size_t k = key_lengths[suite];
    TAKES(0, aeadkit_key_init(&kept, suite, key, k));
    TAKES(0, aeadkit_seal(suite, key, k, nonce, 12, bytes, n, aad, aad_length, others, n + 16));
    for (int changed = 0; changed < 3; changed++) {
        memcpy(bytes, others, n);
        memcpy(tag, others + n, 16);
        tag[0] ^= changed == 1;
        bytes[0] ^= changed == 2;
        if (changed) TAKES(0, aeadkit_opener_init_with(&opener, &kept, nonce, 12, aad, aad_length, tag));
        else TAKES(0, aeadkit_opener_init(&opener, suite, key, k, nonce, 12, aad, aad_length, tag));
        TAKES(0, aeadkit_opener_check(&opener, others, lead));
        TAKES(0, aeadkit_opener_check(&opener, others + lead, n - lead));
        TAKES((changed == 1 ? AEADKIT_TAG_MISMATCH : AEADKIT_DONE), aeadkit_opener_begin_second(&opener));
        if (changed == 1) continue;
        TAKES(0, aeadkit_opener_update(&opener, bytes, lead));
        TAKES(0, aeadkit_opener_update(&opener, bytes + lead, n - lead));
        TAKES((changed && n ? AEADKIT_SOURCE_CHANGED : AEADKIT_DONE), aeadkit_opener_finish(&opener));
    }
}

static void the_rest(void) {
    uint32_t version = aeadkit_version();
    WIPES(aeadkit_key_wipe(&kept));
    WIPES(aeadkit_sealer_wipe(&sealer));
    WIPES(aeadkit_opener_wipe(&opener));
    WIPES(aeadkit_siv_wipe(&siv));
    WIPES(aeadkit_wipe(&siv, sizeof siv));
    TAKES(AEADKIT_SEALER_BYTES, aeadkit_sealer_size());
    TAKES(AEADKIT_OPENER_BYTES, aeadkit_opener_size());
    TAKES(AEADKIT_SIV_BYTES, aeadkit_siv_size());
    TAKES(AEADKIT_KEPT_KEY_BYTES, aeadkit_key_size());
    TAKES(32, aeadkit_key_length(AEADKIT_AES_256_GCM));
    TAKES((uint64_t)1 << 36, aeadkit_text_limit(AEADKIT_AES_256_GCM_SIV));
    TAKES((uint64_t)1 << 36, aeadkit_aad_limit(AEADKIT_AES_256_GCM_SIV));
    TAKES(version, aeadkit_version());
}

static void *every_call(void *nothing) {
    static const size_t lengths[COUNT] = {0, 1, 16, 100, 704, 4096, MOST};
    for (size_t i = 0; i < COUNT; i++) {
        for (size_t k = 16; k <= 32; k += 8) wrapped(k, lengths[i] < MOST ? lengths[i] : MOST - 8);
        for (size_t j = 0; j < COUNT; j++) {
            aad_length = lengths[j];
            for (uint32_t suite = 1; suite <= 6; suite++) {
                whole(suite, lengths[i]);
                sealed(suite, lengths[i] > 0, lengths[i]);
                sealed(suite, 0, lengths[i]);
                opened(suite, lengths[i] > 0, lengths[i]);
                opened(suite, 0, lengths[i]);
            }
        }
    }
    the_rest();
    return nothing;
}

int main(int count, char **words) {
    pthread_attr_t attributes;
    pthread_t thread;
    printing = count == 2 && !strcmp(words[1], "print");
    page = (size_t)sysconf(_SC_PAGESIZE);
    size_t size = printing ? PRINTING : STACK, least = (size_t)sysconf(_SC_THREAD_STACK_MIN);
    size = ((size < least ? least : size) + page - 1) / page * page;
    base = (unsigned char *)mmap(NULL, page + size, PROT_READ | PROT_WRITE, MAP_PRIVATE | MAP_ANONYMOUS, -1, 0);
    if (base == MAP_FAILED || mprotect(base, page, PROT_NONE) || pthread_attr_init(&attributes)
        || pthread_attr_setstack(&attributes, base + page, size)) {
        printf("wrong: no stack\n");
        return 1;
    }
    base += page;
    if (pthread_create(&thread, &attributes, every_call, NULL) || pthread_join(thread, NULL)) {
        printf("wrong: no thread\n");
        return 1;
    }
    int wrong = wrong_status != NULL;
    if (wrong) printf("wrong: the status of %s\n", wrong_status);
    for (size_t i = 0; i < NAMES && took[i].call; i++) {
        int length = (int)strcspn(took[i].call, "(");
        if (printing) printf("%6zu %.*s\n", took[i].most, length, took[i].call);
        if (printing || took[i].most <= AEADKIT_STACK_BYTES) continue;
        printf("wrong: %.*s takes %zu bytes of stack, and not at most %d\n", length, took[i].call, took[i].most, AEADKIT_STACK_BYTES);
        wrong = 1;
    }
    return wrong;
}

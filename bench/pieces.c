/* How long a text of 1 MiB takes whole and in pieces, by the library's calls in place: pieces prints lines as bench.c writes them
   behind --data, with `whole` or the length of a piece in the place of the party. bench.sh builds and runs it. */
#include "aeadkit.h"

#include <stdio.h>
#include <stdlib.h>
#include <time.h>

enum { TEXT = 1 << 20, ROUNDS = 25 };
static uint8_t text[TEXT], key[32], nonce[AEADKIT_NONCE_BYTES], tag[AEADKIT_TAG_BYTES];
static const size_t pieces[] = {TEXT, 1024, 16384, 65536};
static const char *const names[] = {"whole", "1 KiB", "16 KiB", "64 KiB"};
static const struct {
    const char *name;
    uint32_t suite;
} suites[] = {{"ChaCha20-Poly1305", AEADKIT_CHACHA20_POLY1305}, {"AES-128-GCM", AEADKIT_AES_128_GCM},
              {"AES-256-GCM", AEADKIT_AES_256_GCM}, {"AES-128-GCM-SIV", AEADKIT_AES_128_GCM_SIV},
              {"AES-256-GCM-SIV", AEADKIT_AES_256_GCM_SIV}};

static void done(uint32_t status) {
    if (status == AEADKIT_DONE) return;
    fprintf(stderr, "pieces: %s\n", aeadkit_status_string(status));
    exit(1);
}

static void seal(uint32_t suite, size_t length) {
    size_t of_key = aeadkit_key_length(suite);
    struct aeadkit_sealer sealer;
    struct aeadkit_siv siv;
    if (length == TEXT) {
        done(aeadkit_seal_in_place(suite, key, of_key, nonce, sizeof nonce, text, TEXT, NULL, 0, tag));
    } else if (suite == AEADKIT_AES_128_GCM_SIV || suite == AEADKIT_AES_256_GCM_SIV) {
        done(aeadkit_siv_init(&siv, suite, key, of_key, nonce, sizeof nonce, NULL, 0));
        for (size_t at = 0; at < TEXT; at += length) done(aeadkit_siv_absorb(&siv, text + at, length));
        done(aeadkit_siv_begin_second(&siv, tag));
        for (size_t at = 0; at < TEXT; at += length) done(aeadkit_siv_update(&siv, text + at, length));
        done(aeadkit_siv_finish(&siv));
    } else {
        done(aeadkit_sealer_init(&sealer, suite, key, of_key, nonce, sizeof nonce, NULL, 0));
        for (size_t at = 0; at < TEXT; at += length) done(aeadkit_sealer_update(&sealer, text + at, length));
        done(aeadkit_sealer_finish(&sealer, tag));
    }
}

static void open_again(uint32_t suite, size_t length) {
    size_t of_key = aeadkit_key_length(suite);
    struct aeadkit_opener opener;
    if (length == TEXT) {
        done(aeadkit_open_in_place(suite, key, of_key, nonce, sizeof nonce, text, TEXT, NULL, 0, tag));
    } else {
        done(aeadkit_opener_init(&opener, suite, key, of_key, nonce, sizeof nonce, NULL, 0, tag));
        for (size_t at = 0; at < TEXT; at += length) done(aeadkit_opener_check(&opener, text + at, length));
        done(aeadkit_opener_begin_second(&opener));
        for (size_t at = 0; at < TEXT; at += length) done(aeadkit_opener_update(&opener, text + at, length));
        done(aeadkit_opener_finish(&opener));
    }
}

/* Returns the processor time that the call took, in nanoseconds. */
static double took(void (*call)(uint32_t, size_t), uint32_t suite, size_t length) {
    struct timespec a, b;
    clock_gettime(CLOCK_PROCESS_CPUTIME_ID, &a);
    call(suite, length);
    clock_gettime(CLOCK_PROCESS_CPUTIME_ID, &b);
    return (double)(b.tv_sec - a.tv_sec) * 1e9 + (double)(b.tv_nsec - a.tv_nsec);
}

int main(void) {
    static double best[5][4][2];
    for (int turn = 0; turn < ROUNDS * 20; turn++) {
        int s = turn % 5, p = turn / 5 % 4;
        nonce[0]++;
        for (int opening = 0; opening < 2; opening++) {
            double time = took(opening ? open_again : seal, suites[s].suite, pieces[p]);
            if (turn < 20 || time < best[s][p][opening]) best[s][p][opening] = time;
        }
    }
    for (int row = 0; row < 40; row++)
        printf("%s\t%s\t%d\t%s\tplain\tpieces\t%.0f\n", suites[row / 8].name, row / 4 % 2 ? "opening" : "sealing", TEXT,
               names[row % 4], best[row / 8][row % 4][row / 4 % 2]);
    return 0;
}

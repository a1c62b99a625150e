/* The same calls as several compilers built them, in turns in one process: compilers BUILD NAME LIBRARY [BUILD NAME LIBRARY ..]
   It prints lines as docs/speed.tsv has them, with NAME as the party. bench.sh builds and runs it. */
#define _GNU_SOURCE
#include "aeadkit.h"

#include <dlfcn.h>
#include <stdio.h>
#include <stdlib.h>
#include <string.h>
#include <time.h>

enum { LIBRARIES = 8, LONGEST = 16384, ROUNDS = 60 };
static const size_t lengths[] = {16, 64, 256, 1024, 4096, LONGEST};
static const char *const kinds[] = {"", "ChaCha20-Poly1305", "AES-128-GCM", "AES-192-GCM", "AES-256-GCM", "AES-128-GCM-SIV", "AES-256-GCM-SIV"};
static uint8_t text[LONGEST], first[LONGEST], key[32], nonce[AEADKIT_NONCE_BYTES], tag[AEADKIT_TAG_BYTES];

static struct library {
    const char *build, *name;
    __typeof__(aeadkit_key_init) *key_init;
    __typeof__(aeadkit_seal_in_place) *seal;
    __typeof__(aeadkit_seal_in_place_with) *seal_with;
} libraries[LIBRARIES];

static void *found(void *library, const char *name) {
    void *function = library ? dlsym(library, name) : NULL;
    if (function) return function;
    fprintf(stderr, "compilers: %s\n", dlerror());
    exit(1);
}

/* Returns the nanoseconds of one sealing. */
static double takes(const struct library *it, uint32_t suite, const struct aeadkit_key *kept, size_t length, int times) {
    struct timespec a, b;
    uint32_t status = 0;
    size_t k = suite == 1 || suite == 4 || suite == 6 ? 32 : 16;
    clock_gettime(CLOCK_PROCESS_CPUTIME_ID, &a);
    for (int i = 0; i < times; i++) {
        nonce[0]++;
        status |= kept ? it->seal_with(kept, nonce, sizeof nonce, text, length, NULL, 0, tag)
                       : it->seal(suite, key, k, nonce, sizeof nonce, text, length, NULL, 0, tag);
    }
    clock_gettime(CLOCK_PROCESS_CPUTIME_ID, &b);
    if (status) exit(1);
    return ((double)(b.tv_sec - a.tv_sec) * 1e9 + (double)(b.tv_nsec - a.tv_nsec)) / times;
}

int main(int count, char **words) {
    static struct aeadkit_key kept[LIBRARIES];
    int n = (count - 1) / 3;
    for (int i = 0; i < n && i < LIBRARIES; i++) {
        void *library = dlopen(words[3 * i + 3], RTLD_NOW | RTLD_LOCAL);
        libraries[i].build = words[3 * i + 1], libraries[i].name = words[3 * i + 2];
        *(void **)&libraries[i].key_init = found(library, "aeadkit_key_init");
        *(void **)&libraries[i].seal = found(library, "aeadkit_seal_in_place");
        *(void **)&libraries[i].seal_with = found(library, "aeadkit_seal_in_place_with");
    }
    for (uint32_t suite = 1; suite <= 6; suite++) {
        if (suite == 3) continue;
        for (int i = 0; i < n; i++) {
            if (libraries[i].key_init(&kept[i], suite, key, suite == 1 || suite == 4 || suite == 6 ? 32 : 16)) return 1;
            memset(text, 0, sizeof text), nonce[0] = 0;
            takes(&libraries[i], suite, &kept[i], LONGEST, 1);
            if (i == 0) memcpy(first, text, sizeof text);
            if (memcmp(first, text, sizeof text)) return fprintf(stderr, "compilers: %s differs\n", libraries[i].name), 1;
        }
        for (int keeps = 0; keeps < 2; keeps++)
            for (size_t l = 0; l < sizeof lengths / sizeof *lengths; l++) {
                double best[LIBRARIES];
                for (int round = 0; round < ROUNDS; round++)
                    for (int i = 0; i < n; i++) {
                        double time = takes(&libraries[i], suite, keeps ? &kept[i] : NULL, lengths[l], 1 + (int)(20000 / (lengths[l] + 60)));
                        if (!round || time < best[i]) best[i] = time;
                    }
                for (int i = 0; i < n; i++)
                    printf("%s\t%s\tsealing\t%zu\t%s\tcompilers\t%s\t%.0f\n", libraries[i].build, kinds[suite], lengths[l],
                           libraries[i].name, keeps ? "kept" : "new", best[i]);
            }
    }
    return 0;
}

/* Threads that share one kept key: each seals its records under it, and then each opens them again: threads [RECORD]
   It prints how many records opened. With RECORD, from 0 to 3999, a byte of that record is changed in between: status 1. */
#define _DEFAULT_SOURCE
#include "aeadkit.h"
#include <pthread.h>
#include <stdio.h>
#include <stdlib.h>
#include <unistd.h>

enum { THREADS = 4, EACH = 1000, ALL = THREADS * EACH, TEXT = 100 };

static struct aeadkit_key shared; /* written by aeadkit_key_init before the threads begin, and only read by them */
static struct record {
    uint8_t text[TEXT], tag[AEADKIT_TAG_BYTES];
    uint32_t status;
} records[ALL];
static int opening;

static void *work(void *first) {
    for (struct record *r = (struct record *)first; r < (struct record *)first + EACH; r++) {
        /* The nonce is the number of the record. Each thread has its own records, so no nonce comes twice under the key. */
        uint64_t number = (uint64_t)(r - records);
        uint8_t nonce[AEADKIT_NONCE_BYTES] = {0};
        for (int i = 0; i < 8; i++) nonce[4 + i] = (uint8_t)(number >> (56 - 8 * i));
        if (opening)
            r->status = aeadkit_open_in_place_with(&shared, nonce, sizeof nonce, r->text, TEXT, NULL, 0, r->tag);
        else
            r->status = aeadkit_seal_in_place_with(&shared, nonce, sizeof nonce, r->text, TEXT, NULL, 0, r->tag);
    }
    return NULL;
}

/* Seals or opens all records; returns how many are done. */
static int in_threads(void) {
    pthread_t threads[THREADS];
    int done = 0;
    for (int i = 0; i < THREADS; i++)
        if (pthread_create(&threads[i], NULL, work, records + i * EACH)) exit(2);
    for (int i = 0; i < THREADS; i++) pthread_join(threads[i], NULL);
    for (int i = 0; i < ALL; i++) done += records[i].status == AEADKIT_DONE;
    return done;
}

int main(int count, char **words) {
    uint8_t key[32];
    if (getentropy(key, sizeof key) || aeadkit_key_init(&shared, AEADKIT_CHACHA20_POLY1305, key, sizeof key)) return 2;
    if (in_threads() != ALL) return 2;
    if (count > 1) records[(unsigned)atoi(words[1]) % ALL].text[0] ^= 1;
    opening = 1;
    int opened = in_threads();
    printf("%d of %d records opened\n", opened, ALL);
    aeadkit_key_wipe(&shared);
    return ferror(stdout) || fclose(stdout) || opened != ALL;
}

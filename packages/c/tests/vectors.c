/* Compares the library with a vector file, such as docs/published.vectors or docs/edges.vectors: vectors FILE. Each record is sealed and opened whole, under a
   new and a kept key, in place and in pieces, or wrapped and unwrapped; a record that says `invalid` has to be refused. */
#include "aeadkit.h"
#include <stdio.h>
#include <string.h>

enum { MOST = 1 << 12, FIELDS = 5 };
enum { KEY, NONCE, AAD, SEALED, TEXT };
static const char *const names[FIELDS] = {"key", "nonce", "aad", "sealed", "text"};
static const char *const suites[7] = {"", "chacha20-poly1305", "aes-128-gcm", "aes-192-gcm", "aes-256-gcm", "aes-128-gcm-siv",
                                      "aes-256-gcm-siv"};
static struct field {
    uint8_t bytes[MOST];
    size_t length;
} fields[FIELDS];
static char line[3 * MOST], suite[32], edge[160];
static uint8_t got[MOST];
static int records, wrong;

static void is(const char *what, int holds) {
    if (holds) return;
    wrong = 1;
    printf("wrong: record %d, %s, %s: %s\n", records, suite, edge, what);
}

static int same(const struct field *wanted) { return !memcmp(got, wanted->bytes, wanted->length); }

/* The length of the next piece: 1, 4, 7 .. and then the rest. */
static size_t piece(size_t at, size_t n) {
    static size_t last;
    last = at ? last + 3 : 1;
    return last < n - at ? last : n - at;
}

#define SUITE number, key->bytes, key->length, nonce->bytes, nonce->length
#define EACH_PIECE(call)                                      \
    for (size_t at = 0, length; at < n; at += length) {       \
        length = piece(at, n);                                \
        status |= (call);                                     \
    }

/* Seals or opens `got` in pieces. */
static uint32_t in_pieces(uint32_t number, int opens, size_t n, uint8_t *tag) {
    struct field *key = &fields[KEY], *nonce = &fields[NONCE], *aad = &fields[AAD];
    struct aeadkit_sealer sealer;
    struct aeadkit_siv siv;
    struct aeadkit_opener opener;
    uint32_t status;
    if (opens) {
        status = aeadkit_opener_init(&opener, SUITE, aad->bytes, aad->length, tag);
        EACH_PIECE(aeadkit_opener_check(&opener, got + at, length))
        status |= aeadkit_opener_begin_second(&opener);
        if (status) return status;
        EACH_PIECE(aeadkit_opener_update(&opener, got + at, length))
        return status | aeadkit_opener_finish(&opener);
    }
    if (number < 5) {
        status = aeadkit_sealer_init(&sealer, SUITE, aad->bytes, aad->length);
        EACH_PIECE(aeadkit_sealer_update(&sealer, got + at, length))
        return status | aeadkit_sealer_finish(&sealer, tag);
    }
    status = aeadkit_siv_init(&siv, SUITE, aad->bytes, aad->length);
    EACH_PIECE(aeadkit_siv_absorb(&siv, got + at, length))
    status |= aeadkit_siv_begin_second(&siv, tag);
    EACH_PIECE(aeadkit_siv_update(&siv, got + at, length))
    return status | aeadkit_siv_finish(&siv);
}

static void wrapping(int invalid) {
    struct field *key = &fields[KEY], *sealed = &fields[SEALED], *text = &fields[TEXT];
    int padded = strstr(suite, "-pad") != NULL;
    size_t room = sealed->length < 8 ? 0 : sealed->length - 8, length = room;
    uint32_t status = padded ? aeadkit_unwrap_padded(key->bytes, key->length, sealed->bytes, sealed->length, got, room, &length)
                             : aeadkit_unwrap(key->bytes, key->length, sealed->bytes, sealed->length, got, room);
    if (invalid) {
        is("unwraps", status != AEADKIT_DONE);
        return;
    }
    is("unwraps to another text", !status && length == text->length && same(text));
    status = padded ? aeadkit_wrap_padded(key->bytes, key->length, text->bytes, text->length, got, sealed->length)
                    : aeadkit_wrap(key->bytes, key->length, text->bytes, text->length, got, sealed->length);
    is("wraps to other bytes", !status && same(sealed));
}

static void sealing(uint32_t number, int invalid) {
    struct field *key = &fields[KEY], *nonce = &fields[NONCE], *aad = &fields[AAD], *sealed = &fields[SEALED], *text = &fields[TEXT];
    size_t n = sealed->length < 16 ? 0 : sealed->length - 16;
    struct aeadkit_key kept;
    uint32_t init = aeadkit_key_init(&kept, number, key->bytes, key->length);
    uint32_t whole = aeadkit_open(SUITE, sealed->bytes, sealed->length, aad->bytes, aad->length, got, n);
    if (invalid) {
        is("opens", whole != AEADKIT_DONE);
        is("opens under a kept key", init || aeadkit_open_with(&kept, nonce->bytes, nonce->length, sealed->bytes, sealed->length,
                                                               aad->bytes, aad->length, got, n));
        memcpy(got, sealed->bytes, sealed->length);
        is("opens in pieces", sealed->length < 16 || in_pieces(number, 1, n, got + n));
        return;
    }
    is("opens to another text", !init && !whole && n == text->length && same(text));
    memset(got, 0, sizeof got);
    is("opens to another text under a kept key",
       !aeadkit_open_with(&kept, nonce->bytes, nonce->length, sealed->bytes, n + 16, aad->bytes, aad->length, got, n) && same(text));
    is("seals to other bytes", !aeadkit_seal(SUITE, text->bytes, n, aad->bytes, aad->length, got, n + 16) && same(sealed));
    memset(got, 0, sizeof got);
    is("seals to other bytes under a kept key",
       !aeadkit_seal_with(&kept, nonce->bytes, nonce->length, text->bytes, n, aad->bytes, aad->length, got, n + 16) && same(sealed));
    memcpy(got, text->bytes, n);
    is("seals to other bytes in place", !aeadkit_seal_in_place(SUITE, got, n, aad->bytes, aad->length, got + n) && same(sealed));
    is("opens to another text in place", !aeadkit_open_in_place(SUITE, got, n, aad->bytes, aad->length, got + n) && same(text));
    is("seals to other bytes in pieces", !in_pieces(number, 0, n, got + n) && same(sealed));
    is("opens to another text in pieces", !in_pieces(number, 1, n, got + n) && same(text));
}

static void record(int invalid) {
    uint32_t number = 6;
    records++;
    if (strstr(suite, "-wrap")) {
        wrapping(invalid);
        return;
    }
    while (number && strcmp(suite, suites[number])) number--;
    if (number) sealing(number, invalid);
    else is("there is no such suite", 0);
}

/* Reads a line `name = value`. A text ends its record, and so does `invalid`. */
static void take(void) {
    char name[16] = "";
    int start = 0;
    if (line[0] == '#') sscanf(line, "# %159[^\n]", edge);
    if (sscanf(line, "%15[a-z] =%n", name, &start) < 1) return;
    if (!strcmp(name, "invalid")) record(1);
    if (!strcmp(name, "suite")) {
        sscanf(line + start, " %31s", suite);
        memset(fields, 0, sizeof fields);
    }
    for (int i = 0; i < FIELDS; i++) {
        if (strcmp(name, names[i])) continue;
        unsigned byte;
        const char *hex = line + start + strspn(line + start, " ");
        for (; fields[i].length < MOST && sscanf(hex, "%2x", &byte) == 1; hex += 2) fields[i].bytes[fields[i].length++] = (uint8_t)byte;
        if (i == TEXT) record(0);
    }
}

int main(int count, char **words) {
    FILE *file = count == 2 ? fopen(words[1], "r") : NULL;
    if (!file) {
        printf("wrong: no vector file\n");
        return 1;
    }
    while (fgets(line, sizeof line, file)) take();
    if (!records) wrong = 1;
    printf("%d records\n", records);
    return wrong;
}

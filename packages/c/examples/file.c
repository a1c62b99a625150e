/* Seals a file in pieces, or opens it:

     file seal|open KEYFILE LABEL IN OUT

   KEYFILE holds 32 random bytes. A sealed file is the nonce, which is random, the ciphertext and the tag. LABEL says what the file
   is; it is not stored, and the file opens under no other. IN is read twice: the tag of AES-GCM-SIV encrypts the text, and an
   opening writes no text before it has found the whole sealing valid. OUT has a temporary name until it is complete. Status 1, and
   a line on standard error, if it cannot be done: OUT is then as it was. */
#define _DEFAULT_SOURCE
#include "aeadkit.h"
#include <errno.h>
#include <stdio.h>
#include <stdlib.h>
#include <string.h>
#include <unistd.h>

enum { SUITE = AEADKIT_AES_256_GCM_SIV, KEY = 32, NONCE = AEADKIT_NONCE_BYTES, TAG = AEADKIT_TAG_BYTES, PIECE = 1 << 16 };
static char temporary[4096];
static uint8_t key[KEY + 1], nonce[NONCE], tag[TAG], piece[PIECE];

static void need(int holds, const char *why) {
    if (holds) return;
    fprintf(stderr, "file: %s\n", why ? why : strerror(errno));
    if (temporary[0]) unlink(temporary);
    exit(1);
}

static void done(uint32_t status) {
    need(status == AEADKIT_DONE, aeadkit_status_string(status));
}

static void give(FILE *out, const uint8_t *bytes, size_t length) {
    need(fwrite(bytes, 1, length, out) == length, NULL);
}

/* Reads the next piece of a text to its end: its length, which is 0 at the end. */
static size_t next(FILE *in) {
    size_t length = fread(piece, 1, PIECE, in);
    need(!ferror(in), NULL);
    return length;
}

static void seal_file(FILE *in, FILE *out, const char *label) {
    struct aeadkit_siv siv;
    size_t n;
    need(!getentropy(nonce, NONCE), NULL);
    done(aeadkit_siv_init(&siv, SUITE, key, KEY, nonce, NONCE, label, strlen(label)));
    while ((n = next(in)) > 0) done(aeadkit_siv_absorb(&siv, piece, n));
    done(aeadkit_siv_begin_second(&siv, tag));
    need(!fseeko(in, 0, SEEK_SET), NULL);
    give(out, nonce, NONCE);
    while ((n = next(in)) > 0) {
        done(aeadkit_siv_update(&siv, piece, n));
        give(out, piece, n);
    }
    done(aeadkit_siv_finish(&siv)); /* the file was the same both times */
    give(out, tag, TAG);
}

/* Reads the next piece of a ciphertext of which so many bytes are left: its length. */
static size_t next_of(FILE *in, off_t left) {
    size_t length = left < PIECE ? (size_t)left : (size_t)PIECE;
    need(fread(piece, 1, length, in) == length, "IN cannot be read to its end");
    return length;
}

static void open_file(FILE *in, FILE *out, const char *label) {
    struct aeadkit_opener opener;
    off_t length, left;
    size_t n;
    need(!fseeko(in, 0, SEEK_END), NULL);
    length = ftello(in) - NONCE - TAG;
    need(length >= 0, "IN is shorter than a sealing");
    need(!fseeko(in, NONCE + length, SEEK_SET) && fread(tag, 1, TAG, in) == TAG, "IN has no tag that can be read");
    need(!fseeko(in, 0, SEEK_SET) && fread(nonce, 1, NONCE, in) == NONCE, "IN has no nonce that can be read");
    done(aeadkit_opener_init(&opener, SUITE, key, KEY, nonce, NONCE, label, strlen(label), tag));
    for (left = length; left > 0; left -= (off_t)n) {
        n = next_of(in, left);
        done(aeadkit_opener_check(&opener, piece, n));
    }
    done(aeadkit_opener_begin_second(&opener)); /* the sealing is valid */
    need(!fseeko(in, NONCE, SEEK_SET), NULL);
    for (left = length; left > 0; left -= (off_t)n) {
        n = next_of(in, left);
        done(aeadkit_opener_update(&opener, piece, n));
        give(out, piece, n);
    }
    done(aeadkit_opener_finish(&opener)); /* the file was the same both times */
}

int main(int count, char **words) {
    FILE *keys, *in = NULL, *out = NULL;
    int file, sealing = count == 6 && !strcmp(words[1], "seal");
    need(sealing || (count == 6 && !strcmp(words[1], "open")), "usage: file seal|open KEYFILE LABEL IN OUT");
    need((keys = fopen(words[2], "rb")) && (in = fopen(words[4], "rb")), NULL);
    need(fread(key, 1, KEY + 1, keys) == KEY && !fclose(keys), "KEYFILE is not 32 bytes long");
    need(strlen(words[5]) + 8 <= sizeof temporary, "the name of OUT is too long");
    sprintf(temporary, "%s.XXXXXX", words[5]);
    need((file = mkstemp(temporary)) >= 0 && (out = fdopen(file, "wb")), NULL);
    if (sealing) seal_file(in, out, words[3]);
    else open_file(in, out, words[3]);
    explicit_bzero(key, sizeof key);
    need(!fflush(out) && !fsync(file) && !fclose(out) && !rename(temporary, words[5]), NULL);
    return 0;
}

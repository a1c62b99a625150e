/* Wraps a key under another key, to store or to send it, and unwraps it:

     wrap WAY KEYFILE < KEY > WRAPPED

   KEYFILE holds the key that wraps, of 16, 24 or 32 bytes. WAY is wrap or unwrap, for a key of 16, 24, 32, .. bytes; or
   wrap-padded or unwrap-padded, for a key of any length. Status 1, and a line on standard error, if it cannot be done. */
#define _DEFAULT_SOURCE
#include "aeadkit.h"
#include <stdio.h>
#include <stdlib.h>
#include <string.h>

enum { MOST = 4096 };

static void stop(const char *why) {
    fprintf(stderr, "wrap: %s\n", why);
    exit(1);
}

/* Reads a file to its end. */
static size_t all_of(FILE *file, uint8_t *to, size_t room) {
    size_t length = file ? fread(to, 1, room, file) : 0;
    if (!file || fgetc(file) != EOF || ferror(file)) stop("a file cannot be read, or is too long");
    return length;
}

int main(int count, char **words) {
    static uint8_t key[AEADKIT_KEY_MOST_BYTES], in[MOST + AEADKIT_WRAP_BYTES], out[MOST + AEADKIT_WRAP_BYTES];
    size_t key_length, length, out_length;
    uint32_t status = AEADKIT_DONE;
    if (count != 3) stop("usage: wrap wrap|unwrap|wrap-padded|unwrap-padded KEYFILE < IN > OUT");
    const char *way = words[1];
    key_length = all_of(fopen(words[2], "rb"), key, sizeof key);
    length = all_of(stdin, in, way[0] == 'u' ? sizeof in : (size_t)MOST);
    if (!strcmp(way, "wrap")) {
        out_length = length + AEADKIT_WRAP_BYTES;
        status = aeadkit_wrap(key, key_length, in, length, out, out_length);
    } else if (!strcmp(way, "wrap-padded")) {
        out_length = (length + 7) / 8 * 8 + AEADKIT_WRAP_BYTES; /* the padding makes the length a multiple of 8 */
        status = aeadkit_wrap_padded(key, key_length, in, length, out, out_length);
    } else {
        out_length = length < AEADKIT_WRAP_BYTES ? 0 : length - AEADKIT_WRAP_BYTES; /* a wrong length has a status */
        if (!strcmp(way, "unwrap")) status = aeadkit_unwrap(key, key_length, in, length, out, out_length);
        else if (!strcmp(way, "unwrap-padded"))
            status = aeadkit_unwrap_padded(key, key_length, in, length, out, out_length, &out_length);
        else stop("WAY is wrap, unwrap, wrap-padded or unwrap-padded");
    }
    if (status != AEADKIT_DONE) stop(aeadkit_status_string(status));
    if (fwrite(out, 1, out_length, stdout) != out_length || fclose(stdout)) stop("the output cannot be written");
    explicit_bzero(key, sizeof key);
    explicit_bzero(in, sizeof in);
    explicit_bzero(out, sizeof out);
    return 0;
}

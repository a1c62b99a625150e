/* A backup of any size, from pipe to pipe, in segments:

     backup seal KEYFILE LABEL < FILE > SEALED
     backup open KEYFILE LABEL < SEALED > NEW && mv NEW FILE

   KEYFILE holds 32 random bytes. A sealed backup begins with a head of 48 bytes: "SEG1"; the length of a segment's text, in 4
   bytes with the highest first; and a data key, drawn for this backup alone and wrapped under the key of KEYFILE. Then come the
   segments, each sealed under the data key with ChaCha20-Poly1305. Each has a text of that length but the last, which has what is
   left, and may be empty. The nonce is the number of the segment, in 11 bytes, and a byte that is 1 for the last segment and 0 for
   the others. The associated data is the head and LABEL, which is not stored. ../python/examples/segments.py has this format too.

   A backup does not open if segments were changed, exchanged, left out or taken from another backup, if it ends early or goes on
   after its end, or under another LABEL: let it say what the backup is of, and when it was made. A segment's text is written when
   the segment is authentic, before the next one is read. After a failure the output is a beginning of the text, and to be thrown
   away: only status 0 says that it is the whole. A program that fails while it writes to the pipe leaves a beginning too, which is
   sealed like a whole text: look at its status as well.
   Status: 0 done; 1 not authentic; 2 wrong words or key file; 3 a read or a write failed. */
#define _DEFAULT_SOURCE
#include "aeadkit.h"
#include <errno.h>
#include <signal.h>
#include <stdio.h>
#include <stdlib.h>
#include <string.h>
#include <unistd.h>

enum { SUITE = AEADKIT_CHACHA20_POLY1305, KEY = 32, BOX = AEADKIT_WRAP_BYTES + KEY, HEAD = 8 + BOX, LABEL = 200 };
enum { SEGMENT = 1 << 20, TAG = AEADKIT_TAG_BYTES };

static uint8_t aad[HEAD + LABEL] = {'S', 'E', 'G', '1', 0, SEGMENT >> 16, 0, 0}, bytes[SEGMENT + TAG + 1];
static size_t aad_length, segment = SEGMENT;
static struct aeadkit_key data_key;

static void stop(int status, const char *why) {
    fprintf(stderr, "backup: %s\n", why);
    exit(status);
}

/* Ends the program at any other status of the library than DONE. */
static void need(uint32_t status) {
    int changed = status == AEADKIT_TAG_MISMATCH || status == AEADKIT_WRAP_INTEGRITY;
    if (status != AEADKIT_DONE) stop(changed ? 1 : 3, aeadkit_status_string(status));
}

/* Reads `length` bytes, or fewer at the end of the input. */
static size_t take(uint8_t *to, size_t length) {
    size_t taken = fread(to, 1, length, stdin);
    if (ferror(stdin)) stop(3, strerror(errno));
    return taken;
}

static void give(const uint8_t *from, size_t length) {
    if (fwrite(from, 1, length, stdout) != length) stop(3, strerror(errno));
}

/* Makes the head, or reads it, and keeps the data key. */
static void begin(int sealing, const char *key_file, const char *label) {
    uint8_t user_key[KEY + 1], key[KEY], *box = aad + HEAD - BOX;
    FILE *file = fopen(key_file, "rb");
    if (!file || fread(user_key, 1, KEY + 1, file) != KEY || fclose(file)) stop(2, "KEYFILE is no file of 32 bytes");
    if (sealing) {
        if (getentropy(key, KEY)) stop(3, "no random bytes");
        need(aeadkit_wrap(user_key, KEY, key, KEY, box, BOX));
        give(aad, HEAD);
    } else {
        if (take(aad, HEAD) != HEAD || memcmp(aad, "SEG1", 4)) stop(1, "not a backup");
        segment = (size_t)aad[4] << 24 | (size_t)aad[5] << 16 | (size_t)aad[6] << 8 | aad[7];
        if (segment == 0 || segment > SEGMENT) stop(1, "its segments are empty, or longer than 1 MiB");
        need(aeadkit_unwrap(user_key, KEY, box, BOX, key, KEY));
    }
    need(aeadkit_key_init(&data_key, SUITE, key, KEY));
    explicit_bzero(user_key, sizeof user_key);
    explicit_bzero(key, KEY);
    memcpy(aad + HEAD, label, strlen(label));
    aad_length = HEAD + strlen(label);
}

int main(int count, char **words) {
    int sealing = count == 4 && !strcmp(words[1], "seal"), last = 0;
    size_t whole, held = 0;
    if (count != 4 || (!sealing && strcmp(words[1], "open")) || strlen(words[3]) > LABEL)
        stop(2, "usage: backup seal|open KEYFILE LABEL < IN > OUT, with a label of at most 200 bytes");
    signal(SIGPIPE, SIG_IGN); /* to write to a pipe that nobody reads then fails, with status 3 */
    begin(sealing, words[2], words[3]);
    whole = segment + (sealing ? 0 : TAG);
    for (uint64_t number = 0; !last; number++) {
        uint8_t nonce[AEADKIT_NONCE_BYTES] = {0}, next;
        held += take(bytes + held, whole + 1 - held); /* one byte more tells whether another segment follows */
        last = held <= whole;
        size_t length = last ? held : whole;
        next = bytes[whole];
        for (int i = 0; i < 8; i++) nonce[3 + i] = (uint8_t)(number >> (56 - 8 * i));
        nonce[11] = (uint8_t)last;
        if (sealing) {
            need(aeadkit_seal_in_place_with(&data_key, nonce, sizeof nonce, bytes, length, aad, aad_length, bytes + length));
            give(bytes, length + TAG);
        } else {
            if (length < TAG) stop(1, "the backup was cut");
            length -= TAG;
            need(aeadkit_open_in_place_with(&data_key, nonce, sizeof nonce, bytes, length, aad, aad_length, bytes + length));
            give(bytes, length);
        }
        bytes[0] = next;
        held = 1;
    }
    aeadkit_key_wipe(&data_key);
    if (fclose(stdout)) stop(3, strerror(errno));
    return 0;
}

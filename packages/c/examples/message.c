/* A message that is sealed by its sender and opened by its receiver: first to other memory, then in the place of the text.

     message [BYTE]

   What is sent is the nonce, and then the sealing. It prints the text that was opened, once for each way. With BYTE, from 0 to
   53, somebody changes that byte on the way, and the receiver refuses it: status 1, and a line on standard error. */
#define _DEFAULT_SOURCE
#include "aeadkit.h"
#include <stdio.h>
#include <stdlib.h>
#include <string.h>
#include <unistd.h>

enum { SUITE = AEADKIT_CHACHA20_POLY1305, KEY = 32, NONCE = AEADKIT_NONCE_BYTES, TAG = AEADKIT_TAG_BYTES };
enum { TEXT = 26, SEALED = TEXT + TAG, MESSAGE = NONCE + SEALED };

/* Returns whether a call is done, and says why if it is not. */
static int done(const char *call, uint32_t status) {
    if (status != AEADKIT_DONE) fprintf(stderr, "%s: %s\n", call, aeadkit_status_string(status));
    return status == AEADKIT_DONE;
}

int main(int count, char **words) {
    const char *text = "The parcel leaves at nine.", *aad = "message to Vienna";
    uint8_t key[KEY], message[MESSAGE] = {0}, opened[TEXT];
    uint8_t *nonce = message, *sealed = message + NONCE, *tag = sealed + TEXT; /* what is sent */
    int changed = count > 1 ? atoi(words[1]) : (int)MESSAGE, opens, opens_in_place;
    if (getentropy(key, KEY)) return 1; /* both sides have it; 32 bytes, as aeadkit_key_length(SUITE) says */

    /* To other memory. The tag is the end of the sealing. */
    nonce[NONCE - 1] = 1; /* the number of the message, the highest byte first: it never comes twice under one key */
    if (!done("seal", aeadkit_seal(SUITE, key, KEY, nonce, NONCE, text, TEXT, aad, strlen(aad), sealed, SEALED))) return 1;
    if (changed < MESSAGE) message[changed] ^= 1;
    opens = done("open", aeadkit_open(SUITE, key, KEY, nonce, NONCE, sealed, SEALED, aad, strlen(aad), opened, TEXT));
    if (opens) printf("%.*s\n", TEXT, (const char *)opened); /* otherwise `opened` is zeros */

    /* In place: what is sent looks the same. */
    memset(nonce, 0, NONCE);
    nonce[NONCE - 1] = 2;
    memcpy(sealed, text, TEXT);
    if (!done("seal in place", aeadkit_seal_in_place(SUITE, key, KEY, nonce, NONCE, sealed, TEXT, aad, strlen(aad), tag))) return 1;
    if (changed < MESSAGE) message[changed] ^= 1;
    opens_in_place = done("open in place", aeadkit_open_in_place(SUITE, key, KEY, nonce, NONCE, sealed, TEXT,
                                                                 aad, strlen(aad), tag));
    if (opens_in_place) printf("%.*s\n", TEXT, (const char *)sealed); /* otherwise it is still the ciphertext */
    explicit_bzero(key, KEY);
    return ferror(stdout) || fclose(stdout) || !opens || !opens_in_place; /* a text that was not written does not count */
}

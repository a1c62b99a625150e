/* Seals and opens random texts in random pieces, between which the structs are moved, and compares them with aeadkit_seal and
   aeadkit_open. Prints one line, and exits with 0 if nothing differs: pieces [TEXTS] */
#include "aeadkit.h"

#include <stdio.h>
#include <stdlib.h>
#include <string.h>

static uint64_t state = 88172645463325252u;

static uint64_t random_word(void) {
    state ^= state << 13;
    state ^= state >> 7;
    state ^= state << 17;
    return state;
}

static void random_bytes(uint8_t *bytes, size_t length) {
    for (size_t i = 0; i < length; i++) bytes[i] = (uint8_t)(random_word() >> 24);
}

static void want(int holds, const char *what, long number) {
    if (holds) return;
    printf("pieces: case %ld: %s\n", number, what);
    exit(1);
}

static int all(const uint8_t *bytes, size_t length, uint8_t value) {
    for (size_t i = 0; i < length; i++)
        if (bytes[i] != value) return 0;
    return 1;
}

enum { LONGEST = 20000 };

static uint8_t whole[LONGEST + 16], pieces[LONGEST + 16], text[LONGEST], opened[LONGEST];

/* A random text under random keys of a suite, in `text`, and its sealing in `whole`. */
struct message {
    uint32_t suite;
    size_t key_length, aad_length, length, longest;
    uint8_t key[32], nonce[12], aad[70];
};

static struct message message_of(long number, uint32_t suite) {
    struct message m;
    m.suite = suite;
    m.key_length = suite == 2 || suite == 5 ? 16 : suite == 3 ? 24 : 32;
    m.aad_length = random_word() % 70;
    m.length = random_word() % (number % 100 == 0 ? LONGEST : number % 10 == 0 ? 3000 : 300);
    m.longest = number % 3 == 0 ? 20 : number % 3 == 1 ? 300 : LONGEST;
    random_bytes(m.key, 32);
    random_bytes(m.nonce, 12);
    random_bytes(m.aad, m.aad_length);
    random_bytes(text, m.length);
    want(aeadkit_seal(m.suite, m.key, m.key_length, m.nonce, 12, text, m.length, m.aad, m.aad_length, whole, m.length + 16)
             == AEADKIT_DONE, "seal", number);
    return m;
}

/* The length of the next piece, after `done` bytes. */
static size_t next_of(const struct message *m, size_t done) {
    size_t next = random_word() % (m->longest + 1);
    return next > m->length - done ? m->length - done : next;
}

/* Moves a struct to other memory, and leaves other bytes behind. */
static void *moved_from(void *from, size_t size) {
    static uint64_t rooms[2][24];
    void *to = from == rooms[0] ? rooms[1] : rooms[0];
    memcpy(to, from, size);
    memset(from, 0x5a, size);
    return to;
}

/* Seals the text of a message in random pieces, between which the struct is moved, by a sealing that was begun. */
static void sealed_in_pieces(struct aeadkit_sealer *sealer, const struct message *m, long number) {
    size_t length = m->length;
    uint8_t tag[16], kept[16];
    memcpy(pieces, text, length);
    for (size_t done = 0; done < length;) {
        size_t next = next_of(m, done);
        sealer = moved_from(sealer, sizeof *sealer);
        want(aeadkit_sealer_update(sealer, pieces + done, next) == AEADKIT_DONE, "update", number);
        done += next;
    }
    want(aeadkit_sealer_finish(sealer, tag) == AEADKIT_DONE, "finish", number);
    want(!memcmp(whole, pieces, length) && !memcmp(whole + length, tag, 16), "another sealing", number);
    want(all((uint8_t *)sealer, sizeof *sealer, 0), "not zeros after finish", number);
    random_bytes(tag, 16);
    memcpy(kept, tag, 16);
    want(aeadkit_sealer_finish(sealer, tag) == AEADKIT_NOT_BEGUN, "finished twice", number);
    want(aeadkit_sealer_update(sealer, tag, 16) == AEADKIT_NOT_BEGUN, "updated after finish", number);
    want(!memcmp(kept, tag, 16) && all((uint8_t *)sealer, sizeof *sealer, 0), "changed at NOT_BEGUN", number);
}

/* A random text, sealed whole and in pieces. */
static void seal_in_pieces(long number) {
    struct message m = message_of(number, 1 + (uint32_t)(random_word() % 4));
    struct aeadkit_sealer sealer;
    random_bytes((uint8_t *)&sealer, sizeof sealer);
    want(aeadkit_sealer_init(&sealer, m.suite, m.key, m.key_length, m.nonce, 12, m.aad, m.aad_length) == AEADKIT_DONE, "init",
         number);
    sealed_in_pieces(&sealer, &m, number);
}

/* A random sealing, opened in two passes of random pieces, between which the struct is moved. Of five cases one has a changed
   bit, one a second pass with a changed bit, and one a longer second pass. */
static void open_in_pieces(long number) {
    struct message m = message_of(number, 1 + (uint32_t)(random_word() % 6));
    size_t length = m.length, bit = random_word() % (8 * (length + 16));
    enum { CHANGED, CHANGED_LATER, LONGER } way = (int)(random_word() % 5);
    if (way == CHANGED) whole[bit / 8] ^= (uint8_t)(1 << bit % 8);
    memcpy(pieces, whole, length);
    struct aeadkit_opener first, moved, *opener = &first;
    struct aeadkit_key kept;
    random_bytes((uint8_t *)opener, sizeof *opener);
    if (random_word() % 2) {
        want(aeadkit_opener_init(opener, m.suite, m.key, m.key_length, m.nonce, 12, m.aad, m.aad_length, whole + length)
                 == AEADKIT_DONE, "opener_init", number);
    } else {
        want(aeadkit_key_init(&kept, m.suite, m.key, m.key_length) == AEADKIT_DONE, "key_init", number);
        want(aeadkit_opener_init_with(opener, &kept, m.nonce, 12, m.aad, m.aad_length, whole + length) == AEADKIT_DONE,
             "opener_init_with", number);
        aeadkit_key_wipe(&kept);
    }
    for (size_t done = 0; done < length;) {
        size_t next = next_of(&m, done);
        opener = moved_from(opener, sizeof *opener);
        want(aeadkit_opener_check(opener, pieces + done, next) == AEADKIT_DONE, "check", number);
        done += next;
    }
    moved = *opener;
    want(aeadkit_opener_update(opener, pieces, length) == AEADKIT_NOT_BEGUN, "text before the check", number);
    want(aeadkit_opener_finish(opener) == AEADKIT_NOT_BEGUN, "finished before the check", number);
    want(!memcmp(pieces, whole, length) && !memcmp(opener, &moved, sizeof *opener), "changed before the check", number);
    uint32_t status = aeadkit_opener_begin_second(opener);
    want(status == aeadkit_open(m.suite, m.key, m.key_length, m.nonce, 12, whole, length + 16, m.aad, m.aad_length, opened, length),
         "another status of begin_second", number);
    if (status == AEADKIT_TAG_MISMATCH) want(all(opened, length, 0), "not zeros where nothing was opened", number);
    want((way == CHANGED) == (status == AEADKIT_TAG_MISMATCH), "a changed bit", number);
    if (status != AEADKIT_DONE) {
        want(all((uint8_t *)opener, sizeof *opener, 0), "not zeros after a mismatch", number);
        return;
    }
    moved = *opener;
    want(aeadkit_opener_check(opener, pieces, length) == AEADKIT_NOT_BEGUN, "checked again", number);
    want(!memcmp(opener, &moved, sizeof *opener), "changed by a late check", number);
    int changed = way == CHANGED_LATER && bit < 8 * length;
    if (changed) pieces[bit / 8] ^= (uint8_t)(1 << bit % 8);
    for (size_t done = 0; done < length;) {
        size_t next = next_of(&m, done);
        opener = moved_from(opener, sizeof *opener);
        want(aeadkit_opener_update(opener, pieces + done, next) == AEADKIT_DONE, "opener_update", number);
        done += next;
    }
    if (way == LONGER) {
        moved = *opener;
        pieces[length] = 0x3c;
        want(aeadkit_opener_update(opener, pieces + length, 1) == AEADKIT_SOURCE_CHANGED, "a longer pass", number);
        want(pieces[length] == 0x3c && !memcmp(opener, &moved, sizeof *opener), "changed by a longer pass", number);
    }
    want(aeadkit_opener_finish(opener) == (changed ? AEADKIT_SOURCE_CHANGED : AEADKIT_DONE), "opener_finish", number);
    if (changed) pieces[bit / 8] ^= (uint8_t)(1 << bit % 8);
    want(!memcmp(pieces, text, length) && !memcmp(opened, text, length), "another text", number);
    want(all((uint8_t *)opener, sizeof *opener, 0), "not zeros after finish", number);
    want(aeadkit_opener_finish(opener) == AEADKIT_NOT_BEGUN, "finished twice", number);
}

/* A random text, sealed whole and by two readings of random pieces, between which the struct is moved. Of five cases one has a
   second reading with a changed bit, one a shorter second reading, and one a longer one. */
static void seal_by_two_readings(long number) {
    struct message m = message_of(number, 5 + (uint32_t)(random_word() % 2));
    size_t length = m.length, again = length, bit = random_word() % (8 * (length + 1));
    enum { CHANGED, SHORTER, LONGER } way = (int)(random_word() % 5);
    uint8_t tag[16], kept[16];
    memcpy(pieces, text, length);
    struct aeadkit_siv first, moved, *siv = &first;
    struct aeadkit_key kept_key;
    random_bytes((uint8_t *)siv, sizeof *siv);
    if (random_word() % 2) {
        want(aeadkit_siv_init(siv, m.suite, m.key, m.key_length, m.nonce, 12, m.aad, m.aad_length) == AEADKIT_DONE, "siv_init",
             number);
    } else {
        want(aeadkit_key_init(&kept_key, m.suite, m.key, m.key_length) == AEADKIT_DONE, "key_init", number);
        want(aeadkit_siv_init_with(siv, &kept_key, m.nonce, 12, m.aad, m.aad_length) == AEADKIT_DONE, "siv_init_with", number);
        aeadkit_key_wipe(&kept_key);
    }
    for (size_t done = 0; done < length;) {
        size_t next = next_of(&m, done);
        siv = moved_from(siv, sizeof *siv);
        want(aeadkit_siv_absorb(siv, pieces + done, next) == AEADKIT_DONE, "absorb", number);
        done += next;
    }
    moved = *siv;
    want(aeadkit_siv_update(siv, pieces, length) == AEADKIT_NOT_BEGUN, "ciphertext before the tag", number);
    want(aeadkit_siv_finish(siv) == AEADKIT_NOT_BEGUN, "finished before the tag", number);
    want(!memcmp(pieces, text, length) && !memcmp(siv, &moved, sizeof *siv), "changed before the tag", number);
    want(aeadkit_siv_begin_second(siv, tag) == AEADKIT_DONE && !memcmp(whole + length, tag, 16), "another tag", number);
    moved = *siv;
    memcpy(kept, tag, 16);
    want(aeadkit_siv_absorb(siv, pieces, length) == AEADKIT_NOT_BEGUN, "absorbed after the tag", number);
    want(aeadkit_siv_begin_second(siv, tag) == AEADKIT_NOT_BEGUN, "a second tag", number);
    want(!memcmp(kept, tag, 16) && !memcmp(siv, &moved, sizeof *siv), "changed after the tag", number);
    int changed = way == CHANGED && bit < 8 * length;
    if (changed) pieces[bit / 8] ^= (uint8_t)(1 << bit % 8);
    if (way == SHORTER && length) again = length - 1;
    for (size_t done = 0; done < again;) {
        size_t next = next_of(&m, done);
        if (next > again - done) next = again - done;
        siv = moved_from(siv, sizeof *siv);
        want(aeadkit_siv_update(siv, pieces + done, next) == AEADKIT_DONE, "siv_update", number);
        done += next;
    }
    if (way == LONGER) {
        moved = *siv;
        pieces[length] = 0x3c;
        want(aeadkit_siv_update(siv, pieces + length, 1) == AEADKIT_SOURCE_CHANGED, "a longer reading", number);
        want(pieces[length] == 0x3c && !memcmp(siv, &moved, sizeof *siv), "changed by a longer reading", number);
    }
    want(aeadkit_siv_finish(siv) == (changed || again < length ? AEADKIT_SOURCE_CHANGED : AEADKIT_DONE), "siv_finish", number);
    if (changed) pieces[bit / 8] ^= (uint8_t)(1 << bit % 8);
    want(!memcmp(pieces, whole, again), "another ciphertext", number);
    want(all((uint8_t *)siv, sizeof *siv, 0), "not zeros after finish", number);
    want(aeadkit_siv_finish(siv) == AEADKIT_NOT_BEGUN, "finished twice", number);
}

/* A sealing begins under a kept key as under the bytes of the key. It is refused under a suite that the call does not take, and
   with a nonce of another length. An opening begins under each suite. */
static void begun_by_a_kept_key(const struct aeadkit_key *kept, const struct message *m, long number) {
    struct {
        uint64_t before[2];
        struct aeadkit_sealer sealer;
        uint64_t after_sealer[2];
        struct aeadkit_opener opener;
        uint64_t after_opener[2];
        struct aeadkit_siv siv;
        uint64_t after[2];
    } held;
    struct aeadkit_sealer *sealer = &held.sealer;
    memset(&held, 0xa5, sizeof held);
    random_bytes((uint8_t *)sealer, sizeof *sealer);
    random_bytes((uint8_t *)&held.opener, sizeof held.opener);
    random_bytes((uint8_t *)&held.siv, sizeof held.siv);
    uint32_t status = aeadkit_sealer_init_with(sealer, kept, m->nonce, 12, m->aad, m->aad_length);
    uint32_t siv_status = aeadkit_siv_init_with(&held.siv, kept, m->nonce, 11, m->aad, m->aad_length);
    if (m->suite > 4) {
        want(status == AEADKIT_UNKNOWN_SUITE, "a suite of two readings", number);
        want(all((uint8_t *)sealer, sizeof *sealer, 0), "not zeros after a suite of two readings", number);
        want(siv_status == AEADKIT_NONCE_LENGTH, "a siv with a nonce of 11 bytes", number);
    } else {
        want(status == AEADKIT_DONE, "sealer_init_with", number);
        sealed_in_pieces(sealer, m, number);
        random_bytes((uint8_t *)sealer, sizeof *sealer);
        want(aeadkit_sealer_init_with(sealer, kept, m->nonce, 11, NULL, 0) == AEADKIT_NONCE_LENGTH,
             "begun with a nonce of 11 bytes", number);
        want(all((uint8_t *)sealer, sizeof *sealer, 0), "not zeros after a nonce of 11 bytes", number);
        want(siv_status == AEADKIT_UNKNOWN_SUITE, "a suite of one reading", number);
    }
    want(all((uint8_t *)&held.siv, sizeof held.siv, 0), "a siv is not zeros after a refusal", number);
    want(aeadkit_opener_init_with(&held.opener, kept, m->key, 13, NULL, 0, m->key) == AEADKIT_NONCE_LENGTH,
         "an opener with a nonce of 13 bytes", number);
    want(all((uint8_t *)&held.opener, sizeof held.opener, 0), "an opener is not zeros after a nonce of 13 bytes", number);
    want(all((uint8_t *)held.before, 16, 0xa5) && all((uint8_t *)held.after_sealer, 16, 0xa5)
             && all((uint8_t *)held.after_opener, 16, 0xa5) && all((uint8_t *)held.after, 16, 0xa5),
         "written beside the structs", number);
}

/* A kept key seals and opens messages, whole and in pieces, as the bytes of the key do, and no call changes it. */
static void by_a_kept_key(long number) {
    struct message m = message_of(number, 1 + (uint32_t)(number % 6));
    struct { uint8_t before[16]; struct aeadkit_key kept; uint8_t after[16]; } held;
    memset(&held, 0xa5, sizeof held);
    random_bytes((uint8_t *)&held.kept, sizeof held.kept);
    want(aeadkit_key_init(&held.kept, m.suite, m.key, m.key_length) == AEADKIT_DONE, "key_init", number);
    struct aeadkit_key kept = held.kept;
    begun_by_a_kept_key(&held.kept, &m, number);
    size_t length = m.length;
    uint8_t tag[16];
    want(aeadkit_seal_with(&held.kept, m.nonce, 12, text, length, m.aad, m.aad_length, pieces, length + 16) == AEADKIT_DONE,
         "seal_with", number);
    want(!memcmp(pieces, whole, length + 16), "another sealing by a kept key", number);
    want(aeadkit_open_with(&held.kept, m.nonce, 12, pieces, length + 16, m.aad, m.aad_length, opened, length) == AEADKIT_DONE,
         "open_with", number);
    want(!memcmp(opened, text, length), "another text by a kept key", number);
    want(aeadkit_seal_in_place_with(&held.kept, m.nonce, 12, opened, length, m.aad, m.aad_length, tag) == AEADKIT_DONE,
         "seal_in_place_with", number);
    want(!memcmp(opened, whole, length) && !memcmp(tag, whole + length, 16), "another sealing in place by a kept key", number);
    want(aeadkit_open_in_place_with(&held.kept, m.nonce, 12, opened, length, m.aad, m.aad_length, tag) == AEADKIT_DONE,
         "open_in_place_with", number);
    want(!memcmp(opened, text, length) && !memcmp(tag, whole + length, 16), "another text in place by a kept key", number);
    pieces[random_word() % (length + 16)] ^= 1;
    memcpy(whole, pieces, length + 16);
    want(aeadkit_open_with(&held.kept, m.nonce, 12, pieces, length + 16, m.aad, m.aad_length, opened, length)
             == AEADKIT_TAG_MISMATCH, "a changed sealing opened by a kept key", number);
    want(all(opened, length, 0) && !memcmp(pieces, whole, length + 16), "what a mismatch by a kept key leaves", number);
    want(aeadkit_open_in_place_with(&held.kept, m.nonce, 12, pieces, length, m.aad, m.aad_length, pieces + length)
             == AEADKIT_TAG_MISMATCH, "a changed sealing opened in place by a kept key", number);
    want(!memcmp(pieces, whole, length + 16), "changed at a mismatch in place by a kept key", number);
    want(aeadkit_seal_with(&held.kept, m.nonce, 11, text, 0, NULL, 0, pieces, 16) == AEADKIT_NONCE_LENGTH, "a nonce of 11 bytes",
         number);
    want(memcmp(&kept, &held.kept, sizeof kept) == 0, "a kept key was written", number);
    want(all(held.before, 16, 0xa5) && all(held.after, 16, 0xa5), "written beside a kept key", number);
}

int main(int count, char **words) {
    long texts = count > 1 ? atol(words[1]) : 100000;
    for (long i = 0; i < texts; i++) {
        seal_in_pieces(i);
        open_in_pieces(i);
        seal_by_two_readings(i);
        by_a_kept_key(i);
    }
    printf("pieces: %ld texts in pieces each way: nothing differs\n", texts);
    return 0;
}

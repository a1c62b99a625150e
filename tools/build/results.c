/* Prints what the library in front of it gives for each length of text and for random calls: results CASES
   Two libraries agree if they print the same. A line for each suite, and for every 1,000 cases, has a sum over each status, each
   output and each struct at its end; the last lines count the statuses of each call. It fails if a status of the header never came. */
#include "aeadkit.h"

#include <stdio.h>
#include <stdlib.h>
#include <string.h>

enum { LONGEST = 9000, EACH = 4200, ROOM = LONGEST + 64, CALLS = 29 };
static uint64_t state = 88172645463325252u, sum = 14695981039346656037u;
static uint8_t text[ROOM], sealed[ROOM], out[ROOM], key[40], nonce[16], aad[300], tag[16];
/* Past the limit of every suite's texts; no compiler knows it. */
static volatile size_t vast = (size_t)1 << 40;
static unsigned long counts[CALLS][18];
static const char *names[CALLS];

static uint64_t random_word(void) {
    state ^= state << 13;
    state ^= state >> 7;
    state ^= state << 17;
    return state;
}

/* Once in so many times. */
static int rarely(unsigned times) { return (random_word() >> 20) % times == 0; }

static size_t below(size_t limit) { return (size_t)((random_word() >> 16) % limit); }

static void random_bytes(uint8_t *bytes, size_t length) {
    for (size_t i = 0; i < length; i++) bytes[i] = (uint8_t)(random_word() >> 24);
}

static void add(const void *bytes, size_t length) {
    for (size_t i = 0; i < length; i++) sum = (sum ^ ((const uint8_t *)bytes)[i]) * 1099511628211u;
}

/* Any bytes are a struct in pieces: now and then some of them, or all behind the mark, become others. */
static void disturb(void *bytes, size_t length) {
    if (!rarely(12)) return;
    if (rarely(3)) random_bytes((uint8_t *)bytes + 8, length - 8);
    else for (size_t left = 1 + below(3); left > 0; left--) random_bytes((uint8_t *)bytes + below(length), 1);
}

static uint32_t noted(const char *name, uint32_t status) {
    int call = 0;
    while (call < CALLS - 1 && names[call] && strcmp(names[call], name)) call++;
    names[call] = name;
    counts[call][status < 18 ? status : 12]++;
    add(&status, sizeof status);
    return status;
}
#define CALL(name, ...) noted(#name, aeadkit_##name(__VA_ARGS__))

/* The lengths of a case: now and then one is wrong, past every limit, or that of no suite. */
static struct message {
    uint32_t suite;
    size_t key_length, nonce_length, aad_length, length;
} m;
static struct aeadkit_key kept;

#define SUITE m.suite, key, m.key_length, nonce, m.nonce_length
#define KEPT &kept, nonce, m.nonce_length

static size_t length_of_text(void) {
    switch (below(8)) {
    case 0: return below(LONGEST);
    case 1: case 2: return below(1200);
    case 3: return 16 * below(40);
    default: return below(100);
    }
}

static size_t length_of_output(size_t right) { return rarely(40) ? right + 1 - 2 * (right != 0 && rarely(2)) : right; }

static void whole(void) {
    size_t n = m.length, of_sealed = length_of_output(n + 16);
    const uint8_t *from = rarely(50) ? sealed + 3 : text;
    int with = rarely(2);
    if (with) CALL(seal_with, KEPT, from, n, aad, m.aad_length, sealed, of_sealed);
    else CALL(seal, SUITE, from, n, aad, m.aad_length, sealed, of_sealed);
    add(sealed, of_sealed);
    if (rarely(3)) sealed[below(n + 16)] ^= (uint8_t)(1 << below(8));
    if (rarely(20)) aad[below(sizeof aad)] ^= 1;
    of_sealed = rarely(30) ? below(n + 17) : n + 16;
    n = length_of_output(of_sealed < 16 ? 0 : of_sealed - 16);
    if (with) CALL(open_with, KEPT, sealed, of_sealed, aad, m.aad_length, rarely(50) ? sealed : out, n);
    else CALL(open, SUITE, sealed, of_sealed, aad, m.aad_length, rarely(50) ? sealed : out, n);
    add(out, ROOM);
    add(sealed, ROOM);
}

static void in_place(void) {
    size_t n = rarely(60) ? vast : m.length, a = m.suite != 1 && rarely(60) ? ~vast : m.aad_length;
    int with = rarely(2);
    memcpy(out, text, ROOM);
    if (with) CALL(seal_in_place_with, KEPT, out, n, aad, a, tag);
    else CALL(seal_in_place, SUITE, out, n, aad, a, tag);
    add(out, ROOM);
    add(tag, 16);
    if (rarely(3)) tag[below(16)] ^= (uint8_t)(1 << below(8));
    if (with) CALL(open_in_place_with, KEPT, out, n, aad, m.aad_length, tag);
    else CALL(open_in_place, SUITE, out, n, aad, m.aad_length, tag);
    add(out, ROOM);
}

static size_t next_piece(size_t left) {
    size_t most = rarely(2) ? 40 : left + 1, next = below(most ? most : 1);
    return next < left ? next : left;
}
#define PIECES(call)                                          \
    for (size_t at = 0, next; at < n || rarely(3); at += next) { \
        next = next_piece(n - at);                            \
        call;                                                 \
    }                                                         \
    add(out, ROOM);

/* Text that is sealed in pieces, and sometimes goes on too long, in another pass, or over other bytes. */
static void sealed_in_pieces(void) {
    size_t n = m.length;
    struct aeadkit_sealer sealer = {{0}};
    struct aeadkit_siv siv = {{0}};
    int siv_suite = m.suite == 5 || m.suite == 6, with = rarely(2);
    memcpy(out, text, ROOM);
    if (rarely(40) ? siv_suite : !siv_suite) {
        if (with) CALL(sealer_init_with, &sealer, KEPT, aad, m.aad_length);
        else CALL(sealer_init, &sealer, SUITE, aad, m.aad_length);
        disturb(&sealer, sizeof sealer);
        PIECES(CALL(sealer_update, &sealer, out + at, next))
        if (rarely(9)) CALL(sealer_update, &sealer, out, vast);
        if (rarely(9)) aeadkit_sealer_wipe(&sealer);
        CALL(sealer_finish, &sealer, tag);
        if (rarely(9)) CALL(sealer_finish, &sealer, tag);
        add(&sealer, sizeof sealer);
    } else {
        if (with) CALL(siv_init_with, &siv, KEPT, aad, m.aad_length);
        else CALL(siv_init, &siv, SUITE, aad, m.aad_length);
        disturb(&siv, sizeof siv);
        PIECES(CALL(siv_absorb, &siv, out + at, next))
        if (rarely(9)) CALL(siv_absorb, &siv, out, vast);
        if (!rarely(20)) CALL(siv_begin_second, &siv, tag);
        disturb(&siv, sizeof siv);
        if (rarely(9)) out[below(n + 1)] ^= 1;
        PIECES(CALL(siv_update, &siv, out + at, next))
        if (rarely(9)) CALL(siv_update, &siv, out, 1);
        if (rarely(20)) aeadkit_siv_wipe(&siv);
        CALL(siv_finish, &siv);
        add(&siv, sizeof siv);
    }
    add(out, ROOM);
    add(tag, 16);
}

static void opened_in_pieces(void) {
    size_t n = m.length;
    struct aeadkit_opener opener = {{0}};
    memcpy(out, text, ROOM);
    CALL(seal_in_place, SUITE, out, n, aad, m.aad_length, tag);
    if (rarely(6)) tag[below(16)] ^= (uint8_t)(1 << below(8));
    if (rarely(2)) CALL(opener_init_with, &opener, KEPT, aad, m.aad_length, tag);
    else CALL(opener_init, &opener, SUITE, aad, m.aad_length, tag);
    disturb(&opener, sizeof opener);
    PIECES(CALL(opener_check, &opener, out + at, next))
    if (rarely(9)) CALL(opener_check, &opener, out, vast);
    if (!rarely(20)) CALL(opener_begin_second, &opener);
    disturb(&opener, sizeof opener);
    if (rarely(9)) out[below(n + 1)] ^= 1;
    PIECES(CALL(opener_update, &opener, out + at, next))
    if (rarely(9)) CALL(opener_update, &opener, out, 1);
    if (rarely(20)) aeadkit_opener_wipe(&opener);
    CALL(opener_finish, &opener);
    add(&opener, sizeof opener);
    add(out, ROOM);
}

static void wrapped(void) {
    size_t n = below(6) ? below(90) : length_of_text(), room, length = 77;
    if (rarely(2)) {
        if (!rarely(6)) n = n / 8 * 8;
        CALL(wrap, key, m.key_length, text, n, sealed, length_of_output(n + 8));
        add(sealed, ROOM);
        if (rarely(4)) sealed[below(n + 8)] ^= (uint8_t)(1 << below(8));
        CALL(unwrap, key, m.key_length, sealed, rarely(20) ? n : n + 8, rarely(50) ? sealed : out, length_of_output(n));
    } else {
        if (rarely(200)) n = (size_t)1 << 32;
        room = (n + 7) / 8 * 8;
        CALL(wrap_padded, key, m.key_length, text, n, n >> 32 ? NULL : sealed, n >> 32 ? 0 : length_of_output(room + 8));
        add(sealed, ROOM);
        if (n >> 32) return;
        if (rarely(4)) sealed[below(room + 8)] ^= (uint8_t)(1 << below(8));
        CALL(unwrap_padded, key, m.key_length, sealed, rarely(20) ? n : room + 8, rarely(50) ? sealed : out, length_of_output(room), &length);
        add(&length, sizeof length);
    }
    add(out, ROOM);
}

/* Each length of text to EACH, sealed and opened under each suite. */
static void each_length(void) {
    random_bytes(key, sizeof key);
    random_bytes(nonce, sizeof nonce);
    random_bytes(aad, sizeof aad);
    m.nonce_length = 12;
    for (m.suite = 1; m.suite <= 6; m.suite++) {
        CALL(key_init, &kept, m.suite, key, aeadkit_key_length(m.suite));
        for (size_t n = 0; n <= EACH; n++) {
            random_bytes(text, n);
            CALL(seal_with, KEPT, text, n, aad, n % 40, sealed, n + 16);
            memcpy(out, sealed, n + 16);
            CALL(open_in_place_with, KEPT, out, n, aad, n % 40, out + n);
            add(sealed, n + 16);
            add(out, n);
        }
        printf("suite %u %016llx\n", m.suite, (unsigned long long)sum);
    }
}

int main(int count, char **words) {
    long cases = count == 2 ? atol(words[1]) : 0;
    each_length();
    for (long number = 1; number <= cases; number++) {
        m.suite = rarely(40) ? (uint32_t)below(9) * 77 : 1 + (uint32_t)below(6);
        m.key_length = m.suite == 2 || m.suite == 5 ? 16 : m.suite == 3 ? 24 : 32;
        if (rarely(40)) m.key_length = below(41);
        m.nonce_length = rarely(40) ? below(17) : 12;
        m.aad_length = rarely(3) ? 0 : below(rarely(3) ? sizeof aad : 20);
        m.length = length_of_text();
        random_bytes(key, sizeof key);
        random_bytes(nonce, sizeof nonce);
        random_bytes(aad, sizeof aad);
        random_bytes(text, m.length + 32);
        memset(out, 0x5a, ROOM);
        memset(sealed, 0xa5, ROOM);
        CALL(key_init, &kept, m.suite, key, m.key_length);
        add(&kept, sizeof kept);
        if (rarely(40)) aeadkit_key_wipe(&kept);
        switch (below(5)) {
        case 0: whole(); break;
        case 1: in_place(); break;
        case 2: sealed_in_pieces(); break;
        case 3: opened_in_pieces(); break;
        default:
            m.key_length = rarely(20) ? m.key_length : 16 + 8 * below(3);
            wrapped();
        }
        if (number % 1000 == 0) printf("%ld %016llx\n", number, (unsigned long long)sum);
    }
    for (uint32_t suite = 0; suite < 8; suite++)
        printf("suite %u: %zu %llu %llu\n", suite, aeadkit_key_length(suite), (unsigned long long)aeadkit_text_limit(suite),
               (unsigned long long)aeadkit_aad_limit(suite));
    printf("%u %zu %zu %zu %zu\n", aeadkit_version(), aeadkit_key_size(), aeadkit_sealer_size(), aeadkit_opener_size(), aeadkit_siv_size());
    unsigned long of_status[18] = {0};
    for (int call = 0; call < CALLS && names[call]; call++) {
        printf("%s:", names[call]);
        for (int status = 0; status < 18; status++) {
            of_status[status] += counts[call][status];
            if (counts[call][status]) printf(" %lu of %d", counts[call][status], status);
        }
        printf("\n");
    }
    for (int status = 0; status < 18; status++)
        if (cases && !of_status[status] != (status >= 9 && status <= 12)) return printf("status %d: %lu times\n", status, of_status[status]), 1;
    return cases <= 0;
}

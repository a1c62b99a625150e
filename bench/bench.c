/* How fast the library is on this machine, beside the peers of peers.h. bench.sh builds and runs it.

   Each message is sealed and opened in place, by the library's calls in place, with a new nonce and a new key, or
   under --kept with a key that library and peers keep. A peer keeps its context from message to message. Library
   and peers take turns in one process, and each figure is the best of many short rounds. Before a row is
   measured, each peer has to give the library's bytes. Status 1 if it does not; 2 if the program cannot run. */
#include "peers.h"

#include <time.h>

enum { LARGEST = 16384, LONGEST_RANDOM = 8192, MOST = 128, ROUNDS = 31 };

static uint8_t store[2 * LARGEST], wanted[LARGEST + 16], plain[LARGEST], data[LONGEST_RANDOM];
static struct message messages[MOST];
static const char *figures; /* the file of --data */

/* A number of a fixed sequence (xorshift64). */
static uint64_t draw(void) {
    static uint64_t state = 0x9e3779b97f4a7c15;
    state ^= state << 13;
    state ^= state >> 7;
    return state ^= state << 17;
}

static void fill(uint8_t *bytes, size_t length) {
    for (size_t i = 0; i < length; i++) bytes[i] = (uint8_t)(draw() >> 32);
}

/* Makes messages of one length, 16 KiB in all but no more than `most`; returns their number. */
static size_t make(size_t length, size_t most) {
    size_t count = length < LARGEST / 2 ? LARGEST / (length + 32) : 1;
    if (count > most) count = most;
    keys_made++;
    for (size_t i = 0; i < count; i++) {
        struct message *m = &messages[i];
        *m = (struct message){.aad = data, .bytes = store + i * ((length + 31) / 16 * 16), .length = length};
        if (kept && i > 0) memcpy(m->key, messages[0].key, sizeof m->key);
        else fill(m->key, sizeof m->key);
        fill(m->nonce, sizeof m->nonce);
        fill(m->bytes, length + 16);
    }
    return count;
}

static void differs(const struct party *party, const struct kind *kind, const struct message *m) {
    printf("\n%s differs: %s, %zu bytes, %zu of associated data\n", party->name, kind->name, m->length,
           m->aad_length);
    exit(1);
}

/* Ends the program unless each party that has the kind seals the message to the library's bytes and opens
   them, and the library refuses them with a bit changed. Leaves the text in place; returns the number of peers. */
static int agree(const struct kind *kind, const struct message *m) {
    size_t n = whole(kind, m), place = draw() % n;
    uint8_t *text = text_of(kind, m);
    int peers = -1;
    memcpy(plain, text, m->length);
    for (const struct party *party = parties; party < parties + PARTIES; party++) {
        if (!party->has(kind)) continue;
        peers++;
        int sealed = party->act(kind, m, SEALING);
        if (party == parties) memcpy(wanted, m->bytes, n);
        int same = memcmp(m->bytes, wanted, n) == 0;
        int opened = party->act(kind, m, OPENING);
        if (!sealed || !same || !opened || memcmp(text, plain, m->length) != 0) differs(party, kind, m);
    }
    memcpy(m->bytes, wanted, n);
    m->bytes[place] = wanted[place] ^= 1;
    if (by_aeadkit(kind, m, OPENING) || memcmp(m->bytes, wanted, n) != 0) differs(parties, kind, m);
    memcpy(text, plain, m->length);
    return peers;
}

/* Waits until the processor's clock has recovered from the wide products of a party, which slow it down. */
static void rest(void) {
    struct timespec start, now;
    clock_gettime(CLOCK_MONOTONIC, &start);
    do clock_gettime(CLOCK_MONOTONIC, &now);
    while ((now.tv_sec - start.tv_sec) * 1e9 + (now.tv_nsec - start.tv_nsec) < 700e3);
}

/* Seals `count` messages and opens them, and lowers `best` to the nanoseconds of a message. It does so four
   times, since the first one finds cold caches and wide vectors that sleep, each time at another depth of the
   stack: some depths are slow, the same ones in each 4 KiB, likely since a load waits for a store before it at
   the same offset in another page. */
static void pass(const struct party *party, const struct kind *kind, size_t count, double best[2]) {
    static size_t depth;
    if (capability != PLAIN) rest();
    for (int turn = 0; turn < 8; turn++) {
        enum direction direction = turn % 2 == 0 ? SEALING : OPENING;
        if (direction == SEALING) depth = (depth + 17 * 16) % 4096;
        volatile uint8_t room[depth + 1];
        room[depth] = (uint8_t)turn;
        struct timespec start, end;
        int able = room[depth] == turn;
        clock_gettime(CLOCK_MONOTONIC, &start);
        for (size_t i = 0; i < count; i++) able &= party->act(kind, &messages[i], direction);
        clock_gettime(CLOCK_MONOTONIC, &end);
        double took = ((end.tv_sec - start.tv_sec) * 1e9 + (end.tv_nsec - start.tv_nsec)) / count;
        if (!able) differs(party, kind, messages);
        if (best[direction] == 0 || took < best[direction]) best[direction] = took;
    }
}

static const char *const directions[] = {"sealing", "opening"};

/* Adds each party's figure to the file of --data, a line of words: the kind, the direction, the length, the party,
   what its peers may use, whether keys are kept, and nanoseconds. */
static void note(const struct kind *kind, int direction, size_t length, double (*best)[2]) {
    static const char *const may[] = {"plain", "avx2", "all"};
    FILE *file = figures ? fopen(figures, "a") : NULL;
    for (int p = 0; file && p < PARTIES; p++)
        if (best[p][direction] != 0)
            fprintf(file, "%s\t%s\t%zu\t%s\t%s\t%s\t%.0f\n", kind->name, directions[direction], length,
                    parties[p].name, may[capability], kept ? "kept" : "new", best[p][direction]);
    if (figures && (!file || fclose(file) != 0)) {
        perror(figures);
        exit(2);
    }
}

static void tables(int runs) {
    static const size_t lengths[] = {16, 64, 256, 1024, 4096, LARGEST};
    enum { LENGTHS = sizeof lengths / sizeof *lengths };
    static double best[MEASURED][LENGTHS][PARTIES][2];
    for (int step = 0; step < runs * MEASURED * LENGTHS; step++) {
        int k = step / LENGTHS % MEASURED, l = step % LENGTHS;
        size_t count = make(lengths[l], kinds[k].form == WRAP ? 8 : MOST);
        for (size_t i = 0; i < count; i++) agree(&kinds[k], &messages[i]);
        for (int turn = 0; turn < ROUNDS * PARTIES; turn++)
            if (parties[turn % PARTIES].has(&kinds[k]))
                pass(&parties[turn % PARTIES], &kinds[k], count, best[k][l][turn % PARTIES]);
    }
    printf("Nanoseconds for a message, and how many times as fast as the best peer; best of %d runs of %d "
           "rounds.\n\n| | |", runs, ROUNDS);
    for (int l = 0; l < LENGTHS; l++) printf(" %zu B |", lengths[l]);
    printf("\n|---|---|---|---|---|---|---|---|\n");
    for (int row = 0; row < 2 * MEASURED; row++) {
        printf("| %s | %s |", kinds[row / 2].name, directions[row % 2]);
        for (int l = 0; l < LENGTHS; l++) {
            double (*of)[2] = best[row / 2][l];
            int first = 0;
            for (int p = 1; p < PARTIES; p++)
                if (of[p][row % 2] != 0 && (!first || of[p][row % 2] < of[first][row % 2])) first = p;
            note(&kinds[row / 2], row % 2, lengths[l], of);
            printf(" %.0f", of[0][row % 2]);
            if (first) printf(", %.2f %s", of[first][row % 2] / of[0][row % 2], parties[first].name);
            printf(" |");
        }
        printf("\n");
    }
}

/* The library at 1 byte and at the multiples of 16 up to 4 KiB, at one less and at one more: first each
   length that some shorter ones exceed by more than 5 %, then all figures. */
static void scan(int passes) {
    enum { LENGTHS = 3 * 256 };
    static double best[SUITES][2][LENGTHS];
    size_t lengths[LENGTHS] = {1};
    for (int l = 1; l < LENGTHS; l++) lengths[l] = (size_t)(16 * ((l + 2) / 3) + (l + 2) % 3 - 1);
    for (int step = 0; step < passes * LENGTHS; step++) {
        int l = step % LENGTHS;
        size_t count = make(lengths[l], 8);
        for (int k = 0; k < SUITES; k++) {
            double took[2] = {best[k][SEALING][l], best[k][OPENING][l]};
            pass(parties, &kinds[k], count, took);
            best[k][SEALING][l] = took[SEALING];
            best[k][OPENING][l] = took[OPENING];
        }
    }
    printf("Nanoseconds for a message, best of %d passes.\n\n| | bytes | ns | shorter and slower "
           "| the slowest | ns | ratio |\n|---|---|---|---|---|---|---|\n", passes);
    for (int row = 0; row < 2 * SUITES; row++) {
        const double *of = best[row / 2][row % 2];
        int found = 0;
        for (int l = LENGTHS - 1, s; l >= 0; l = s) {
            int slow = 0, slowest = l;
            for (s = l - 1; s >= 0 && of[s] >= of[l]; s--) {
                slow += of[s] > 1.05 * of[l];
                if (of[s] > of[slowest]) slowest = s;
            }
            found += slow > 0;
            if (slow)
                printf("| %s, %s | %zu | %.0f | %d | %zu | %.0f | %.2f |\n", kinds[row / 2].name,
                       directions[row % 2], lengths[l], of[l], slow, lengths[slowest], of[slowest],
                       of[slowest] / of[l]);
        }
        if (!found) printf("| %s, %s | none | | | | | |\n", kinds[row / 2].name, directions[row % 2]);
    }
    printf("\n| bytes |");
    for (int k = 0; k < SUITES; k++) printf(" %s | opening |", kinds[k].name);
    printf("\n|---|---|---|---|---|---|---|---|---|---|---|---|---|\n");
    for (int l = 0; l < LENGTHS; l++) {
        printf("| %zu |", lengths[l]);
        for (int k = 0; k < SUITES; k++) printf(" %.0f | %.0f |", best[k][SEALING][l], best[k][OPENING][l]);
        printf("\n");
    }
}

/* Random messages at any address; their lengths go through all up to 8 KiB. */
static void try_random(int number) {
    int count[MEASURED] = {0}, peers[MEASURED] = {0};
    struct message *m = messages;
    for (int i = 0; i < number; i++) {
        make(0, 1);
        m->bytes = store + draw() % 32;
        m->length = (size_t)i % (LONGEST_RANDOM + 1);
        m->aad_length = draw() % (i % 8 == 0 ? LONGEST_RANDOM : 80);
        m->aad = data + draw() % (sizeof data - m->aad_length);
        fill(data, sizeof data);
        fill(m->bytes, m->length + 16);
        for (int k = 0; k < MEASURED; k++) {
            if (kinds[k].form == WRAP && (m->length < 16 || m->length % 8 != 0)) continue;
            peers[k] = agree(&kinds[k], m);
            count[k]++;
        }
    }
    printf("Sealed to the bytes of each peer, opened, and refused with a bit changed:\n\n"
           "| | messages | peers |\n|---|---|---|\n");
    for (int k = 0; k < MEASURED; k++) printf("| %s | %d | %d |\n", kinds[k].name, count[k], peers[k]);
}

int main(int argc, char **argv) {
    char **word = argv + 1;
    void (*mode)(int) = tables;
    if (*word && strcmp(*word, "--avx2") == 0) capability = AVX2, word++;
    else if (*word && strcmp(*word, "--all") == 0) capability = ALL, word++;
    if (*word && strcmp(*word, "--kept") == 0) kept = 1, word++;
    if (*word && word[1] && strcmp(*word, "--data") == 0) figures = word[1], word += 2;
    if (*word && strcmp(*word, "scan") == 0) mode = scan, word++;
    else if (*word && strcmp(*word, "random") == 0) mode = try_random, word++;
    int number = *word ? atoi(*word++) : mode == tables ? 10 : mode == scan ? 50 : 100000;
    if (number < 1 || word != argv + argc) {
        fputs("bench: no such words; bench.sh alone prints them\n", stderr);
        return 2;
    }
    prepare(argv);
    mode(number);
    return 0;
}

/* Reads a trace of plugin.c, and prints where runs of one call over the same lengths, with different secrets, part. Memcheck follows
   what may depend on a secret; this sees what did.

   traces GROUP SECRET ON OFF [PC..] < TRACE
   GROUP, SECRET, ON, OFF: the addresses of the marks (marks.h), by which the trace is cut.
   Prints 'site PC branch|address LOW HIGH': the instruction after which two runs differ, or whose address does, and the least and
   the greatest of these addresses.
   Prints 'went PC GROUP HASH COUNT' for each PC that is given: where the first run of a group went from there, and at which
   addresses it read and wrote there.
   Prints 'ran PC' for each instruction that ran, 'lost GROUP' if two runs do not come together again, and at the end 'runs COUNT
   INSTRUCTIONS'. */
#include <stdint.h>
#include <stdio.h>
#include <stdlib.h>
#include <string.h>

enum { SAME = 24, FAR = 3000, SITES = 1 << 16, MOST_RUNS = 16 };

struct run {
    uint64_t *pc, *data;
    uint32_t *first; /* of each instruction, the place of its first address */
    size_t count, room, data_count, data_room;
};

static struct { uint64_t pc, low, high; int branch; } sites[SITES];
static uint64_t ran[SITES];

static void *grown(void *old, size_t size) {
    void *new = realloc(old, size);
    if (!new) exit(2);
    return new;
}

static void add_pc(struct run *r, uint64_t pc) {
    size_t at = pc * 0x9E3779B97F4A7C15u >> 48;
    while (ran[at] && ran[at] != pc) at = (at + 1) % SITES;
    ran[at] = pc;
    if (r->count + 2 > r->room) {
        r->room = r->room ? 2 * r->room : 1 << 16;
        r->pc = grown(r->pc, r->room * sizeof *r->pc);
        r->first = grown(r->first, r->room * sizeof *r->first);
    }
    r->pc[r->count] = pc;
    r->first[r->count++] = (uint32_t)r->data_count;
    r->first[r->count] = (uint32_t)r->data_count;
}

static void add_data(struct run *r, uint64_t address) {
    if (!r->count) return;
    if (r->data_count == r->data_room) {
        r->data_room = r->data_room ? 2 * r->data_room : 1 << 16;
        r->data = grown(r->data, r->data_room * sizeof *r->data);
    }
    r->data[r->data_count++] = address;
    r->first[r->count] = (uint32_t)r->data_count;
}

static void site(uint64_t pc, int branch, uint64_t a, uint64_t b) {
    size_t at = (pc * 2 + (uint64_t)branch) * 0x9E3779B97F4A7C15u >> 48;
    while (sites[at].pc && (sites[at].pc != pc || sites[at].branch != branch)) at = (at + 1) % SITES;
    if (!sites[at].pc) sites[at].low = UINT64_MAX;
    sites[at].pc = pc;
    sites[at].branch = branch;
    uint64_t low = a < b ? a : b, high = a < b ? b : a;
    if (low < sites[at].low) sites[at].low = low;
    if (high > sites[at].high) sites[at].high = high;
}

/* Whether the two go through the same instructions from there on, as far as is looked. */
static int together(const struct run *a, size_t i, const struct run *b, size_t j) {
    size_t left_a = a->count - i, left_b = b->count - j;
    size_t n = SAME;
    if (left_a < SAME || left_b < SAME) {
        if (left_a != left_b) return 0;
        n = left_a;
    }
    return !memcmp(a->pc + i, b->pc + j, n * sizeof *a->pc);
}

static void compare(const struct run *a, const struct run *b, unsigned group) {
    size_t i = 0, j = 0;
    while (i < a->count && j < b->count) {
        if (a->pc[i] == b->pc[j]) {
            uint32_t n = a->first[i + 1] - a->first[i], m = b->first[j + 1] - b->first[j];
            for (uint32_t d = 0; d < n && d < m; d++) {
                uint64_t x = a->data[a->first[i] + d], y = b->data[b->first[j] + d];
                if (x != y) site(a->pc[i], 0, x, y);
            }
            i++, j++;
            continue;
        }
        site(i ? a->pc[i - 1] : 0, 1, 0, 0);
        int found = 0;
        for (size_t d = 1; d < FAR && !found; d++)
            for (size_t in_a = 0; in_a <= d && !found; in_a++)
                if (i + in_a <= a->count && j + (d - in_a) <= b->count && together(a, i + in_a, b, j + (d - in_a))) {
                    i += in_a, j += d - in_a;
                    found = 1;
                }
        if (!found) {
            printf("lost %u\n", group);
            return;
        }
    }
    if (i < a->count || j < b->count) site(i ? a->pc[i - 1] : 0, 1, 0, 0);
}

int main(int argc, char **argv) {
    static struct run runs_of_group[MOST_RUNS];
    uint64_t marks[4], instructions = 0, runs = 0;
    unsigned group = 0;
    int groups = 0, in_run = 0, on = 0;
    size_t before = 0; /* how many runs of the group have ended */
    if (argc < 5) return 2;
    for (int i = 0; i < 4; i++) marks[i] = strtoull(argv[1 + i], NULL, 16);
    for (;;) {
        uint64_t word = 0;
        int more = fread(&word, sizeof word, 1, stdin) == 1;
        enum { RUNS, READS, WRITES } kind = word >> 62;
        uint64_t address = word << 2 >> 2;
        int ends = !more || (kind == WRITES && (address == marks[0] || address == marks[1]));
        struct run *run = &runs_of_group[before];
        if (ends && in_run) {
            instructions += run->count;
            runs++;
            for (int w = 5; !before && w < argc; w++) {
                uint64_t pc = strtoull(argv[w], NULL, 16), hash = 0, count = 0;
                for (size_t i = 0; i + 1 < run->count; i++) {
                    if (run->pc[i] != pc) continue;
                    hash = (hash ^ run->pc[i + 1]) * 0x100000001B3u + 1, count++;
                    for (uint32_t d = run->first[i]; d < run->first[i + 1]; d++)
                        hash = (hash ^ run->data[d]) * 0x100000001B3u + 1;
                }
                printf("went %llx %u %llx %llu\n", (unsigned long long)pc, group, (unsigned long long)hash,
                       (unsigned long long)count);
            }
            for (size_t other = 0; other < before; other++) compare(&runs_of_group[other], run, group);
            if (++before == MOST_RUNS) return 2;
            run = &runs_of_group[before];
            in_run = 0;
        }
        if (!more) break;
        if (ends) {
            on = 0;
            if (address == marks[0]) group = (unsigned)groups++, before = 0;
            else {
                run->count = run->data_count = 0;
                in_run = 1;
            }
        } else if (kind == WRITES && address == marks[2]) on = 1;
        else if (kind == WRITES && address == marks[3]) on = 0;
        else if (on && in_run) {
            if (kind == RUNS) add_pc(run, address);
            else add_data(run, address);
        }
    }
    for (size_t i = 0; i < SITES; i++)
        if (sites[i].pc)
            printf("site %llx %s %llx %llx\n", (unsigned long long)sites[i].pc, sites[i].branch ? "branch" : "address",
                   (unsigned long long)sites[i].low, (unsigned long long)sites[i].high);
    for (size_t i = 0; i < SITES; i++)
        if (ran[i]) printf("ran %llx\n", (unsigned long long)ran[i]);
    printf("runs %llu %llu\n", (unsigned long long)runs, (unsigned long long)instructions);
    return 0;
}

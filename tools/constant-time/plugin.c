/* A plugin for QEMU in user mode that traces a program for any processor: qemu-ARCH -plugin plugin.so,fd=N,group=A,secret=A,on=A,off=A
   It writes words of 64 bits to the file N, for traces.c: an address, and in the two highest bits what happens there: 0 an instruction
   runs, 1 it reads, 2 it writes. The addresses A of the marks (marks.h) are in hexadecimal. Stores to marks are always written, and all
   else only between `on` and `off`.
   It does not see what QEMU reads and writes in functions of its own: of AArch64 these are `dc zva` and the loads and stores of SVE. */
#include <stdbool.h>
#include <stdint.h>
#include <stdlib.h>
#include <string.h>
#include <unistd.h>

/* What is used here of QEMU's interface, which is the same in its versions from 1 on, of QEMU 7.2. A QEMU takes only plugins that name a
   version that it has, so constant-time.sh looks for one. Debian does not ship qemu-plugin.h. */
typedef uint64_t qemu_plugin_id_t;
typedef uint32_t qemu_plugin_meminfo_t;
struct qemu_plugin_tb;
struct qemu_plugin_insn;
void qemu_plugin_register_vcpu_tb_trans_cb(qemu_plugin_id_t id, void (*call)(qemu_plugin_id_t, struct qemu_plugin_tb *));
void qemu_plugin_register_vcpu_insn_exec_cb(struct qemu_plugin_insn *insn, void (*call)(unsigned, void *), int flags, void *data);
void qemu_plugin_register_vcpu_mem_cb(struct qemu_plugin_insn *insn, void (*call)(unsigned, qemu_plugin_meminfo_t, uint64_t, void *),
                                      int flags, int read_and_write, void *data);
void qemu_plugin_register_atexit_cb(qemu_plugin_id_t id, void (*call)(qemu_plugin_id_t, void *), void *data);
size_t qemu_plugin_tb_n_insns(const struct qemu_plugin_tb *tb);
struct qemu_plugin_insn *qemu_plugin_tb_get_insn(const struct qemu_plugin_tb *tb, size_t index);
uint64_t qemu_plugin_insn_vaddr(const struct qemu_plugin_insn *insn);
bool qemu_plugin_mem_is_store(qemu_plugin_meminfo_t info);

#define EXPORTED __attribute__((visibility("default")))
EXPORTED int qemu_plugin_version = VERSION;

enum { GROUP, SECRET, ON, OFF, MARKS };
enum { RUNS, READS, WRITES, READ_AND_WRITE = 3 };
static const char *const names[MARKS] = {"group=", "secret=", "on=", "off="};
static uint64_t marks[MARKS], words[1 << 13];
static size_t used;
static int file = -1, on;

static void flush(void) {
    const char *at = (const char *)words, *end = (const char *)(words + used);
    while (at < end) {
        ssize_t written = write(file, at, (size_t)(end - at));
        if (written <= 0) _exit(97);
        at += written;
    }
    used = 0;
}

static void put(uint64_t address, uint64_t kind) {
    words[used++] = address | kind << 62;
    if (used == sizeof words / sizeof *words) flush();
}

static void runs(unsigned processor, void *pc) {
    (void)processor;
    if (on) put((uintptr_t)pc, RUNS);
}

static void touches(unsigned processor, qemu_plugin_meminfo_t info, uint64_t address, void *nothing) {
    uint64_t kind = qemu_plugin_mem_is_store(info) ? WRITES : READS;
    (void)processor, (void)nothing;
    for (int i = 0; kind == WRITES && i < MARKS; i++)
        if (address == marks[i]) {
            on = i == ON || (i != OFF && on);
            put(address, kind);
            return;
        }
    if (on) put(address, kind);
}

static void translated(qemu_plugin_id_t id, struct qemu_plugin_tb *tb) {
    (void)id;
    for (size_t i = 0; i < qemu_plugin_tb_n_insns(tb); i++) {
        struct qemu_plugin_insn *insn = qemu_plugin_tb_get_insn(tb, i);
        qemu_plugin_register_vcpu_insn_exec_cb(insn, runs, 0, (void *)(uintptr_t)qemu_plugin_insn_vaddr(insn));
        qemu_plugin_register_vcpu_mem_cb(insn, touches, 0, READ_AND_WRITE, NULL);
    }
}

static void ends(qemu_plugin_id_t id, void *nothing) {
    (void)id, (void)nothing;
    flush();
}

EXPORTED int qemu_plugin_install(qemu_plugin_id_t id, const void *info, int count, char **options) {
    (void)info;
    for (int i = 0; i < count; i++) {
        if (!strncmp(options[i], "fd=", 3)) file = atoi(options[i] + 3);
        for (int mark = 0; mark < MARKS; mark++)
            if (!strncmp(options[i], names[mark], strlen(names[mark])))
                marks[mark] = strtoull(options[i] + strlen(names[mark]), NULL, 16);
    }
    if (file < 0 || !marks[OFF]) return 1;
    qemu_plugin_register_vcpu_tb_trans_cb(id, translated);
    qemu_plugin_register_atexit_cb(id, ends, NULL);
    return 0;
}

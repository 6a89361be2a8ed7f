// A plugin for qemu-user: counts the guest's instructions between the two calls of each pair of getppid() (system call 110
// of x86-64) and prints each count on standard error. The declarations of qemu's plugin interface, version 1, that it
// needs stand here, since qemu's packages bring no header.
#include <stddef.h>
#include <stdint.h>
#include <stdio.h>

typedef uint64_t plugin;
struct qemu_plugin_tb;
struct qemu_plugin_insn;
enum { ADD = 0, GETPPID = 110 };
void qemu_plugin_register_vcpu_tb_trans_cb(plugin, void (*)(plugin, struct qemu_plugin_tb *));
size_t qemu_plugin_tb_n_insns(const struct qemu_plugin_tb *);
struct qemu_plugin_insn *qemu_plugin_tb_get_insn(const struct qemu_plugin_tb *, size_t);
void qemu_plugin_register_vcpu_insn_exec_inline(struct qemu_plugin_insn *, int, void *, uint64_t);
void qemu_plugin_register_vcpu_syscall_cb(plugin, void (*)(plugin, unsigned, int64_t, uint64_t, uint64_t, uint64_t, uint64_t, uint64_t, uint64_t, uint64_t, uint64_t));

int qemu_plugin_version = 1;
static uint64_t all, start;
static int inside;

// Each instruction counts itself. A block's own number of instructions would not do: qemu 7.2 gives one too many where the next
// instruction lies across two pages, so that counts would move with the addresses of a link.
static void translated(plugin id, struct qemu_plugin_tb *block) {
    for (size_t i = 0; i < qemu_plugin_tb_n_insns(block); i++)
        qemu_plugin_register_vcpu_insn_exec_inline(qemu_plugin_tb_get_insn(block, i), ADD, &all, 1);
}

static void called(plugin id, unsigned cpu, int64_t number, uint64_t a, uint64_t b, uint64_t c, uint64_t d, uint64_t e, uint64_t f, uint64_t g, uint64_t h) {
    if (number != GETPPID) return;
    if (inside) fprintf(stderr, "%lu\n", (unsigned long)(all - start));
    inside = !inside;
    start = all;
}

int qemu_plugin_install(plugin id, const void *info, int argc, char **argv) {
    qemu_plugin_register_vcpu_tb_trans_cb(id, translated);
    qemu_plugin_register_vcpu_syscall_cb(id, called);
    return 0;
}

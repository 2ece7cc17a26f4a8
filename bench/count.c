/* A plugin of QEMU's user mode. When the program ends, it prints how many instructions were executed, and how many of them from
 * one address to another, which the options from=HEX,to=HEX say. It declares what it uses of version 1 of the interface, since
 * Debian has no package with its header. */
#include <inttypes.h>
#include <stddef.h>
#include <stdint.h>
#include <stdio.h>
#include <stdlib.h>
#include <string.h>

typedef uint64_t plugin_id;
struct qemu_plugin_tb;
struct qemu_plugin_insn;
typedef void on_block(plugin_id, struct qemu_plugin_tb *);
typedef void on_exit_(plugin_id, void *);
enum { ADD = 0 };

void qemu_plugin_register_vcpu_tb_trans_cb(plugin_id, on_block *);
void qemu_plugin_register_vcpu_tb_exec_inline(struct qemu_plugin_tb *, int, void *, uint64_t);
size_t qemu_plugin_tb_n_insns(const struct qemu_plugin_tb *);
struct qemu_plugin_insn *qemu_plugin_tb_get_insn(const struct qemu_plugin_tb *, size_t);
uint64_t qemu_plugin_insn_vaddr(const struct qemu_plugin_insn *);
void qemu_plugin_register_atexit_cb(plugin_id, on_exit_ *, void *);
void qemu_plugin_outs(const char *);
extern int qemu_plugin_version;
int qemu_plugin_install(plugin_id, const void *, int, char **);

int qemu_plugin_version = 1;

static uint64_t from, to, instructions, within;

static void translated(plugin_id id, struct qemu_plugin_tb *block) {
    size_t count = qemu_plugin_tb_n_insns(block), count_within = 0;
    (void)id;
    for (size_t i = 0; i < count; i++) {
        uint64_t address = qemu_plugin_insn_vaddr(qemu_plugin_tb_get_insn(block, i));
        if (from <= address && address <= to) count_within++;
    }
    qemu_plugin_register_vcpu_tb_exec_inline(block, ADD, &instructions, count);
    qemu_plugin_register_vcpu_tb_exec_inline(block, ADD, &within, count_within);
}

static void ended(plugin_id id, void *unused) {
    char line[80];
    (void)id, (void)unused;
    snprintf(line, sizeof line, "instructions: %" PRIu64 "\nwithin: %" PRIu64 "\n", instructions, within);
    qemu_plugin_outs(line);
}

int qemu_plugin_install(plugin_id id, const void *info, int argc, char **argv) {
    (void)info;
    for (int i = 0; i < argc; i++) {
        if (strncmp(argv[i], "from=", 5) == 0) from = strtoull(argv[i] + 5, NULL, 16);
        if (strncmp(argv[i], "to=", 3) == 0) to = strtoull(argv[i] + 3, NULL, 16);
    }
    qemu_plugin_register_vcpu_tb_trans_cb(id, translated);
    qemu_plugin_register_atexit_cb(id, ended, NULL);
    return 0;
}

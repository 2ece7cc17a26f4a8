/* A plugin of QEMU's user mode. Each time that the program comes from the instruction at FROM to the one at TO, it writes a
 * line to OUT: how many instructions were executed between, how many times memory was accessed, and a sum of all these
 * addresses in their order. Options: from=HEX,to=HEX,out=FILE. It declares what it uses of version 1 of the interface,
 * since Debian has no package with its header. */
#include <inttypes.h>
#include <stdbool.h>
#include <stddef.h>
#include <stdint.h>
#include <stdio.h>
#include <stdlib.h>
#include <string.h>

typedef uint64_t plugin_id;
typedef uint32_t access_info;
struct qemu_plugin_tb;
struct qemu_plugin_insn;
typedef void on_block(plugin_id, struct qemu_plugin_tb *);
typedef void on_instruction(unsigned, void *);
typedef void on_access(unsigned, access_info, uint64_t, void *);
typedef void on_exit_(plugin_id, void *);
enum { NO_REGISTERS = 0, READS_AND_WRITES = 3 };

void qemu_plugin_register_vcpu_tb_trans_cb(plugin_id, on_block *);
size_t qemu_plugin_tb_n_insns(const struct qemu_plugin_tb *);
struct qemu_plugin_insn *qemu_plugin_tb_get_insn(const struct qemu_plugin_tb *, size_t);
uint64_t qemu_plugin_insn_vaddr(const struct qemu_plugin_insn *);
void qemu_plugin_register_vcpu_insn_exec_cb(struct qemu_plugin_insn *, on_instruction *, int, void *);
void qemu_plugin_register_vcpu_mem_cb(struct qemu_plugin_insn *, on_access *, int, int, void *);
void qemu_plugin_register_atexit_cb(plugin_id, on_exit_ *, void *);
extern int qemu_plugin_version;
int qemu_plugin_install(plugin_id, const void *, int, char **);

int qemu_plugin_version = 1;

/* FNV-1a's basis and prime, of 64 bits. */
static const uint64_t basis = 14695981039346656037u, prime = 1099511628211u;

static uint64_t from, to, instructions, accesses, sum;
static bool between;
static FILE *out;

static void mix(uint64_t value) {
    sum = (sum ^ value) * prime;
    sum ^= sum >> 29;
}

static void executed(unsigned cpu, void *given) {
    const uint64_t address = (uint64_t)(uintptr_t)given;
    (void)cpu;
    if (address == to && between) {
        between = false;
        fprintf(out, "%" PRIu64 " %" PRIu64 " %016" PRIx64 "\n", instructions, accesses, sum);
    }
    if (between) {
        instructions++;
        mix(address);
    }
    if (address == from) {
        between = true;
        instructions = accesses = 0;
        sum = basis;
    }
}

static void accessed(unsigned cpu, access_info info, uint64_t address, void *unused) {
    (void)cpu, (void)unused;
    if (between) {
        accesses++;
        mix(address ^ (uint64_t)info << 48);
    }
}

static void translated(plugin_id id, struct qemu_plugin_tb *block) {
    (void)id;
    for (size_t i = 0; i < qemu_plugin_tb_n_insns(block); i++) {
        struct qemu_plugin_insn *it = qemu_plugin_tb_get_insn(block, i);
        void *address = (void *)(uintptr_t)qemu_plugin_insn_vaddr(it);
        qemu_plugin_register_vcpu_insn_exec_cb(it, executed, NO_REGISTERS, address);
        qemu_plugin_register_vcpu_mem_cb(it, accessed, NO_REGISTERS, READS_AND_WRITES, NULL);
    }
}

static void ended(plugin_id id, void *unused) {
    (void)id, (void)unused;
    fclose(out);
}

int qemu_plugin_install(plugin_id id, const void *info, int argc, char **argv) {
    (void)info;
    for (int i = 0; i < argc; i++) {
        if (strncmp(argv[i], "from=", 5) == 0) from = strtoull(argv[i] + 5, NULL, 16);
        if (strncmp(argv[i], "to=", 3) == 0) to = strtoull(argv[i] + 3, NULL, 16);
        if (strncmp(argv[i], "out=", 4) == 0) out = fopen(argv[i] + 4, "w");
    }
    if (!from || !to || !out) return 1;
    qemu_plugin_register_vcpu_tb_trans_cb(id, translated);
    qemu_plugin_register_atexit_cb(id, ended, NULL);
    return 0;
}

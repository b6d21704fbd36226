/* SPDX-License-Identifier: MIT
 *
 * A plugin for QEMU that counts the instructions of the guest: `qemu-arm -plugin count.so -d plugin PROGRAM`; it says the count at the
 * end, after the word `instructions`. Debian's qemu takes plugins and ships no header for them, so the few functions of the interface,
 * version 1, that it needs are declared here as QEMU's documentation has them.
 */
#include <inttypes.h>
#include <stddef.h>
#include <stdint.h>
#include <stdio.h>

#define VISIBLE __attribute__((visibility("default")))

struct qemu_plugin_tb;
struct qemu_plugin_insn;
typedef uint64_t plugin_id;
enum operation { ADD_U64 };

size_t qemu_plugin_tb_n_insns(const struct qemu_plugin_tb *block);
struct qemu_plugin_insn *qemu_plugin_tb_get_insn(const struct qemu_plugin_tb *block, size_t index);
void qemu_plugin_register_vcpu_insn_exec_inline(struct qemu_plugin_insn *instruction, enum operation operation, void *to, uint64_t value);
void qemu_plugin_register_vcpu_tb_trans_cb(plugin_id id, void (*translated)(plugin_id, struct qemu_plugin_tb *));
void qemu_plugin_register_atexit_cb(plugin_id id, void (*ended)(plugin_id, void *), void *with);
void qemu_plugin_outs(const char *text);

extern VISIBLE int qemu_plugin_version;
int qemu_plugin_version = 1;

VISIBLE int qemu_plugin_install(plugin_id id, const void *machine, int count, char **words);

static uint64_t instructions;

static void translated(plugin_id id, struct qemu_plugin_tb *block) {
    (void)id;
    const size_t count = qemu_plugin_tb_n_insns(block);
    for (size_t i = 0; i < count; i++)
        qemu_plugin_register_vcpu_insn_exec_inline(qemu_plugin_tb_get_insn(block, i), ADD_U64, &instructions, 1);
}

static void ended(plugin_id id, void *with) {
    char text[64];
    (void)id, (void)with;
    snprintf(text, sizeof text, "instructions %" PRIu64 "\n", instructions);
    qemu_plugin_outs(text);
}

int qemu_plugin_install(plugin_id id, const void *machine, int count, char **words) {
    (void)machine, (void)count, (void)words;
    qemu_plugin_register_vcpu_tb_trans_cb(id, translated);
    qemu_plugin_register_atexit_cb(id, ended, NULL);
    return 0;
}

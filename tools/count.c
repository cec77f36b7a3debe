/* A plugin for qemu's user-mode emulator: counts the guest's instructions and prints the total as the program ends. */
#include <stdint.h>
#include <stdio.h>

struct qemu_plugin_tb;
typedef void translated(uint64_t plugin, struct qemu_plugin_tb *block);
typedef void ended(uint64_t plugin, void *unused);
size_t qemu_plugin_tb_n_insns(const struct qemu_plugin_tb *block);
void qemu_plugin_register_vcpu_tb_trans_cb(uint64_t plugin, translated *call);
void qemu_plugin_register_vcpu_tb_exec_inline(struct qemu_plugin_tb *block, int add, void *to, uint64_t what);
void qemu_plugin_register_atexit_cb(uint64_t plugin, ended *call, void *unused);

int qemu_plugin_version = 1;
static uint64_t total;

static void on_block(uint64_t plugin, struct qemu_plugin_tb *block) {
    qemu_plugin_register_vcpu_tb_exec_inline(block, 0, &total, qemu_plugin_tb_n_insns(block));
    (void)plugin;
}

static void at_end(uint64_t plugin, void *unused) {
    fprintf(stderr, "instructions %llu\n", (unsigned long long)total);
    (void)plugin;
    (void)unused;
}

int qemu_plugin_install(uint64_t plugin, const void *info, int argc, char **argv) {
    qemu_plugin_register_vcpu_tb_trans_cb(plugin, on_block);
    qemu_plugin_register_atexit_cb(plugin, at_end, NULL);
    (void)info;
    (void)argc;
    (void)argv;
    return 0;
}

/* Counts the instructions of a program of one thread that qemu-user runs, and writes a line `insns N` to standard error when the program exits. A
   plugin for qemu's plugin interface, version 1, which Debian 12's qemu-user has. It is built, and X86_COUNT is set (cabi/tools.sh), by
     cc -O2 -shared -fPIC -o insns.so bench/insns.c
     export X86_COUNT="qemu-x86_64 -plugin $PWD/insns.so" */
#include <inttypes.h>
#include <stddef.h>
#include <stdio.h>

/* What is used of qemu's header qemu-plugin.h, which does not come with qemu-user. A block is a row of instructions that qemu translates at once. */
typedef uint64_t qemu_plugin_id_t;
typedef struct qemu_info_t qemu_info_t;
struct qemu_plugin_tb;
enum qemu_plugin_op { QEMU_PLUGIN_INLINE_ADD_U64 };
typedef void (*qemu_plugin_vcpu_tb_trans_cb_t)(qemu_plugin_id_t id, struct qemu_plugin_tb *block);
typedef void (*qemu_plugin_udata_cb_t)(qemu_plugin_id_t id, void *data);
void qemu_plugin_register_vcpu_tb_trans_cb(qemu_plugin_id_t id, qemu_plugin_vcpu_tb_trans_cb_t translated);
void qemu_plugin_register_vcpu_tb_exec_inline(struct qemu_plugin_tb *block, enum qemu_plugin_op op, void *number, uint64_t operand);
void qemu_plugin_register_atexit_cb(qemu_plugin_id_t id, qemu_plugin_udata_cb_t ended, void *data);
size_t qemu_plugin_tb_n_insns(const struct qemu_plugin_tb *block);

/* What qemu looks up. */
int qemu_plugin_version = 1;
int qemu_plugin_install(qemu_plugin_id_t id, const qemu_info_t *info, int argc, char **argv);

static uint64_t count;

/* Each time that the block is run, its instructions are added. */
static void translated(qemu_plugin_id_t id, struct qemu_plugin_tb *block) {
    (void)id;
    qemu_plugin_register_vcpu_tb_exec_inline(block, QEMU_PLUGIN_INLINE_ADD_U64, &count, qemu_plugin_tb_n_insns(block));
}

static void ended(qemu_plugin_id_t id, void *data) {
    (void)id;
    (void)data;
    fprintf(stderr, "insns %" PRIu64 "\n", count);
}

int qemu_plugin_install(qemu_plugin_id_t id, const qemu_info_t *info, int argc, char **argv) {
    (void)info;
    (void)argc;
    (void)argv;
    qemu_plugin_register_vcpu_tb_trans_cb(id, translated);
    qemu_plugin_register_atexit_cb(id, ended, NULL);
    return 0;
}

/* Counts the machine instructions that a program runs under qemu's user emulation, and writes the sum to standard error when it ends:

       gcc -shared -fPIC -O2 count.c -o count.so
       qemu-x86_64 -plugin ./count.so PROGRAM

   qemu translates a program block by block. For each instruction of a block we ask it to add one to a sum whenever that instruction runs,
   which costs no call. (Adding a block's count of instructions when the block begins would be quicker, but is too much by one where qemu
   ended a block because its next instruction crosses from one page into another: it then depends on where the linker put the code.) Of a
   repeated string instruction each turn counts as one.

   qemu's header for plugins is in no package of Debian 12, so what we need of it is declared here. It fits version 1 of the interface and
   was tried with qemu 7.2, which Debian 12 has; a qemu that no longer takes version 1 says so and starts no program. */
#include <stddef.h>
#include <stdint.h>
#include <stdio.h>

typedef uint64_t plugin_id;
struct qemu_info_t;
struct qemu_plugin_tb;
struct qemu_plugin_insn;

enum { ADD_U64 = 0 };

void qemu_plugin_register_vcpu_tb_trans_cb(plugin_id id, void (*translated)(plugin_id, struct qemu_plugin_tb *));
void qemu_plugin_register_vcpu_insn_exec_inline(struct qemu_plugin_insn *instruction, int operation, void *sum, uint64_t added);
void qemu_plugin_register_atexit_cb(plugin_id id, void (*ended)(plugin_id, void *), void *data);
size_t qemu_plugin_tb_n_insns(const struct qemu_plugin_tb *block);
struct qemu_plugin_insn *qemu_plugin_tb_get_insn(const struct qemu_plugin_tb *block, size_t i);

int qemu_plugin_version = 1;

static uint64_t sum;

static void translated(plugin_id id, struct qemu_plugin_tb *block)
{
    (void)id;
    for (size_t i = 0; i < qemu_plugin_tb_n_insns(block); i++)
        qemu_plugin_register_vcpu_insn_exec_inline(qemu_plugin_tb_get_insn(block, i), ADD_U64, &sum, 1);
}

static void ended(plugin_id id, void *data)
{
    (void)id, (void)data;
    fprintf(stderr, "instructions %llu\n", (unsigned long long)sum);
}

int qemu_plugin_install(plugin_id id, const struct qemu_info_t *info, int count, char **words)
{
    (void)info, (void)count, (void)words;
    qemu_plugin_register_vcpu_tb_trans_cb(id, translated);
    qemu_plugin_register_atexit_cb(id, ended, NULL);
    return 0;
}

/* Counts how many words of a piece of memory a program reads and writes under qemu's user emulation, and writes both sums to standard
   error when it ends. The piece is told by its first address and the one behind it:

       gcc -shared -fPIC -O2 trips.c -o trips.so
       qemu-x86_64 -plugin ./trips.so,first=ADDRESS,end=ADDRESS PROGRAM

   For each instruction that reads or writes memory qemu calls us with the address and the size, and what lies in the piece is counted in
   words of 16 bits, as the bus carries them: a byte is a trip of its own, and four words that are read at once are four trips. An
   instruction that changes a word in its place reads it and writes it.

   What is declared here fits version 1 of the interface, as in count.c. */
#include <inttypes.h>
#include <stdbool.h>
#include <stddef.h>
#include <stdio.h>
#include <stdlib.h>
#include <string.h>

typedef uint64_t plugin_id;
typedef uint32_t memory_info;
struct qemu_info_t;
struct qemu_plugin_tb;
struct qemu_plugin_insn;

enum { NO_REGISTERS = 0 };
enum { READS_AND_WRITES = 3 };

void qemu_plugin_register_vcpu_tb_trans_cb(plugin_id id, void (*translated)(plugin_id, struct qemu_plugin_tb *));
void qemu_plugin_register_vcpu_mem_cb(struct qemu_plugin_insn *instruction, void (*reached)(unsigned, memory_info, uint64_t, void *),
                                      int registers, int which, void *data);
void qemu_plugin_register_atexit_cb(plugin_id id, void (*ended)(plugin_id, void *), void *data);
size_t qemu_plugin_tb_n_insns(const struct qemu_plugin_tb *block);
struct qemu_plugin_insn *qemu_plugin_tb_get_insn(const struct qemu_plugin_tb *block, size_t i);
unsigned qemu_plugin_mem_size_shift(memory_info info);
bool qemu_plugin_mem_is_store(memory_info info);

int qemu_plugin_version = 1;

static uint64_t first, end, reads, writes;

/* A word begins at every even address. */
static void reached(unsigned processor, memory_info info, uint64_t address, void *data)
{
    (void)processor, (void)data;
    uint64_t behind = address + (UINT64_C(1) << qemu_plugin_mem_size_shift(info));
    uint64_t from = address < first ? first : address, upto = behind > end ? end : behind;
    if (from >= upto)
        return;
    uint64_t words = (upto - 1) / 2 - from / 2 + 1;
    *(qemu_plugin_mem_is_store(info) ? &writes : &reads) += words;
}

static void translated(plugin_id id, struct qemu_plugin_tb *block)
{
    (void)id;
    for (size_t i = 0; i < qemu_plugin_tb_n_insns(block); i++)
        qemu_plugin_register_vcpu_mem_cb(qemu_plugin_tb_get_insn(block, i), reached, NO_REGISTERS, READS_AND_WRITES, NULL);
}

static void ended(plugin_id id, void *data)
{
    (void)id, (void)data;
    fprintf(stderr, "trips %" PRIu64 " %" PRIu64 "\n", reads, writes);
}

int qemu_plugin_install(plugin_id id, const struct qemu_info_t *info, int count, char **words)
{
    (void)info;
    for (int i = 0; i < count; i++) {
        if (strncmp(words[i], "first=", 6) == 0)
            first = strtoull(words[i] + 6, NULL, 10);
        if (strncmp(words[i], "end=", 4) == 0)
            end = strtoull(words[i] + 4, NULL, 10);
    }
    if (first >= end)
        return 1;
    qemu_plugin_register_vcpu_tb_trans_cb(id, translated);
    qemu_plugin_register_atexit_cb(id, ended, NULL);
    return 0;
}

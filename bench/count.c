// A plug-in for the emulator (qemu-user): counts the instructions that a program executes. Each time the program closes the descriptor MARK,
// what was counted since the last time goes into the file `out=` as a line, and at the end of the program what was counted of it all.
#include <inttypes.h>
#include <stddef.h>
#include <stdint.h>
#include <stdio.h>
#include <string.h>

// What is used of qemu-plugin.h, which Debian does not package.
#define EXPORT __attribute__((visibility("default")))
typedef uint64_t plugin;
struct block;
struct instruction;
typedef void on_block(plugin, struct block *);
typedef void on_end(plugin, void *);
typedef void on_call(plugin, unsigned, int64_t, uint64_t, uint64_t, uint64_t, uint64_t, uint64_t, uint64_t, uint64_t, uint64_t);
extern void qemu_plugin_register_vcpu_tb_trans_cb(plugin, on_block *);
extern void qemu_plugin_register_vcpu_syscall_cb(plugin, on_call *);
extern void qemu_plugin_register_atexit_cb(plugin, on_end *, void *);
extern void qemu_plugin_register_vcpu_insn_exec_inline(struct instruction *, int, void *, uint64_t);
extern size_t qemu_plugin_tb_n_insns(const struct block *);
extern struct instruction *qemu_plugin_tb_get_insn(const struct block *, size_t);
// The first version of the interface, which the emulator of Debian 12 has.
EXPORT int qemu_plugin_version = 1;

enum { ADD = 0, CLOSE = 3, MARK = -0x6d6f78 };

static uint64_t count, marked;
static FILE *out;

// Each instruction adds one when it is run. To add a block's number would be wrong: where the next instruction crosses a page, the block's
// number has that one too, though it is run in a block of its own.
static void translated(plugin id, struct block *block) {
    for (size_t i = 0; i < qemu_plugin_tb_n_insns(block); i++)
        qemu_plugin_register_vcpu_insn_exec_inline(qemu_plugin_tb_get_insn(block, i), ADD, &count, 1);
}

static void called(plugin id, unsigned cpu, int64_t number, uint64_t a, uint64_t b, uint64_t c, uint64_t d, uint64_t e, uint64_t f,
                   uint64_t g, uint64_t h) {
    if (number != CLOSE || (int32_t)a != MARK) return;
    fprintf(out, "%" PRIu64 "\n", count - marked);
    fflush(out); // the program reads it now
    marked = count;
}

static void ended(plugin id, void *nothing) {
    fprintf(out, "%" PRIu64 "\n", count);
    fclose(out);
}

EXPORT int qemu_plugin_install(plugin id, const void *info, int count_of_arguments, char **arguments) {
    for (int i = 0; i < count_of_arguments; i++)
        if (!strncmp(arguments[i], "out=", 4)) out = fopen(arguments[i] + 4, "w");
    if (!out) return 1;
    qemu_plugin_register_vcpu_tb_trans_cb(id, translated);
    qemu_plugin_register_vcpu_syscall_cb(id, called);
    qemu_plugin_register_atexit_cb(id, ended, NULL);
    return 0;
}

/* A plugin for qemu-x86_64: how many instructions did the program execute?
 *
 *   cc -shared -fPIC -O2 count.c -o count.so
 *   qemu-x86_64 -plugin ./count.so PROGRAM
 *
 * The number goes to standard error when the program ends. It is the same in
 * every run. Debian's package of QEMU has no header for plugins, so the little
 * that is used of it is declared here. */
#include <inttypes.h>
#include <stddef.h>
#include <stdint.h>
#include <stdio.h>

typedef uint64_t plugin_id;
typedef struct qemu_plugin_tb block;

extern void qemu_plugin_register_vcpu_tb_trans_cb(plugin_id, void (*)(plugin_id, block *));
extern void qemu_plugin_register_vcpu_tb_exec_inline(block *, int, void *, uint64_t);
extern void qemu_plugin_register_atexit_cb(plugin_id, void (*)(plugin_id, void *), void *);
extern size_t qemu_plugin_tb_n_insns(const block *);

/* The version of the interface that this was written for. */
int qemu_plugin_version = 1;

/* The only operation on a counter: add to it. */
enum { ADD = 0 };

static uint64_t executed;

/* Called once for each block that QEMU translates; the counter then grows by
 * the block's length whenever the block is executed. */
static void at_block(plugin_id self, block *one)
{
    (void)self;
    qemu_plugin_register_vcpu_tb_exec_inline(one, ADD, &executed, qemu_plugin_tb_n_insns(one));
}

static void at_end(plugin_id self, void *unused)
{
    (void)self;
    (void)unused;
    fprintf(stderr, "instructions %" PRIu64 "\n", executed);
}

int qemu_plugin_install(plugin_id self, const void *about, int words, char **word)
{
    (void)about;
    (void)words;
    (void)word;
    qemu_plugin_register_vcpu_tb_trans_cb(self, at_block);
    qemu_plugin_register_atexit_cb(self, at_end, NULL);
    return 0;
}

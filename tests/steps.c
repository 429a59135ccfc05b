/* Counts the instructions of a program under Debian's emulator (qemu-user), as
   a plugin of it: file=steps.so,to=NAME writes the number to NAME at the end. */
#include <inttypes.h>
#include <stdint.h>
#include <stdio.h>
#include <stdlib.h>
#include <string.h>

/* What is used of the emulator's interface, version 1. */
struct qemu_plugin_tb;
struct qemu_info_t;
extern void qemu_plugin_register_vcpu_tb_trans_cb(uint64_t id, void (*each)(uint64_t, struct qemu_plugin_tb *));
extern size_t qemu_plugin_tb_n_insns(const struct qemu_plugin_tb *block);
extern void qemu_plugin_register_vcpu_tb_exec_inline(struct qemu_plugin_tb *block, int add, void *to, uint64_t amount);
extern void qemu_plugin_register_atexit_cb(uint64_t id, void (*at_end)(uint64_t, void *), void *data);

int qemu_plugin_version = 1;
static uint64_t steps;

static void each_block(uint64_t id, struct qemu_plugin_tb *block)
{
    (void)id;
    qemu_plugin_register_vcpu_tb_exec_inline(block, 0, &steps, qemu_plugin_tb_n_insns(block));
}

static void at_end(uint64_t id, void *name)
{
    (void)id;
    FILE *out = fopen(name, "w");
    if (out == NULL || fprintf(out, "Collected : %" PRIu64 "\n", steps) < 0 || fclose(out) != 0)
        abort();
}

int qemu_plugin_install(uint64_t id, const struct qemu_info_t *info, int count, char **words)
{
    (void)info;
    if (count != 1 || strncmp(words[0], "to=", 3) != 0)
        return 1;
    qemu_plugin_register_vcpu_tb_trans_cb(id, each_block);
    qemu_plugin_register_atexit_cb(id, at_end, strdup(words[0] + 3));
    return 0;
}

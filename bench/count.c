/* A plug-in for the emulator that counts the instructions a program executes,
 * and prints the count on standard error when it ends.
 *
 * The emulator translates a program in runs of instructions that are entered at
 * the top only. Each run gets a step in front of it that adds the run's length.
 * What is used of the emulator's interface is declared here, since Debian does
 * not package its header. */
#include <inttypes.h>
#include <stddef.h>
#include <stdint.h>
#include <stdio.h>

typedef uint64_t plugin_id;
struct run;
enum { ADD_U64 = 0 };

void qemu_plugin_register_vcpu_tb_trans_cb(plugin_id id, void (*translated)(plugin_id, struct run *));
void qemu_plugin_register_vcpu_tb_exec_inline(struct run *run, int operation, void *counter, uint64_t amount);
void qemu_plugin_register_atexit_cb(plugin_id id, void (*ended)(plugin_id, void *), void *data);
size_t qemu_plugin_tb_n_insns(const struct run *run);

__attribute__((visibility("default"))) int qemu_plugin_version = 1;

static uint64_t executed;

static void translated(plugin_id id, struct run *run)
{
    (void)id;
    qemu_plugin_register_vcpu_tb_exec_inline(run, ADD_U64, &executed, qemu_plugin_tb_n_insns(run));
}

static void ended(plugin_id id, void *data)
{
    (void)id;
    (void)data;
    fprintf(stderr, "instructions %" PRIu64 "\n", executed);
}

__attribute__((visibility("default"))) int qemu_plugin_install(plugin_id id, const void *info, int count, char **words)
{
    (void)info;
    (void)count;
    (void)words;
    qemu_plugin_register_vcpu_tb_trans_cb(id, translated);
    qemu_plugin_register_atexit_cb(id, ended, NULL);
    return 0;
}

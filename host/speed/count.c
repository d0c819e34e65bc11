// A plugin for qemu-user (API version 1, as in Debian 12's qemu-user 7.2; no header needed): counts the instructions of
// the program that it runs.
//   gcc -O2 -shared -fPIC -o count.so count.c
//   qemu-x86_64 -d plugin -plugin ./count.so ./program
#include <inttypes.h>
#include <stddef.h>
#include <stdint.h>
#include <stdio.h>

typedef uint64_t qemu_plugin_id_t;
struct qemu_plugin_tb;
struct qemu_info_t;
typedef void (*block_made)(qemu_plugin_id_t, struct qemu_plugin_tb *);
typedef void (*ended)(qemu_plugin_id_t, void *);
extern void qemu_plugin_register_vcpu_tb_trans_cb(qemu_plugin_id_t, block_made);
extern size_t qemu_plugin_tb_n_insns(const struct qemu_plugin_tb *);
extern void qemu_plugin_register_vcpu_tb_exec_inline(struct qemu_plugin_tb *, int, void *, uint64_t);
extern void qemu_plugin_register_atexit_cb(qemu_plugin_id_t, ended, void *);
extern void qemu_plugin_outs(const char *);

#define OFFERED __attribute__((visibility("default")))

OFFERED int qemu_plugin_version = 1;
static uint64_t instructions;

// Each time that a block is run, its instructions are added.
static void made(qemu_plugin_id_t id, struct qemu_plugin_tb *block) {
    (void)id;
    qemu_plugin_register_vcpu_tb_exec_inline(block, 0, &instructions, qemu_plugin_tb_n_insns(block));
}

static void say(qemu_plugin_id_t id, void *nothing) {
    char line[64];
    (void)id;
    (void)nothing;
    snprintf(line, sizeof line, "instructions %" PRIu64 "\n", instructions);
    qemu_plugin_outs(line);
}

OFFERED int qemu_plugin_install(qemu_plugin_id_t id, const struct qemu_info_t *info, int argc, char **argv) {
    (void)info;
    (void)argc;
    (void)argv;
    qemu_plugin_register_vcpu_tb_trans_cb(id, made);
    qemu_plugin_register_atexit_cb(id, say, NULL);
    return 0;
}

/* A plugin of qemu-user: on standard error it says how many instructions the program took. With out=FILE it writes a line for
   each block of code there: its address, its instructions, how often it ran, and the program's function that it lies in. The few
   functions used of qemu's plugin interface (version 1) are declared here, since Debian has no package with the header. */
#include <inttypes.h>
#include <stdio.h>
#include <stdlib.h>
#include <string.h>

struct qemu_plugin_tb;
struct qemu_plugin_insn;
size_t qemu_plugin_tb_n_insns(const struct qemu_plugin_tb *);
uint64_t qemu_plugin_tb_vaddr(const struct qemu_plugin_tb *);
struct qemu_plugin_insn *qemu_plugin_tb_get_insn(const struct qemu_plugin_tb *, size_t);
const char *qemu_plugin_insn_symbol(const struct qemu_plugin_insn *);
void qemu_plugin_register_vcpu_tb_trans_cb(uint64_t, void (*)(uint64_t, struct qemu_plugin_tb *));
void qemu_plugin_register_vcpu_tb_exec_inline(struct qemu_plugin_tb *, int add, void *counter, uint64_t by);
void qemu_plugin_register_atexit_cb(uint64_t, void (*)(uint64_t, void *), void *);

#define SHOWN __attribute__((visibility("default")))
SHOWN int qemu_plugin_version = 1;

struct block {
    struct block *next;
    uint64_t at, size, ran;
    const char *function;
};

static struct block *blocks;
static const char *out;

static void translated(uint64_t id, struct qemu_plugin_tb *tb) {
    struct block *b = calloc(1, sizeof *b);
    (void)id;
    if (!b) abort();
    b->next = blocks;
    b->at = qemu_plugin_tb_vaddr(tb);
    b->size = qemu_plugin_tb_n_insns(tb);
    b->function = qemu_plugin_insn_symbol(qemu_plugin_tb_get_insn(tb, 0));
    blocks = b;
    qemu_plugin_register_vcpu_tb_exec_inline(tb, 0, &b->ran, 1);
}

static void ended(uint64_t id, void *none) {
    uint64_t total = 0;
    FILE *file = out ? fopen(out, "w") : NULL;
    (void)id, (void)none;
    for (struct block *b = blocks; b; b = b->next) {
        total += b->size * b->ran;
        if (file) fprintf(file, "%" PRIx64 " %" PRIu64 " %" PRIu64 " %s\n", b->at, b->size, b->ran, b->function ? b->function : "elsewhere");
    }
    if (file) fclose(file);
    fprintf(stderr, "%" PRIu64 "\n", total);
}

SHOWN int qemu_plugin_install(uint64_t id, const void *info, int argc, char **argv) {
    (void)info;
    for (int i = 0; i < argc; i++)
        if (!strncmp(argv[i], "out=", 4)) out = strdup(argv[i] + 4);
    qemu_plugin_register_vcpu_tb_trans_cb(id, translated);
    qemu_plugin_register_atexit_cb(id, ended, NULL);
    return 0;
}

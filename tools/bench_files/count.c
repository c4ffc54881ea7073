// A plugin of the emulator qemu-user (its interface's version 1): counts the instructions that a program runs. At each system call MARK, which there is not, it
// writes their number so far to the file that out= names, 8 bytes; the program reads it there (seek.c).
#include <fcntl.h>
#include <stddef.h>
#include <stdint.h>
#include <string.h>
#include <unistd.h>

// Of qemu-plugin.h, which Debian does not have.
typedef uint64_t qemu_plugin_id_t;
struct qemu_plugin_tb;
enum qemu_plugin_op { QEMU_PLUGIN_INLINE_ADD_U64 };
typedef void (*translated)(qemu_plugin_id_t, struct qemu_plugin_tb *);
typedef void (*called)(qemu_plugin_id_t, unsigned, int64_t, uint64_t, uint64_t, uint64_t, uint64_t, uint64_t, uint64_t, uint64_t, uint64_t);
extern void qemu_plugin_register_vcpu_tb_trans_cb(qemu_plugin_id_t, translated);
extern void qemu_plugin_register_vcpu_syscall_cb(qemu_plugin_id_t, called);
extern size_t qemu_plugin_tb_n_insns(const struct qemu_plugin_tb *);
extern void qemu_plugin_register_vcpu_tb_exec_inline(struct qemu_plugin_tb *, enum qemu_plugin_op, void *, uint64_t);

enum { MARK = 24242 };

int qemu_plugin_version = 1;
static uint64_t count;
static int out = -1;

// A block has no jump but at its end, so all its instructions run when it is entered.
static void block(qemu_plugin_id_t id, struct qemu_plugin_tb *tb) {
    (void)id;
    qemu_plugin_register_vcpu_tb_exec_inline(tb, QEMU_PLUGIN_INLINE_ADD_U64, &count, qemu_plugin_tb_n_insns(tb));
}

static void call(qemu_plugin_id_t id, unsigned processor, int64_t number, uint64_t a, uint64_t b, uint64_t c, uint64_t d, uint64_t e, uint64_t f, uint64_t g,
                 uint64_t h) {
    (void)id, (void)processor, (void)a, (void)b, (void)c, (void)d, (void)e, (void)f, (void)g, (void)h;
    if (number == MARK && write(out, &count, sizeof count) != sizeof count) _exit(2);
}

int qemu_plugin_install(qemu_plugin_id_t id, const void *info, int words, char **word) {
    (void)info;
    for (int k = 0; k < words; k++)
        if (!strncmp(word[k], "out=", 4)) out = open(word[k] + 4, O_WRONLY | O_CREAT | O_TRUNC, 0666);
    if (out < 0) return 1;
    qemu_plugin_register_vcpu_tb_trans_cb(id, block);
    qemu_plugin_register_vcpu_syscall_cb(id, call);
    return 0;
}

/*
 * A plugin for the emulator qemu-x86_64: counts the instructions of the program that it runs, and writes the count into a file whenever
 * the program asks for its process id.
 *
 *   qemu-x86_64 -plugin count.so,to=FILE PROGRAM
 *
 * Emulators are packaged without the header of their plugins, so what is used of it (version 1) stands here.
 */
#include <fcntl.h>
#include <stdint.h>
#include <string.h>
#include <unistd.h>

typedef uint64_t plugin;
struct qemu_plugin_tb; /* a block of translated instructions */

void qemu_plugin_register_vcpu_tb_trans_cb(plugin, void (*)(plugin, struct qemu_plugin_tb *));
void qemu_plugin_register_vcpu_tb_exec_inline(struct qemu_plugin_tb *, int, void *, uint64_t);
void qemu_plugin_register_vcpu_syscall_cb(plugin, void (*)(plugin, unsigned, int64_t, uint64_t, uint64_t, uint64_t, uint64_t, uint64_t,
                                                           uint64_t, uint64_t, uint64_t));
size_t qemu_plugin_tb_n_insns(const struct qemu_plugin_tb *);

enum { ADD = 0, GETPID = 39 };

int qemu_plugin_version = 1;

static uint64_t count;
static int file;

/* Every run of a block adds its instructions. */
static void translated(plugin id, struct qemu_plugin_tb *block) {
  (void)id;
  qemu_plugin_register_vcpu_tb_exec_inline(block, ADD, &count, qemu_plugin_tb_n_insns(block));
}

static void asked(plugin id, unsigned cpu, int64_t number, uint64_t a, uint64_t b, uint64_t c, uint64_t d, uint64_t e, uint64_t f,
                  uint64_t g, uint64_t h) {
  (void)id, (void)cpu, (void)a, (void)b, (void)c, (void)d, (void)e, (void)f, (void)g, (void)h;
  if (number == GETPID && pwrite(file, &count, sizeof count, 0) != sizeof count) _exit(2);
}

int qemu_plugin_install(plugin id, const void *info, int words, char **word) {
  (void)info;
  if (words != 1 || strncmp(word[0], "to=", 3) != 0) return -1;
  file = open(word[0] + 3, O_WRONLY | O_CREAT | O_TRUNC, 0666);
  if (file < 0) return -1;
  qemu_plugin_register_vcpu_tb_trans_cb(id, translated);
  qemu_plugin_register_vcpu_syscall_cb(id, asked);
  return 0;
}

/* A plugin of the emulator qemu-user that counts the instructions a program runs between two marks.
   The marks are calls of the system that no system has: 500001 sets the count to 0, 500002 prints 'count TAG
   INSTRUCTIONS', its argument being the tag. Debian packages no header for plugins, so what is used is declared here. */
#include <inttypes.h>
#include <stddef.h>
#include <stdio.h>

#define PUBLIC __attribute__((visibility("default")))

typedef uint64_t plugin_id;
struct qemu_plugin_tb;
struct qemu_plugin_insn;
enum qemu_plugin_op { QEMU_PLUGIN_INLINE_ADD_U64 };
typedef void (*block_made)(plugin_id, struct qemu_plugin_tb *);
typedef void (*system_called)(plugin_id, unsigned, int64_t, uint64_t, uint64_t, uint64_t, uint64_t, uint64_t, uint64_t,
                              uint64_t, uint64_t);

void qemu_plugin_register_vcpu_tb_trans_cb(plugin_id, block_made);
void qemu_plugin_register_vcpu_insn_exec_inline(struct qemu_plugin_insn *, enum qemu_plugin_op, void *, uint64_t);
void qemu_plugin_register_vcpu_syscall_cb(plugin_id, system_called);
size_t qemu_plugin_tb_n_insns(const struct qemu_plugin_tb *);
struct qemu_plugin_insn *qemu_plugin_tb_get_insn(const struct qemu_plugin_tb *, size_t);
void qemu_plugin_outs(const char *);

PUBLIC int qemu_plugin_version = 1;
PUBLIC int qemu_plugin_install(plugin_id, const void *, int, char **);

static uint64_t instructions;

/* Each instruction of a block of code, once translated, adds 1 whenever it runs. The length of the block would be too much
   where it ends before an instruction that crosses a page: that one is counted in it and in the next. */
static void count_block(plugin_id id, struct qemu_plugin_tb *block) {
  size_t i, n = qemu_plugin_tb_n_insns(block);
  (void)id;
  for (i = 0; i < n; i++)
    qemu_plugin_register_vcpu_insn_exec_inline(qemu_plugin_tb_get_insn(block, i), QEMU_PLUGIN_INLINE_ADD_U64,
                                               &instructions, 1);
}

static void at_mark(plugin_id id, unsigned cpu, int64_t number, uint64_t tag, uint64_t a2, uint64_t a3, uint64_t a4,
                    uint64_t a5, uint64_t a6, uint64_t a7, uint64_t a8) {
  char line[80];
  (void)id, (void)cpu, (void)a2, (void)a3, (void)a4, (void)a5, (void)a6, (void)a7, (void)a8;
  if (number == 500001) instructions = 0;
  if (number != 500002) return;
  snprintf(line, sizeof line, "count %" PRIu64 " %" PRIu64 "\n", tag, instructions);
  qemu_plugin_outs(line);
}

int qemu_plugin_install(plugin_id id, const void *information, int argc, char **argv) {
  (void)information, (void)argc, (void)argv;
  qemu_plugin_register_vcpu_tb_trans_cb(id, count_block);
  qemu_plugin_register_vcpu_syscall_cb(id, at_mark);
  return 0;
}

/* Counts the instructions of an emulated program: a plugin for QEMU's user emulator (its plugin interface, version 1). What is counted is
 * switched by functions of the program that are known by their names, those of valgrind/callgrind.h beside this file:
 *
 *   counter_toggle   counting goes on, or stops; it is off at the start
 *   counter_zero     what was counted is forgotten
 *   counter_dump     what was counted is written to standard output, as a line
 *
 * At the end all instructions of the program, counted or not, are written to standard error: "instructions N". */
#include <inttypes.h>
#include <stddef.h>
#include <stdio.h>
#include <string.h>

struct qemu_plugin_tb;
struct qemu_plugin_insn;
extern void qemu_plugin_register_vcpu_tb_trans_cb(uint64_t id, void (*then)(uint64_t id, struct qemu_plugin_tb *block));
extern void qemu_plugin_register_vcpu_tb_exec_cb(struct qemu_plugin_tb *block, void (*then)(unsigned cpu, void *with), int flags, void *with);
extern void qemu_plugin_register_vcpu_insn_exec_cb(struct qemu_plugin_insn *instruction, void (*then)(unsigned cpu, void *with), int flags, void *with);
extern void qemu_plugin_register_atexit_cb(uint64_t id, void (*then)(uint64_t id, void *with), void *with);
extern size_t qemu_plugin_tb_n_insns(const struct qemu_plugin_tb *block);
extern struct qemu_plugin_insn *qemu_plugin_tb_get_insn(const struct qemu_plugin_tb *block, size_t at);
extern const char *qemu_plugin_insn_symbol(const struct qemu_plugin_insn *instruction);

int qemu_plugin_version = 1;

static uint64_t all, counted, counting; /* counting is 1 or 0 */

static void ran(unsigned cpu, void *with) {
    (void)cpu, (void)with;
    all++;
    counted += counting;
}

static void toggle(unsigned cpu, void *with) {
    (void)cpu, (void)with;
    counting = !counting;
}

static void zero(unsigned cpu, void *with) {
    (void)cpu, (void)with;
    counted = 0;
}

static void dump(unsigned cpu, void *with) {
    (void)cpu, (void)with;
    printf("%" PRIu64 "\n", counted);
    fflush(stdout);
}

static const struct {
    const char *name;
    void (*then)(unsigned cpu, void *with);
} marks[] = {{"counter_toggle", toggle}, {"counter_zero", zero}, {"counter_dump", dump}};

/* Each instruction is counted by itself: of a block whose last one crosses a page the emulator may say one too many. A function is entered
 * by a call, and so begins a block. */
static void translated(uint64_t id, struct qemu_plugin_tb *block) {
    const char *name = qemu_plugin_insn_symbol(qemu_plugin_tb_get_insn(block, 0));
    (void)id;
    for (size_t i = 0; i < qemu_plugin_tb_n_insns(block); i++)
        qemu_plugin_register_vcpu_insn_exec_cb(qemu_plugin_tb_get_insn(block, i), ran, 0, NULL);
    for (size_t i = 0; name && i < sizeof marks / sizeof *marks; i++)
        if (strcmp(name, marks[i].name) == 0) qemu_plugin_register_vcpu_tb_exec_cb(block, marks[i].then, 0, NULL);
}

static void ended(uint64_t id, void *with) {
    (void)id, (void)with;
    fprintf(stderr, "instructions %" PRIu64 "\n", all);
}

int qemu_plugin_install(uint64_t id, const void *emulator, int words, char **word) {
    (void)emulator, (void)words, (void)word;
    qemu_plugin_register_vcpu_tb_trans_cb(id, translated);
    qemu_plugin_register_atexit_cb(id, ended, NULL);
    return 0;
}

/* count.c - a plugin of qemu-user (7.2 and later, plugin interface 1): counts the instructions that a program executes and the branches
   that it takes, calls and returns among them, exact and repeatable, whatever else the machine does. Prints 'instructions N' and
   'taken N' at the end; with the argument 'by=function' the instructions of each function too. The interface is declared here, since
   Debian's qemu-user comes without its header. */
#define _POSIX_C_SOURCE 200809L
#include <inttypes.h>
#include <stddef.h>
#include <stdio.h>
#include <stdlib.h>
#include <string.h>

typedef uint64_t qemu_plugin_id_t;
struct qemu_plugin_tb;
struct qemu_plugin_insn;
typedef struct { const char *target_name; struct { int min, cur; } version; _Bool system_emulation; } qemu_info_t;
enum qemu_plugin_op { QEMU_PLUGIN_INLINE_ADD_U64 };
void qemu_plugin_register_vcpu_tb_trans_cb(qemu_plugin_id_t, void (*)(qemu_plugin_id_t, struct qemu_plugin_tb *));
void qemu_plugin_register_vcpu_tb_exec_inline(struct qemu_plugin_tb *, enum qemu_plugin_op, void *, uint64_t);
enum qemu_plugin_cb_flags { QEMU_PLUGIN_CB_NO_REGS };
void qemu_plugin_register_vcpu_tb_exec_cb(struct qemu_plugin_tb *, void (*)(unsigned, void *), enum qemu_plugin_cb_flags, void *);
void qemu_plugin_register_atexit_cb(qemu_plugin_id_t, void (*)(qemu_plugin_id_t, void *), void *);
size_t qemu_plugin_tb_n_insns(const struct qemu_plugin_tb *);
struct qemu_plugin_insn *qemu_plugin_tb_get_insn(const struct qemu_plugin_tb *, size_t);
uint64_t qemu_plugin_insn_vaddr(const struct qemu_plugin_insn *);
size_t qemu_plugin_insn_size(const struct qemu_plugin_insn *);
const char *qemu_plugin_insn_symbol(const struct qemu_plugin_insn *);

#define SHOWN __attribute__((visibility("default")))
SHOWN int qemu_plugin_version = 1;

enum { FUNCTIONS = 4096, PAGE = 4096 };
struct function { char *name; uint64_t instructions; };
static struct function functions[FUNCTIONS];
static size_t function_count;
static uint64_t instructions, taken;
static uint64_t behind_last; /* the address behind the block that ran last */
static uint64_t cut_off;     /* the address of its last instruction, where a page ends there; else 0 */
static _Bool by_function;

/* A run of straight-line code, as the emulator cuts it: its first address, the one behind its last instruction, and that of its last
   instruction where a page ends in it or behind it, else 0. */
struct block { uint64_t first, behind, cut_off; };

/* A block that does not begin where the last one ended was branched to. An instruction on two pages the emulator shows at the end of one
   block and runs at the start of the next: it is neither a branch nor a second instruction. */
static void entered(unsigned processor, void *given)
{
    const struct block *block = given;

    (void)processor;
    if (cut_off && block->first == cut_off)
        instructions--;
    else
        taken += block->first != behind_last;
    behind_last = block->behind;
    cut_off = block->cut_off;
}

/* Lives as long as the program runs: the emulator may come back to it at any time. */
static struct block *block_of(const struct qemu_plugin_tb *tb, size_t length)
{
    const struct qemu_plugin_insn *last = qemu_plugin_tb_get_insn(tb, length - 1);
    uint64_t start = qemu_plugin_insn_vaddr(last), behind = start + qemu_plugin_insn_size(last);
    struct block *block = malloc(sizeof *block);

    if (!block)
        abort();
    block->first = qemu_plugin_insn_vaddr(qemu_plugin_tb_get_insn(tb, 0));
    block->behind = behind;
    block->cut_off = start / PAGE != behind / PAGE ? start : 0;
    return block;
}

/* The counter of the function that a block starts in; the last one takes all that find no room. */
static struct function *function_of(const struct qemu_plugin_tb *block)
{
    const char *name = qemu_plugin_insn_symbol(qemu_plugin_tb_get_insn(block, 0));
    size_t i = 0;

    name = name ? name : "?";
    while (i < function_count && strcmp(functions[i].name, name) != 0)
        i++;
    if (i == function_count && function_count < FUNCTIONS - 1)
        functions[function_count++].name = strdup(name);
    return &functions[i];
}

static void translated(qemu_plugin_id_t id, struct qemu_plugin_tb *block)
{
    size_t length = qemu_plugin_tb_n_insns(block);

    (void)id;
    qemu_plugin_register_vcpu_tb_exec_inline(block, QEMU_PLUGIN_INLINE_ADD_U64, &instructions, length);
    qemu_plugin_register_vcpu_tb_exec_cb(block, entered, QEMU_PLUGIN_CB_NO_REGS, block_of(block, length));
    if (by_function)
        qemu_plugin_register_vcpu_tb_exec_inline(block, QEMU_PLUGIN_INLINE_ADD_U64, &function_of(block)->instructions, length);
}

static int more_first(const void *a, const void *b)
{
    uint64_t left = ((const struct function *)a)->instructions, right = ((const struct function *)b)->instructions;

    return (left < right) - (left > right);
}

static void ended(qemu_plugin_id_t id, void *nothing)
{
    (void)id;
    (void)nothing;
    fprintf(stderr, "instructions %" PRIu64 "\ntaken %" PRIu64 "\n", instructions, taken);
    qsort(functions, function_count, sizeof *functions, more_first);
    for (size_t i = 0; i < function_count; i++)
        fprintf(stderr, "function %s %" PRIu64 "\n", functions[i].name, functions[i].instructions);
}

SHOWN int qemu_plugin_install(qemu_plugin_id_t id, const qemu_info_t *info, int argc, char **argv)
{
    (void)info;
    for (int i = 0; i < argc; i++)
        by_function = by_function || strcmp(argv[i], "by=function") == 0;
    qemu_plugin_register_vcpu_tb_trans_cb(id, translated);
    qemu_plugin_register_atexit_cb(id, ended, NULL);
    return 0;
}

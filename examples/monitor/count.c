/* A plugin of qemu's that counts what a program fetches, loads and stores: in the scratchpad, and in all other memory.

     -plugin ./count.so,main=BASE+SIZE,patch=BASE+SIZE,spm=BASE+SIZE,out=FILE

   Instructions outside these three ranges are the monitor's or qemu's own, and are not counted. When qemu ends it writes
   into FILE how many fetches, reads and writes there were outside the scratchpad, and how many inside. */
#include <stdint.h>
#include <stdio.h>
#include <stdlib.h>
#include <string.h>

/* What follows of qemu-plugin.h, version 1 of the interface (qemu 4.2 to 8.2), since Debian has no package with that file. */
typedef uint64_t qemu_plugin_id_t;
typedef uint32_t qemu_plugin_meminfo_t;
struct qemu_plugin_tb;
struct qemu_plugin_insn;
typedef struct qemu_info qemu_info_t;
enum { CALLS_CHANGE_NO_REGISTERS = 0, READS_AND_WRITES = 3 };
void qemu_plugin_register_vcpu_tb_trans_cb(qemu_plugin_id_t, void (*)(qemu_plugin_id_t, struct qemu_plugin_tb *));
void qemu_plugin_register_vcpu_insn_exec_cb(struct qemu_plugin_insn *, void (*)(unsigned, void *), int, void *);
void qemu_plugin_register_vcpu_mem_cb(struct qemu_plugin_insn *, void (*)(unsigned, qemu_plugin_meminfo_t, uint64_t, void *),
                                      int, int, void *);
void qemu_plugin_register_atexit_cb(qemu_plugin_id_t, void (*)(qemu_plugin_id_t, void *), void *);
size_t qemu_plugin_tb_n_insns(const struct qemu_plugin_tb *);
struct qemu_plugin_insn *qemu_plugin_tb_get_insn(const struct qemu_plugin_tb *, size_t);
uint64_t qemu_plugin_insn_vaddr(const struct qemu_plugin_insn *);
_Bool qemu_plugin_mem_is_store(qemu_plugin_meminfo_t);

enum { MAIN, PATCH, SPM, RANGES };
enum { FETCHES, READS, WRITES, KINDS };

int qemu_plugin_version = 1;

static struct { const char *name; uint64_t base, size; } ranges[RANGES] = { { "main" }, { "patch" }, { "spm" } };
static uint64_t counts[2][KINDS];
static const char *out;

static int lies_in(int range, uint64_t address)
{
    return address - ranges[range].base < ranges[range].size;
}

static void count(uint64_t address, int kind)
{
    counts[lies_in(SPM, address)][kind]++;
}

static void fetched(unsigned hart, void *address)
{
    count((uintptr_t)address, FETCHES);
}

static void accessed(unsigned hart, qemu_plugin_meminfo_t access, uint64_t address, void *unused)
{
    count(address, qemu_plugin_mem_is_store(access) ? WRITES : READS);
}

static void translated(qemu_plugin_id_t id, struct qemu_plugin_tb *block)
{
    for (size_t k = 0; k < qemu_plugin_tb_n_insns(block); k++) {
        struct qemu_plugin_insn *instruction = qemu_plugin_tb_get_insn(block, k);
        uint64_t address = qemu_plugin_insn_vaddr(instruction);
        if (!lies_in(MAIN, address) && !lies_in(PATCH, address) && !lies_in(SPM, address))
            continue;
        qemu_plugin_register_vcpu_insn_exec_cb(instruction, fetched, CALLS_CHANGE_NO_REGISTERS, (void *)(uintptr_t)address);
        qemu_plugin_register_vcpu_mem_cb(instruction, accessed, CALLS_CHANGE_NO_REGISTERS, READS_AND_WRITES, NULL);
    }
}

static void ended(qemu_plugin_id_t id, void *unused)
{
    FILE *file = fopen(out, "w");
    if (!file)
        return;
    for (int inside = 0; inside < 2; inside++)
        for (int kind = 0; kind < KINDS; kind++)
            fprintf(file, "%llu%c", (unsigned long long)counts[inside][kind], inside && kind == WRITES ? '\n' : ' ');
    fclose(file);
}

int qemu_plugin_install(qemu_plugin_id_t id, const qemu_info_t *info, int argc, char **argv)
{
    for (int k = 0; k < argc; k++) {
        char *value = strchr(argv[k], '='), *size;
        if (!value)
            return 1;
        *value++ = 0;
        if (!strcmp(argv[k], "out"))
            out = value;
        for (int range = 0; range < RANGES; range++)
            if (!strcmp(argv[k], ranges[range].name)) {
                ranges[range].base = strtoull(value, &size, 0);
                ranges[range].size = strtoull(size, NULL, 0);
            }
    }
    if (!out || !ranges[MAIN].size || !ranges[PATCH].size || !ranges[SPM].size) {
        fprintf(stderr, "count: main, patch, spm and out are needed\n");
        return 1;
    }
    qemu_plugin_register_vcpu_tb_trans_cb(id, translated);
    qemu_plugin_register_atexit_cb(id, ended, NULL);
    return 0;
}

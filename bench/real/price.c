/* Runs an ELF file for RV32IM and tells how many words it fetches and how often it loads and stores, in the scratchpad and
   elsewhere. It shares no code with spmlink.

   price FILE BASE SIZE [COUNTS] <input >output; on standard error: steps, and the accesses elsewhere and in BASE to BASE + SIZE.
   COUNTS gets a line for each word that was accessed: its address, how often it was fetched, loaded and stored. */
#include <stdint.h>
#include <stdio.h>
#include <stdlib.h>
#include <string.h>

typedef uint32_t u32;
typedef int32_t s32;
typedef uint64_t u64;
typedef int64_t s64;

enum { MEMORY = 0x02000000 };

static uint8_t memory[MEMORY];
static u32 x[32], base, size;
static u64 steps, near, far;
static struct { u32 times[3]; } counts[MEMORY / 4];
static const char *counts_name;

enum { FETCH, LOAD, STORE };

static uint8_t *at(u32 address, u32 count, int kind)
{
    if (address > MEMORY - count || address & (count - 1)) {
        fprintf(stderr, "trap at access %08x\n", address);
        exit(99);
    }
    if (address - base < size)
        near++;
    else
        far++;
    counts[address / 4].times[kind]++;
    return memory + address;
}

static u32 load(u32 address, u32 count, int kind)
{
    u32 word = 0;
    memcpy(&word, at(address, count, kind), count);
    return word;
}

static void store(u32 address, u32 word, u32 count)
{
    memcpy(at(address, count, STORE), &word, count);
}

static u32 loaded(u32 kind, u32 address)
{
    u32 word = load(address, 1u << (kind & 3), LOAD);
    return kind == 0 ? (u32)(int8_t)word : kind == 1 ? (u32)(int16_t)word : word;
}

static int branches(u32 kind, u32 a, u32 b)
{
    int one = kind >> 1 == 0 ? a == b : kind >> 1 == 2 ? (s32)a < (s32)b : a < b;
    return one ^ (kind & 1);
}

static u32 quotient(u32 kind, u32 a, u32 b)
{
    int over = a == 0x80000000u && b == ~0u;
    switch (kind) {
    case 4: return b == 0 ? ~0u : over ? a : (u32)((s32)a / (s32)b);
    case 5: return b == 0 ? ~0u : a / b;
    case 6: return b == 0 ? a : over ? 0 : (u32)((s32)a % (s32)b);
    default: return b == 0 ? a : a % b;
    }
}

static u32 product(u32 kind, u32 a, u32 b)
{
    switch (kind) {
    case 0: return a * b;
    case 1: return (u64)((s64)(s32)a * (s32)b) >> 32;
    case 2: return (u64)((s64)(s32)a * (s64)(u64)b) >> 32;
    case 3: return (u64)a * b >> 32;
    default: return quotient(kind, a, b);
    }
}

static u32 combined(u32 kind, int other, u32 a, u32 b)
{
    switch (kind) {
    case 0: return other ? a - b : a + b;
    case 1: return a << (b & 31);
    case 2: return (s32)a < (s32)b;
    case 3: return a < b;
    case 4: return a ^ b;
    case 5: return other ? (u32)((s32)a >> (b & 31)) : a >> (b & 31);
    case 6: return a | b;
    default: return a & b;
    }
}

static void tell_counts(void)
{
    FILE *to = counts_name ? fopen(counts_name, "w") : NULL;
    for (u32 k = 0; to && k < MEMORY / 4; k++) {
        const u32 *it = counts[k].times;
        if (it[FETCH] | it[LOAD] | it[STORE])
            fprintf(to, "%u %u %u %u\n", 4 * k, it[FETCH], it[LOAD], it[STORE]);
    }
    if (to)
        fclose(to);
}

/* Calls 63, 64 and 93. Their bytes cost nothing. */
static void call(void)
{
    u32 count = 0;
    if (x[17] == 93) {
        fflush(stdout);
        tell_counts();
        fprintf(stderr, "%llu %llu %llu\n", (unsigned long long)steps, (unsigned long long)far, (unsigned long long)near);
        exit(x[10] & 255);
    }
    if (x[17] == 64)
        count = fwrite(memory + x[11], 1, x[12], stdout);
    else if (x[17] == 63)
        count = fread(memory + x[11], 1, x[12], stdin);
    x[10] = count;
}

static void step(u32 *pc)
{
    u32 word = load(*pc, 4, FETCH), next = *pc + 4, result = 0;
    u32 rd = word >> 7 & 31, kind = word >> 12 & 7, a = x[word >> 15 & 31], b = x[word >> 20 & 31];
    s32 low = (s32)word >> 20;
    steps++;
    switch (word & 127) {
    case 0x37: result = word & 0xfffff000; break;
    case 0x17: result = *pc + (word & 0xfffff000); break;
    case 0x6f:
        result = next;
        next = *pc + (((s32)word >> 31 << 20) | (word & 0xff000) | (word >> 9 & 0x800) | (word >> 20 & 0x7fe));
        break;
    case 0x67:
        result = next;
        next = (a + low) & ~1u;
        break;
    case 0x63:
        rd = 0;
        if (branches(kind, a, b))
            next = *pc + (((s32)word >> 31 << 12) | (word << 4 & 0x800) | (word >> 20 & 0x7e0) | (word >> 7 & 0x1e));
        break;
    case 0x03: result = loaded(kind, a + low); break;
    case 0x23:
        store(a + (((s32)word >> 25 << 5) | rd), b, 1u << kind);
        rd = 0;
        break;
    case 0x13: result = combined(kind, kind == 5 && word >> 30 & 1, a, low); break;
    case 0x33: result = word >> 25 == 1 ? product(kind, a, b) : combined(kind, word >> 30 & 1, a, b); break;
    case 0x0f: rd = 0; break;
    case 0x73:
        rd = 0;
        call();
        break;
    default: fprintf(stderr, "trap at %08x\n", *pc); exit(98);
    }
    if (rd)
        x[rd] = result;
    *pc = next;
}

static u32 word_at(const uint8_t *bytes)
{
    u32 word;
    memcpy(&word, bytes, 4);
    return word;
}

int main(int count, char **words)
{
    static uint8_t file[1 << 24];
    FILE *from = count == 4 || count == 5 ? fopen(words[1], "rb") : NULL;
    if (!from || fread(file, 1, sizeof file, from) < 52)
        return 97;
    base = strtoul(words[2], NULL, 0);
    size = strtoul(words[3], NULL, 0);
    counts_name = words[4];
    for (int k = 0; k < (file[44] | file[45] << 8); k++) {
        const uint8_t *header = file + word_at(file + 28) + 32 * k;
        if (word_at(header) == 1)
            memcpy(memory + word_at(header + 8), file + word_at(header + 4), word_at(header + 16));
    }
    u32 pc = word_at(file + 24);
    for (;;)
        step(&pc);
}

/* processor EXE CAPTURE CYCLES [BUSY]: runs a test program on a bare console: a MIPS I processor with load delays and
   branch delays and one cycle an instruction, 2 MB of memory, and a GPU that is busy for BUSY cycles (20000) with each
   packet that draws. CAPTURE receives what reaches the ports. The last line counts what a console would have lost.

   gcc -std=gnu99 -O2 -I RECORDER processor.c gpu.c -o processor */
#include <stdio.h>
#include <stdlib.h>
#include "bare.h"
#include "psxgpu_capture.h"

enum { FRAME = 564480, SECTOR = 2048, PUTCHAR = 0xB0 };

static uint32_t ram[0x80000], registers[32], hi, lo, pc, next_pc, interrupts, blanks;
static uint64_t hazards;

static void refuse(const char *what, uint32_t value) {
    fprintf(stderr, "processor: %s %08x at %08x\n", what, (unsigned)value, (unsigned)pc);
    exit(3);
}

static uint32_t read_word(uint32_t at) {
    if (at & 3) refuse("read", at);
    if (at >> 16 != 0x1F80) return ram[(at & 0x1FFFFC) / 4];
    if (at == 0x1F801810) return gpu_read();
    if (at == 0x1F801814) return gpu_status();
    if (at != 0x1F801070) refuse("read", at);
    return interrupts;
}

static void write_word(uint32_t at, uint32_t word) {
    if (at & 3) refuse("write", at);
    if (at >> 16 != 0x1F80) ram[(at & 0x1FFFFC) / 4] = word;
    else if (at == 0x1F801810) gpu_write(word);
    else if (at == 0x1F801814) gpu_control(word);
    else if (at == 0x1F801070) interrupts &= word;
    else refuse("write", at);
}

static unsigned char *byte_at(uint32_t at) { return (unsigned char *)ram + (at & 0x1FFFFF); }

static uint32_t half_at(uint32_t at) {
    if (at & 1) refuse("read", at);
    return byte_at(at)[0] | (uint32_t)byte_at(at)[1] << 8;
}

static void store_half(uint32_t at, uint32_t half) {
    if (at & 1) refuse("write", at);
    byte_at(at)[0] = (unsigned char)half;
    byte_at(at)[1] = (unsigned char)(half >> 8);
}

/* Counts an instruction that reads a register in the delay slot of its load. */
static void check_delay(uint32_t late, uint32_t op, uint32_t s, uint32_t t) {
    const int uses_s = op != 2 && op != 3 && op != 15, uses_t = !op || op == 4 || op == 5 || op >= 40;
    if (!late || !((uses_s && s == late) || (uses_t && t == late))) return;
    hazards++;
    fprintf(stderr, "processor: a load is used too early at %08x\n", (unsigned)pc);
}

/* One instruction. The register of a load has its new value after the next instruction. */
static void instruction(void) {
    static uint32_t loading, loaded; /* the register of the load before, and its value */
    const uint32_t code = ram[(pc & 0x1FFFFC) / 4], op = code >> 26, s = code >> 21 & 31, t = code >> 16 & 31;
    const uint32_t a = registers[s], b = registers[t], half = code & 0xFFFF, shift = code >> 6 & 31;
    const uint32_t constant = (uint32_t)(int32_t)(int16_t)half, target = pc + 4 + (constant << 2);
    const uint32_t jump = (pc & 0xF0000000) | (code & 0x3FFFFFF) << 2, late = loading, late_value = loaded;
    uint32_t to = op ? t : code >> 11 & 31, value = 0, then = next_pc + 4;
    check_delay(late, op, s, t);
    loading = 0;
    switch (op ? op : 64 + (code & 63)) {
    case 64: value = b << shift; break;
    case 66: value = b >> shift; break;
    case 68: value = b << (a & 31); break;
    case 70: value = b >> (a & 31); break;
    case 72: then = a; to = 0; break;
    case 80: value = hi; break;
    case 82: value = lo; break;
    case 91: lo = b ? a / b : 0; hi = b ? a % b : a; now += 35; to = 0; break;
    case 97: value = a + b; break;
    case 99: value = a - b; break;
    case 100: value = a & b; break;
    case 101: value = a | b; break;
    case 102: value = a ^ b; break;
    case 107: value = a < b; break;
    case 2: then = jump; to = 0; break;
    case 3: then = jump; to = 31; value = pc + 8; break;
    case 4: if (a == b) then = target; to = 0; break;
    case 5: if (a != b) then = target; to = 0; break;
    case 9: value = a + constant; break;
    case 11: value = a < constant; break;
    case 12: value = a & half; break;
    case 13: value = a | half; break;
    case 14: value = a ^ half; break;
    case 15: value = half << 16; break;
    case 16: to = 0; break;
    case 35: loading = t; loaded = read_word(a + constant); to = 0; break;
    case 36: loading = t; loaded = *byte_at(a + constant); to = 0; break;
    case 37: loading = t; loaded = half_at(a + constant); to = 0; break;
    case 40: *byte_at(a + constant) = (unsigned char)b; to = 0; break;
    case 41: store_half(a + constant, b); to = 0; break;
    case 43: write_word(a + constant, b); to = 0; break;
    default: refuse("instruction", code);
    }
    if (late && late != loading) registers[late] = late_value;
    if (to) registers[to] = value;
    pc = next_pc;
    next_pc = then;
}

/* Runs until the program has done its orders, or the cycles are over. */
static void run(uint64_t limit, const uint32_t *done) {
    uint64_t blank_at = FRAME;
    next_pc = pc + 4;
    for (; now < limit && !*done; now++) {
        if (now >= blank_at) {
            blank_at += FRAME;
            interrupts |= 1;
            blanks++;
            gpu_blank();
        }
        if (pc == PUTCHAR) {
            putchar((int)registers[4]);
            pc = registers[31];
            next_pc = pc + 4;
        } else instruction();
    }
}

static void report(const uint32_t *done) {
    printf("%s cycles %llu blanks %u words %llu packets %llu polls %llu most queued %u ", *done ? "done" : "not done",
           (unsigned long long)now, (unsigned)blanks, (unsigned long long)counted.words,
           (unsigned long long)counted.packets, (unsigned long long)counted.polls, (unsigned)counted.most);
    printf("overflow %llu early %llu lost %llu hazards %llu waits %u\n", (unsigned long long)counted.overflow,
           (unsigned long long)counted.early, (unsigned long long)counted.lost, (unsigned long long)hazards,
           (unsigned)done[3]);
}

int main(int count, char **arguments) {
    static unsigned char head[SECTOR];
    const uint32_t *done = ram + 0x1000C / 4;
    FILE *file = count > 3 ? fopen(arguments[1], "rb") : NULL;
    if (!file || fread(head, 1, SECTOR, file) != SECTOR || fread(ram + 0x4000, 1, 0x1F0000, file) % SECTOR) return 2;
    if (gpu_open(arguments[2], count > 4 ? (uint32_t)strtoul(arguments[4], NULL, 10) : 20000)) return 2;
    pc = psxgpu_get_(head + 16);
    run(strtoull(arguments[3], NULL, 10), done);
    report(done);
    return gpu_close() != 0;
}

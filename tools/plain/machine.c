/* A plain interpreter of the machine run of document 01 with request 7 of document 02, in C and not
   verified: the measure of how fast the proved machine is. It does the tests of every step (words, marks,
   alignment, fields, the frame), and leaves out those that come once before a run (20, 21, 22).

   machine ROUTINE ALLOWANCE: runs a loop that does not end, 0 of arithmetic, 1 with a load and a store
   too, 2, 3 and 4 of loads from the first, the eighth and the last of 16 fields, or 5 with a load and a
   store of a scratch word, and prints how it ended, the steps and a register. */
#include <stdbool.h>
#include <stdint.h>
#include <stdio.h>
#include <stdlib.h>

enum { RETURNED = 0, SPENT = 1, GOES = 2, NO_WORD = 101, UNSET = 102, NO_FIELD = 103, UNALIGNED = 104, NO_RETURN = 105 };

struct field { uint8_t element, permission; uint16_t offset, count; };
struct region { uint16_t size; uint8_t fields; struct field field[16]; };
struct policy { uint8_t regions; struct region region[8]; };

/* The frame has 120 bytes, and the last six words of it are the routine's. */
enum { FRAME = 120, FIRST_SCRATCH = 96, SCRATCH_WORDS = 6 };

struct machine {
    const struct policy *policy;
    const uint32_t *words, *bases;
    uint32_t count, returns, frame;
    uint8_t *memory, *framed; /* the regions' parts, and after them that of the frame */
    bool scratch[SCRATCH_WORDS];
    uint32_t value[32];
    bool set[32];
    bool n, z, v, c, coded;
    uint32_t at, target;
    enum { NOTHING, JUMP, LEAVE } pending;
};

static int32_t sign_extended(uint32_t w, int bits) { return (int32_t)(w << (32 - bits)) >> (32 - bits); }

static void write_register(struct machine *m, uint32_t rd, uint32_t value) {
    if (rd) {
        m->value[rd] = value;
        m->set[rd] = true;
    }
}

static bool holds(const struct machine *m, uint32_t condition) {
    bool h = false;
    switch (condition & 7) {
    case 0: h = false; break;
    case 1: h = m->z; break;
    case 2: h = m->z | (m->n ^ m->v); break;
    case 3: h = m->n ^ m->v; break;
    case 4: h = m->c | m->z; break;
    case 5: h = m->c; break;
    case 6: h = m->n; break;
    case 7: h = m->v; break;
    }
    return condition & 8 ? !h : h;
}

/* Where control goes after a word that is no transfer. */
static int advance(struct machine *m) {
    switch (m->pending) {
    case NOTHING: m->at++; return GOES;
    case JUMP: m->at = m->target; m->pending = NOTHING; return GOES;
    default: return RETURNED;
    }
}

static int branch(struct machine *m, uint32_t w) {
    uint32_t condition = w >> 25 & 15;
    bool annul = w >> 29 & 1, always = condition == 8, reads = condition & 7;
    if (m->pending != NOTHING) return NO_WORD;
    if (reads && !m->coded) return UNSET;
    bool taken = holds(m, condition);
    uint32_t next = taken ? m->at + (uint32_t)sign_extended(w, 22) : m->at + 2;
    if (annul && (always || !taken)) {
        m->at = next;
    } else {
        m->at++;
        m->target = next;
        m->pending = JUMP;
    }
    return GOES;
}

static int leave(struct machine *m) {
    if (m->pending != NOTHING) return NO_WORD;
    if (!m->set[15]) return UNSET;
    if (m->value[15] % 4) return UNALIGNED;
    if (m->value[15] != m->returns) return NO_RETURN;
    m->at++;
    m->pending = LEAVE;
    return GOES;
}

static uint32_t result(uint32_t op, uint32_t x, uint32_t y) {
    switch (op) {
    case 0: return x + y;
    case 1: return x & y;
    case 2: return x | y;
    case 3: return x ^ y;
    case 4: return x - y;
    case 5: return x & ~y;
    case 6: return x | ~y;
    default: return ~(x ^ y);
    }
}

static void set_codes(struct machine *m, uint32_t op, uint32_t x, uint32_t y, uint32_t r) {
    m->n = r >> 31;
    m->z = r == 0;
    m->v = op == 0 ? (~(x ^ y) & (x ^ r)) >> 31 : op == 4 ? ((x ^ y) & (x ^ r)) >> 31 : 0;
    m->c = op == 0 ? r < x : op == 4 ? x < y : 0;
    m->coded = true;
}

/* The second operand: its value and whether it is set. */
static bool operand(const struct machine *m, uint32_t w, uint32_t *y) {
    if (w >> 13 & 1) {
        *y = (uint32_t)sign_extended(w, 13);
        return true;
    }
    *y = m->value[w & 31];
    return m->set[w & 31];
}

static int compute(struct machine *m, uint32_t w) {
    uint32_t op3 = w >> 19 & 63, rs1 = w >> 14 & 31, rd = w >> 25 & 31, y, r;
    bool register_form = !(w >> 13 & 1), shift = op3 >= 0x25 && op3 <= 0x27, logic = op3 < 8 || (op3 >= 16 && op3 < 24);
    if (w == 0x81C3E008) return leave(m);
    if (!shift && !logic) return NO_WORD;
    if ((register_form || shift) && (w >> 5 & 255)) return NO_WORD;
    if (!m->set[rs1] || !operand(m, w, &y)) return UNSET;
    uint32_t x = m->value[rs1];
    if (shift) {
        r = op3 == 0x25 ? x << (y & 31) : op3 == 0x26 ? x >> (y & 31) : (uint32_t)((int32_t)x >> (y & 31));
    } else {
        r = result(op3 & 7, x, y);
        if (op3 & 16) set_codes(m, op3 & 7, x, y, r);
    }
    write_register(m, rd, r);
    return advance(m);
}

static uint32_t width_of(uint32_t element) { return element <= 2 ? 1 : element <= 4 ? 2 : 4; }

/* Whether an access with this opcode serves a field. */
static bool serves(uint32_t op3, const struct field *f) {
    uint32_t e = f->element;
    switch (op3) {
    case 0x00: return e >= 5 && f->permission & 1;
    case 0x01: return e == 1 && f->permission & 1;
    case 0x02: return e == 3 && f->permission & 1;
    case 0x09: return e == 2 && f->permission & 1;
    case 0x0A: return e == 4 && f->permission & 1;
    case 0x04: return e >= 5 && f->permission & 2;
    case 0x05: return (e == 1 || e == 2) && f->permission & 2;
    default: return (e == 3 || e == 4) && f->permission & 2;
    }
}

/* The bytes that an access reaches, or none. */
static uint8_t *located(const struct machine *m, uint32_t op3, uint32_t address, uint32_t width) {
    uint8_t *part = m->memory;
    for (int r = 0; r < m->policy->regions; part += m->policy->region[r].size, r++) {
        const struct region *region = &m->policy->region[r];
        uint32_t offset = address - m->bases[r];
        if (address < m->bases[r] || offset >= region->size) continue;
        for (int k = 0; k < region->fields; k++) {
            const struct field *f = &region->field[k];
            if (f->offset > offset) return NULL;
            if (offset + width <= f->offset + width_of(f->element) * (uint32_t)f->count)
                return serves(op3, f) ? part + offset : NULL;
        }
        return NULL;
    }
    return NULL;
}

static uint32_t load(uint32_t op3, const uint8_t *b) {
    switch (op3) {
    case 0x00: return (uint32_t)b[0] << 24 | b[1] << 16 | b[2] << 8 | b[3];
    case 0x01: return b[0];
    case 0x02: return b[0] << 8 | b[1];
    case 0x09: return (uint32_t)(int8_t)b[0];
    default: return (uint32_t)(int16_t)(b[0] << 8 | b[1]);
    }
}

static void store(uint32_t width, uint8_t *b, uint32_t value) {
    for (uint32_t k = 0; k < width; k++) b[k] = value >> 8 * (width - 1 - k);
}

/* An access of the frame: LD and ST of a scratch word, of one that is set for LD, and nothing else. */
static int access_frame(struct machine *m, uint32_t op3, uint32_t rd, uint32_t offset) {
    uint32_t k = (offset - FIRST_SCRATCH) / 4;
    if (offset < FIRST_SCRATCH || (op3 != 0x00 && op3 != 0x04)) return NO_FIELD;
    if (op3 == 0x04) {
        store(4, m->framed + offset, m->value[rd]);
        m->scratch[k] = true;
    } else if (!m->scratch[k]) {
        return UNSET;
    } else {
        write_register(m, rd, load(op3, m->framed + offset));
    }
    return advance(m);
}

static int access_memory(struct machine *m, uint32_t w) {
    uint32_t op3 = w >> 19 & 63, rs1 = w >> 14 & 31, rd = w >> 25 & 31, y, width;
    switch (op3) {
    case 0x00: case 0x04: width = 4; break;
    case 0x01: case 0x05: case 0x09: width = 1; break;
    case 0x02: case 0x06: case 0x0A: width = 2; break;
    default: return NO_WORD;
    }
    bool stores = op3 >= 4 && op3 <= 6;
    if (!(w >> 13 & 1) && (w >> 5 & 255)) return NO_WORD;
    if (!m->set[rs1] || !operand(m, w, &y) || (stores && !m->set[rd])) return UNSET;
    uint32_t address = m->value[rs1] + y;
    if (address % width) return UNALIGNED;
    if (address - m->frame < FRAME) return access_frame(m, op3, rd, address - m->frame);
    uint8_t *bytes = located(m, op3, address, width);
    if (!bytes) return NO_FIELD;
    if (stores)
        store(width, bytes, m->value[rd]);
    else
        write_register(m, rd, load(op3, bytes));
    return advance(m);
}

static int step(struct machine *m) {
    if (m->at >= m->count) return NO_WORD;
    uint32_t w = m->words[m->at];
    switch (w >> 30) {
    case 0:
        if ((w >> 22 & 7) == 2) return branch(m, w);
        if ((w >> 22 & 7) != 4) return NO_WORD;
        write_register(m, w >> 25 & 31, w << 10);
        return advance(m);
    case 2: return compute(m, w);
    case 3: return access_memory(m, w);
    default: return NO_WORD;
    }
}

static int run(struct machine *m, uint64_t allowance, uint64_t *steps) {
    m->value[0] = 0;
    m->set[0] = true;
    for (int k = 0; k < SCRATCH_WORDS; k++) m->scratch[k] = false;
    for (*steps = 0; *steps < allowance;) {
        int went = step(m);
        if (went >= NO_WORD) return went;
        ++*steps;
        if (went == RETURNED) return RETURNED;
    }
    return SPENT;
}

/* r8: the region's start, r14: the frame address, r9: a counter, r10, r11 and r12: what the loop computes. */
static const uint32_t ARITHMETIC[] = {
    0x94028009, /* add %o2,%o1,%o2 */
    0x972AA003, /* sll %o2,3,%o3 */
    0x981AC00A, /* xor %o3,%o2,%o4 */
    0x92A26001, /* subcc %o1,1,%o1 */
    0x12BFFFFC, /* bne .-16 */
    0x98032001, /* add %o4,1,%o4 */
    0x10BFFFFA, /* ba .-24 */
    0x01000000, /* nop */
};
static const uint32_t MEMORY[] = {
    0xD4022008, /* ld [%o0+8],%o2 */
    0x94028009, /* add %o2,%o1,%o2 */
    0xD4222008, /* st %o2,[%o0+8] */
    0x92A26001, /* subcc %o1,1,%o1 */
    0x12BFFFFC, /* bne .-16 */
    0x98032001, /* add %o4,1,%o4 */
    0x10BFFFFA, /* ba .-24 */
    0x01000000, /* nop */
};
static const uint32_t SPILLING[] = {
    0xD423A060, /* st %o2,[%sp+96] */
    0x94028009, /* add %o2,%o1,%o2 */
    0xD603A060, /* ld [%sp+96],%o3 */
    0x92A26001, /* subcc %o1,1,%o1 */
    0x12BFFFFC, /* bne .-16 */
    0x98032001, /* add %o4,1,%o4 */
    0x10BFFFFA, /* ba .-24 */
    0x01000000, /* nop */
};

/* Loads of the word at an offset of the region, and a branch back to the first of them, its slot a load
   too. */
static void loads(uint32_t *words, uint32_t offset) {
    for (int k = 0; k < 8; k++) words[k] = 0xD4022000 | offset; /* ld [%o0+offset],%o2 */
    words[6] = 0x10BFFFFA; /* ba .-24 */
}

int main(int argc, char **argv) {
    if (argc != 3) return 2;
    int routine = atoi(argv[1]);
    struct policy policy = {1, {{64, 1, {{5, 3, 8, 14}}}}};
    uint32_t bases[] = {4096}, words[8];
    uint8_t memory[64 + FRAME] = {0};
    if (routine >= 2 && routine <= 4) {
        policy.region[0].fields = 16;
        for (int k = 0; k < 16; k++) policy.region[0].field[k] = (struct field){5, 3, 4 * k, 1};
        loads(words, routine == 2 ? 0 : routine == 3 ? 28 : 60);
    }
    struct machine m = {.policy = &policy,
                        .words = routine == 0 ? ARITHMETIC : routine == 1 ? MEMORY : routine == 5 ? SPILLING : words,
                        .bases = bases, .count = 8, .returns = 65536, .frame = 8192, .memory = memory, .framed = memory + 64};
    for (int r = 8; r < 13; r++) m.set[r] = true;
    m.value[8] = 4096;
    m.value[14] = m.frame;
    m.set[14] = true;
    uint64_t steps;
    int end = run(&m, strtoull(argv[2], NULL, 10), &steps);
    printf("end %d, %llu steps, r10 %08x\n", end, (unsigned long long)steps, m.value[10]);
    return 0;
}

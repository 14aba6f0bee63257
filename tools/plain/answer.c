/*
 * Bundle checker, the plain implementation.
 *
 * Reads one bundle (a policy, an entry row, a result entry, and code with one
 * row a word) and prints the answer of the check: number, word, register.
 *
 * It is written for simplicity and speed and is NOT verified. It serves as
 * the plain implementation that the proved one is measured against.
 *
 *   answer [EDITION]            one bundle from standard input
 *   answer [EDITION] -n COUNT   the same, answered COUNT times in memory (for
 *                               timing)
 *   answer [EDITION] -s         a stream of bundles, each after its length
 *                               (32-bit big-endian); one answer a line
 *
 * EDITION is the terminal: 8, which is also taken if it is not told, or 9.
 */
#include <stdbool.h>
#include <stdint.h>
#include <stdio.h>
#include <stdlib.h>
#include <string.h>

enum {
    MAX_REGIONS = 8,
    MAX_FIELDS = 16,
    MAX_SIZE = 4096,
    MAX_WORDS = 128,
    REGISTERS = 32,
    NOTE = 32,              /* the register named for the note or the codes */
    SCRATCH = 33,           /* the register named for the first scratch word */
    SCRATCH_WORDS = 6,
    FIRST_OFFSET = 96,      /* of the scratch words in the frame */
    RESULT_REGISTER = 8,
    STACK_POINTER = 14,
    RETURN_REGISTER = 15,
    FIRST_LOCAL = 16,       /* it and all above it are locals and ins */

    HEAD_BYTES = 8,
    REGION_BYTES = 4,
    FIELD_BYTES = 16,
    ENTRY_BYTES = 12,
    ROW_BYTES = 464,
    WORD_BYTES = 4,
    MAX_BUNDLE = 62468,

    /* Version 1 of a bundle has rows without scratch words. */
    OLD_ROW_BYTES = 392,
    OLD_MAX_BUNDLE = 53180
};

/* ---- Answers ---- */

enum {
    ACCEPTED = 0,
    BAD_ROW = 1,
    BAD_WORD = 2,
    BAD_FLOW = 3,
    UNSET = 4,
    MAYBE_NULL = 5,
    BAD_KINDS = 6,
    OUTSIDE_FIELD = 7,
    WRONG_ELEMENT = 8,
    OFF_GRID = 9,
    NO_PERMISSION = 10,
    BAD_VALUE = 11,
    BAD_EDGE = 12,
    BAD_RESULT = 14,
    BAD_ENTRY = 15,
    OUTSIDE_REGION = 16,
    FULL = 18,
    BAD_REGION_SIZE = 19,
    BAD_POLICY = 20,
    BAD_INPUT = 21,
    BAD_BUNDLE = 23,
    PRIVILEGED = 24,
    CALLERS_REGISTER = 25
};

struct answer {
    int number;
    int word;
    int reg;
};

static const struct answer accepted = { ACCEPTED, 0, 0 };

static struct answer refuse(int number, int word, int reg)
{
    return (struct answer){ number, word, reg };
}

/* ---- Policy ---- */

enum element { U8 = 1, S8, U16, S16, S32, ADDRESS_OF, ADDRESS_OR_NULL };

enum { READ = 1, WRITE = 2 };

struct field {
    uint8_t element;
    uint8_t permission;
    uint8_t target;
    uint16_t offset;
    uint16_t count;
    int32_t lo, hi;
};

struct region {
    uint16_t size;
    uint8_t fields;
    struct field field[MAX_FIELDS];
};

struct policy {
    int regions;
    struct region region[MAX_REGIONS];
};

/* Width in bytes and range of values of each element. */
static const struct {
    uint8_t width;
    int32_t lo, hi;
} elements[] = {
    [U8] = { 1, 0, 255 },
    [S8] = { 1, -128, 127 },
    [U16] = { 2, 0, 65535 },
    [S16] = { 2, -32768, 32767 },
    [S32] = { 4, INT32_MIN, INT32_MAX },
    [ADDRESS_OF] = { 4, 0, 0 },
    [ADDRESS_OR_NULL] = { 4, 0, 0 },
};

/* Offset of the first byte after a field. */
static uint32_t field_end(const struct field *f)
{
    return f->offset + (uint32_t)elements[f->element].width * f->count;
}

static int add_region(struct policy *p, uint16_t size)
{
    if (p->regions == MAX_REGIONS)
        return FULL;
    if (size < 8 || size > MAX_SIZE || size % 8 != 0)
        return BAD_REGION_SIZE;
    p->region[p->regions].size = size;
    p->region[p->regions].fields = 0;
    p->regions++;
    return ACCEPTED;
}

/* Does the field obey the rules on its own parts? */
static bool field_well_formed(const struct policy *p, const struct field *f)
{
    if (f->element < U8 || f->element > ADDRESS_OR_NULL)
        return false;
    if (f->permission < READ || f->permission > (READ | WRITE))
        return false;
    if (f->count == 0 || f->offset % elements[f->element].width != 0)
        return false;
    if (f->element >= ADDRESS_OF)
        return f->target < p->regions && f->lo == 0 && f->hi == 0;
    return f->target == 0 && f->lo <= f->hi &&
           f->lo >= elements[f->element].lo && f->hi <= elements[f->element].hi;
}

/* The policy is built by adds alone, so it is known to obey the rules. */
static int add_field(struct policy *p, int region, const struct field *f)
{
    struct region *r = &p->region[region];

    if (r->fields == MAX_FIELDS)
        return FULL;
    if (!field_well_formed(p, f) || field_end(f) > r->size)
        return BAD_POLICY;
    if (r->fields > 0 && f->offset < field_end(&r->field[r->fields - 1]))
        return BAD_POLICY;
    r->field[r->fields++] = *f;
    return ACCEPTED;
}

/* ---- Rows ---- */

enum kind {
    K_UNSET, K_NUMBER, K_ADDRESS, K_START_OR_NULL, K_RETURN, K_FRAME
};

/* What is known of one register or scratch word. */
struct entry {
    uint8_t kind;
    uint8_t region;
    uint8_t step;
    uint8_t zero;
    int32_t lo, hi;
};

enum { CODES_UNSET, CODES_SET, CODES_COMPARE };

/* What is known of the codes. */
struct note {
    uint8_t kind;
    uint8_t reg;
    uint16_t zero;
    int32_t number;
};

struct row {
    struct entry reg[REGISTERS];
    struct entry scratch[SCRATCH_WORDS];
    struct note note;
};

/* A set of numbers or offsets; with one member the step is 8. */
static struct entry make_set(enum kind kind, int region, int step,
                             int32_t lo, int32_t hi)
{
    struct entry e = { .kind = kind, .region = (uint8_t)region,
                       .step = lo == hi ? 8 : (uint8_t)step,
                       .lo = lo, .hi = hi };
    return e;
}

static struct entry number(int32_t value)
{
    return make_set(K_NUMBER, 0, 8, value, value);
}

static struct entry start_of(int region)
{
    return make_set(K_ADDRESS, region, 8, 0, 0);
}

static struct entry start_or_null(int region)
{
    return (struct entry){ .kind = K_START_OR_NULL, .region = (uint8_t)region };
}

static struct entry full_number(void)
{
    return make_set(K_NUMBER, 0, 1, INT32_MIN, INT32_MAX);
}

/* The numbers lo to hi, or the full number if an end leaves 32 bits. */
static struct entry number_set(int64_t lo, int64_t hi, int step)
{
    if (lo < INT32_MIN || hi > INT32_MAX)
        return full_number();
    return make_set(K_NUMBER, 0, step, (int32_t)lo, (int32_t)hi);
}

static bool is_single(const struct entry *e)
{
    return e->kind == K_NUMBER && e->lo == e->hi;
}

static bool is_zero(const struct entry *e)
{
    return e->kind == K_NUMBER && e->lo == 0 && e->hi == 0;
}

static bool is_start(const struct entry *e)
{
    return e->kind == K_ADDRESS && e->lo == 0 && e->hi == 0;
}

static bool set_well_formed(const struct entry *e)
{
    if (e->lo > e->hi)
        return false;
    if (e->lo == e->hi)
        return e->step == 8;
    if (e->step != 1 && e->step != 2 && e->step != 4 && e->step != 8)
        return false;
    return ((uint32_t)e->hi - (uint32_t)e->lo) % e->step == 0;
}

/* reg is where the entry stands; only r14 may have the frame address. */
static bool entry_well_formed(const struct policy *p, int reg,
                              const struct entry *e)
{
    bool no_set = e->step == 0 && e->lo == 0 && e->hi == 0;

    if (e->zero != 0)
        return false;
    switch (e->kind) {
    case K_UNSET:
    case K_RETURN:
        return e->region == 0 && no_set;
    case K_NUMBER:
        return e->region == 0 && set_well_formed(e);
    case K_ADDRESS:
        return e->region < p->regions && set_well_formed(e) &&
               e->lo >= 0 && e->hi <= p->region[e->region].size;
    case K_START_OR_NULL:
        return e->region < p->regions && no_set;
    case K_FRAME:
        return reg == STACK_POINTER && e->region == 0 && no_set;
    default:
        return false;
    }
}

static bool note_well_formed(const struct note *n)
{
    if (n->zero != 0)
        return false;
    if (n->kind == CODES_COMPARE)
        return n->reg >= 1 && n->reg < REGISTERS;
    return n->kind <= CODES_SET && n->reg == 0 && n->number == 0;
}

/* The lowest badly formed register, then NOTE for the note, then SCRATCH and
   more for a scratch word, -1 if there is none. */
static int row_fault(const struct policy *p, const struct row *row)
{
    if (!is_zero(&row->reg[0]))
        return 0;
    for (int r = 0; r < REGISTERS; r++)
        if (!entry_well_formed(p, r, &row->reg[r]))
            return r;
    if (!note_well_formed(&row->note))
        return NOTE;
    for (int k = 0; k < SCRATCH_WORDS; k++)
        if (!entry_well_formed(p, SCRATCH + k, &row->scratch[k]))
            return SCRATCH + k;
    return -1;
}

/* In an entry row the scratch words are unset. */
static bool entry_row_well_formed(const struct policy *p,
                                  const struct row *row)
{
    for (int k = 0; k < SCRATCH_WORDS; k++)
        if (row->scratch[k].kind != K_UNSET)
            return false;
    return row_fault(p, row) < 0;
}

/* Does the set of a lie in the set of b? */
static bool set_inside(const struct entry *a, const struct entry *b)
{
    if (a->lo < b->lo || a->hi > b->hi)
        return false;
    if (((uint32_t)a->lo - (uint32_t)b->lo) % b->step != 0)
        return false;
    return a->lo == a->hi || a->step % b->step == 0;
}

static bool entry_fits(const struct entry *a, const struct entry *b)
{
    switch (b->kind) {
    case K_UNSET:
        return true;
    case K_NUMBER:
        return a->kind == K_NUMBER && set_inside(a, b);
    case K_ADDRESS:
        return a->kind == K_ADDRESS && a->region == b->region &&
               set_inside(a, b);
    case K_START_OR_NULL:
        return is_zero(a) ||
               (a->region == b->region &&
                (a->kind == K_START_OR_NULL || is_start(a)));
    default:
        return a->kind == b->kind;
    }
}

static bool note_fits(const struct note *a, const struct note *b)
{
    if (b->kind == CODES_UNSET)
        return true;
    if (b->kind == CODES_SET)
        return a->kind != CODES_UNSET;
    return a->kind == CODES_COMPARE && a->reg == b->reg &&
           a->number == b->number;
}

/* The lowest that does not fit, named as by row_fault, -1 for none. */
static int row_misfit(const struct row *a, const struct row *b)
{
    for (int r = 0; r < REGISTERS; r++)
        if (!entry_fits(&a->reg[r], &b->reg[r]))
            return r;
    if (!note_fits(&a->note, &b->note))
        return NOTE;
    for (int k = 0; k < SCRATCH_WORDS; k++)
        if (!entry_fits(&a->scratch[k], &b->scratch[k]))
            return SCRATCH + k;
    return -1;
}

/* Write a register of the row; a note on its old value is lost. */
static void write_register(struct row *row, int rd, const struct entry *e)
{
    if (rd == 0)
        return;
    row->reg[rd] = *e;
    if (row->note.kind == CODES_COMPARE && row->note.reg == rd)
        row->note = (struct note){ .kind = CODES_SET };
}

/* ---- Words ---- */

/* The edition of the manual that the terminal follows. */
enum edition { V8 = 8, V9 = 9 };

enum form { UNREAD, SETHI, BICC, ALU, LOAD, STORE, RETURN };

/* Operations; the first eight are V8's opcodes for them. */
enum operation { ADD, AND, OR, XOR, SUB, ANDN, ORN, XNOR, SLL, SRL, SRA };

enum condition {
    NEVER, EQUAL, LESS_EQUAL, LESS,
    ALWAYS = 8, NOT_EQUAL, GREATER, GREATER_EQUAL
};

enum { OPPOSITE = 8 };      /* this bit turns a condition into its opposite */

struct insn {
    uint8_t form;
    uint8_t refusal;        /* UNREAD: the number that is answered */
    uint8_t op;             /* ALU: the operation */
    bool sets_codes;        /* ALU */
    bool immediate;         /* the second operand is imm, not rs2 */
    uint8_t rd, rs1, rs2;
    uint8_t width;          /* LOAD and STORE: bytes */
    bool is_signed;         /* LOAD */
    bool annul;             /* BICC */
    bool predicted, hint;   /* BICC: kept, but with no effect */
    uint8_t condition;      /* BICC */
    int32_t imm;            /* second operand, SETHI's value, or distance */
};

static bool is_transfer(const struct insn *in)
{
    return in->form == BICC || in->form == RETURN;
}

/* The register that a word writes; r0, where writes vanish, for none. */
static int register_written(const struct insn *in)
{
    bool writes = in->form == SETHI || in->form == ALU || in->form == LOAD;

    return writes ? in->rd : 0;
}

/* Is the register the caller's, so that a routine may not write it? */
static bool is_callers(int reg)
{
    return reg == STACK_POINTER || reg >= FIRST_LOCAL;
}

/* The low bits of the word as a signed number. */
static int32_t sign_extend(uint32_t word, int bits)
{
    uint32_t sign = UINT32_C(1) << (bits - 1);
    uint32_t low = word & (2 * sign - 1);

    return (int32_t)(low ^ sign) - (int32_t)sign;
}

/* A branch whose distance has so many bits. */
static void decode_branch(uint32_t word, int bits, struct insn *in)
{
    in->form = BICC;
    in->annul = word >> 29 & 1;
    in->condition = word >> 25 & 15;
    in->imm = sign_extend(word, bits);
}

/* The predicted branch: bits 21:20 name the codes, bit 19 is the hint. */
static void decode_predicted(enum edition edition, uint32_t word,
                             struct insn *in)
{
    if (edition != V9)
        return;
    if ((word >> 20 & 3) != 0)
        return;
    decode_branch(word, 19, in);
    in->predicted = true;
    in->hint = word >> 19 & 1;
}

static void decode_format_0(enum edition edition, uint32_t word,
                            struct insn *in)
{
    switch (word >> 22 & 7) {
    case 1:
        decode_predicted(edition, word, in);
        break;
    case 2:
        decode_branch(word, 22, in);
        break;
    case 4:
        in->form = SETHI;
        in->imm = (int32_t)(word << 10);
        break;
    }
}

static void decode_alu(uint32_t word, uint32_t opcode, struct insn *in)
{
    bool reserved = (word >> 5 & 0xff) != 0;

    if (word == 0x81C3E008) {
        in->form = RETURN;
    } else if (opcode <= 0x07 || (opcode >= 0x10 && opcode <= 0x17)) {
        if (reserved && !in->immediate)
            return;
        in->form = ALU;
        in->op = opcode & 7;
        in->sets_codes = opcode >= 0x10;
    } else if (opcode >= 0x25 && opcode <= 0x27) {
        if (reserved)
            return;
        in->form = ALU;
        in->op = (uint8_t)(SLL + (opcode - 0x25));
    }
}

static void decode_memory(uint32_t word, uint32_t opcode, struct insn *in)
{
    static const struct {
        uint8_t form, width;
        bool is_signed;
    } table[] = {
        [0x00] = { LOAD, 4, false }, [0x01] = { LOAD, 1, false },
        [0x02] = { LOAD, 2, false }, [0x04] = { STORE, 4, false },
        [0x05] = { STORE, 1, false }, [0x06] = { STORE, 2, false },
        [0x09] = { LOAD, 1, true }, [0x0A] = { LOAD, 2, true },
    };

    if (opcode >= sizeof table / sizeof table[0])
        return;
    if (!in->immediate && (word >> 5 & 0xff) != 0)
        return;
    in->form = table[opcode].form;
    in->width = table[opcode].width;
    in->is_signed = table[opcode].is_signed;
}

/* The number of a word that is not read: privileged ones have their own. */
static uint8_t unread_number(uint32_t format, uint32_t opcode)
{
    if (format == 2) {
        switch (opcode) {
        case 0x29: case 0x2A: case 0x2B:
        case 0x31: case 0x32: case 0x33:
        case 0x39:
            return PRIVILEGED;
        }
    }
    if (format == 3) {
        switch (opcode) {
        case 0x10: case 0x11: case 0x12: case 0x13:
        case 0x14: case 0x15: case 0x16: case 0x17:
        case 0x19: case 0x1A:
        case 0x1D:
        case 0x1F:
        case 0x26:
        case 0x36:
            return PRIVILEGED;
        }
    }
    return BAD_WORD;
}

/* Read a word; the form is UNREAD if it is not of the subset. */
static struct insn decode(enum edition edition, uint32_t word)
{
    struct insn in = {
        .form = UNREAD,
        .rd = word >> 25 & 31,
        .rs1 = word >> 14 & 31,
        .rs2 = word & 31,
        .immediate = word >> 13 & 1,
        .imm = sign_extend(word, 13),
    };
    uint32_t opcode = word >> 19 & 0x3f;

    switch (word >> 30) {
    case 0:
        decode_format_0(edition, word, &in);
        break;
    case 2:
        decode_alu(word, opcode, &in);
        break;
    case 3:
        decode_memory(word, opcode, &in);
        break;
    }
    if (in.form == UNREAD)
        in.refusal = unread_number(word >> 30, opcode);
    return in;
}

/* ---- What each word does to a row ---- */

/* Divide by 2^s, rounding down. */
static int32_t shift_down(int32_t value, int s)
{
    return value < 0 ? ~(~value >> s) : value >> s;
}

/* The number V8 gives. */
static int32_t compute(enum operation op, int32_t first, int32_t second)
{
    uint32_t a = (uint32_t)first, b = (uint32_t)second;

    switch (op) {
    case ADD:  return (int32_t)(a + b);
    case AND:  return (int32_t)(a & b);
    case OR:   return (int32_t)(a | b);
    case XOR:  return (int32_t)(a ^ b);
    case SUB:  return (int32_t)(a - b);
    case ANDN: return (int32_t)(a & ~b);
    case ORN:  return (int32_t)(a | ~b);
    case XNOR: return (int32_t)~(a ^ b);
    case SLL:  return (int32_t)(a << (b & 31));
    case SRL:  return (int32_t)(a >> (b & 31));
    case SRA:  return shift_down(first, (int)(b & 31));
    }
    return 0;
}

static int smaller(int a, int b)
{
    return a < b ? a : b;
}

static struct entry and_numbers(const struct entry *a, const struct entry *b)
{
    if (a->lo >= 0 && b->lo >= 0)
        return make_set(K_NUMBER, 0, 1, 0, smaller(a->hi, b->hi));
    if (a->lo >= 0)
        return make_set(K_NUMBER, 0, 1, 0, a->hi);
    if (b->lo >= 0)
        return make_set(K_NUMBER, 0, 1, 0, b->hi);
    return full_number();
}

static struct entry shift_numbers(enum operation op, const struct entry *a,
                                  const struct entry *b)
{
    if (!is_single(b))
        return full_number();

    int s = b->lo & 31;

    if (op == SLL) {
        int64_t factor = INT64_C(1) << s;
        int step = s >= 3 ? 8 : smaller(8, a->step << s);

        return number_set(a->lo * factor, a->hi * factor, step);
    }
    if (op == SRL && a->lo < 0) {
        if (s == 0)
            return full_number();
        return number_set(0, (INT64_C(1) << (32 - s)) - 1, 1);
    }
    return make_set(K_NUMBER, 0, 1, shift_down(a->lo, s), shift_down(a->hi, s));
}

static struct entry combine_numbers(enum operation op, const struct entry *a,
                                    const struct entry *b)
{
    int step = smaller(a->step, b->step);

    if (is_single(a) && is_single(b))
        return number(compute(op, a->lo, b->lo));
    switch (op) {
    case ADD:
        return number_set((int64_t)a->lo + b->lo, (int64_t)a->hi + b->hi, step);
    case SUB:
        return number_set((int64_t)a->lo - b->hi, (int64_t)a->hi - b->lo, step);
    case AND:
        return and_numbers(a, b);
    case SLL:
    case SRL:
    case SRA:
        return shift_numbers(op, a, b);
    default:
        return full_number();
    }
}

/* Address and number added, or number taken from address; 0, 6 or 16. */
static int move_address(const struct policy *p, enum operation op,
                        const struct entry *a, const struct entry *b,
                        struct entry *out)
{
    int64_t lo, hi;
    const struct entry *address = a->kind == K_ADDRESS ? a : b;

    if (op == ADD) {
        lo = (int64_t)a->lo + b->lo;
        hi = (int64_t)a->hi + b->hi;
    } else if (op == SUB && address == a) {
        lo = (int64_t)a->lo - b->hi;
        hi = (int64_t)a->hi - b->lo;
    } else {
        return BAD_KINDS;
    }
    if (lo < 0 || hi > p->region[address->region].size)
        return OUTSIDE_REGION;
    *out = make_set(K_ADDRESS, address->region, smaller(a->step, b->step),
                    (int32_t)lo, (int32_t)hi);
    return ACCEPTED;
}

/* The entry an operation gives; 0, 6 or 16. */
static int combine(const struct policy *p, enum operation op,
                   const struct entry *a, const struct entry *b,
                   struct entry *out)
{
    bool one_address = (a->kind == K_ADDRESS && b->kind == K_NUMBER) ||
                       (a->kind == K_NUMBER && b->kind == K_ADDRESS);

    if (a->kind == K_FRAME || b->kind == K_FRAME)
        return BAD_KINDS;
    if (op == OR && is_zero(a))
        *out = *b;
    else if (op == OR && is_zero(b))
        *out = *a;
    else if (a->kind == K_NUMBER && b->kind == K_NUMBER)
        *out = combine_numbers(op, a, b);
    else if (one_address)
        return move_address(p, op, a, b, out);
    else if (op == SUB && a->kind == K_START_OR_NULL && is_zero(b))
        *out = *a;
    else
        return BAD_KINDS;
    return ACCEPTED;
}

/* The second operand: a register's entry or the number in the word. */
static struct entry second_operand(const struct insn *in, const struct row *row)
{
    return in->immediate ? number(in->imm) : row->reg[in->rs2];
}

static struct answer apply_alu(const struct policy *p, const struct insn *in,
                               int word, struct row *row)
{
    const struct entry *a = &row->reg[in->rs1];
    struct entry b = second_operand(in, row);
    struct entry result;

    if (a->kind == K_UNSET)
        return refuse(UNSET, word, in->rs1);
    if (b.kind == K_UNSET)
        return refuse(UNSET, word, in->rs2);

    int refusal = combine(p, in->op, a, &b, &result);

    if (refusal != ACCEPTED)
        return refuse(refusal, word, in->rs1);
    write_register(row, in->rd, &result);
    if (in->sets_codes) {
        row->note = (struct note){ .kind = CODES_SET };
        if (in->op == SUB && in->rs1 != 0 && in->rd != in->rs1 && is_single(&b))
            row->note = (struct note){ .kind = CODES_COMPARE, .reg = in->rs1,
                                       .number = b.lo };
    }
    return accepted;
}

/* The entry that a load of the field gives. */
static struct entry loaded_entry(const struct field *f)
{
    switch (f->element) {
    case ADDRESS_OF:
        return start_of(f->target);
    case ADDRESS_OR_NULL:
        return start_or_null(f->target);
    default:
        return make_set(K_NUMBER, 0, 1, f->lo, f->hi);
    }
}

/* The field that holds all bytes from lo up to end, or NULL. */
static const struct field *find_field(const struct region *r, int64_t lo,
                                      int64_t end)
{
    for (int i = 0; i < r->fields; i++) {
        const struct field *f = &r->field[i];

        if (lo >= f->offset && end <= field_end(f))
            return f;
    }
    return NULL;
}

/* Does the instruction serve the element? Stores take either sign. */
static bool serves(const struct insn *in, int element)
{
    if (in->width != elements[element].width)
        return false;
    if (in->form == STORE || in->width == 4)
        return true;
    return in->is_signed == (element == S8 || element == S16);
}

/* The conditions on the operands of a memory word, before the access. */
static struct answer memory_operands(const struct insn *in, int word,
                                     const struct row *row,
                                     const struct entry *a,
                                     const struct entry *b)
{
    if (a->kind == K_UNSET)
        return refuse(UNSET, word, in->rs1);
    if (b->kind == K_UNSET)
        return refuse(UNSET, word, in->rs2);
    if (in->form == STORE && row->reg[in->rd].kind == K_UNSET)
        return refuse(UNSET, word, in->rd);
    if (a->kind == K_START_OR_NULL)
        return refuse(MAYBE_NULL, word, in->rs1);
    if (b->kind == K_START_OR_NULL)
        return refuse(MAYBE_NULL, word, in->rs2);
    if (in->form == STORE && row->reg[in->rd].kind == K_FRAME)
        return refuse(BAD_KINDS, word, in->rs1);
    if (!(a->kind == K_ADDRESS && b->kind == K_NUMBER) &&
        !(a->kind == K_NUMBER && b->kind == K_ADDRESS) &&
        !(a->kind == K_FRAME && is_single(b)) &&
        !(is_single(a) && b->kind == K_FRAME))
        return refuse(BAD_KINDS, word, in->rs1);
    return accepted;
}

/* The scratch word at an offset of the frame, or -1. */
static int scratch_at(int32_t offset)
{
    for (int k = 0; k < SCRATCH_WORDS; k++)
        if (offset == FIRST_OFFSET + WORD_BYTES * k)
            return k;
    return -1;
}

/* An access at an offset of the frame. */
static struct answer apply_scratch(const struct insn *in, int word,
                                   int32_t offset, struct row *row)
{
    int k = scratch_at(offset);

    if (k < 0)
        return refuse(OUTSIDE_FIELD, word, in->rs1);
    if (in->width != WORD_BYTES)
        return refuse(WRONG_ELEMENT, word, in->rs1);
    if (in->form == STORE)
        row->scratch[k] = row->reg[in->rd];
    else if (row->scratch[k].kind == K_UNSET)
        return refuse(UNSET, word, SCRATCH + k);
    else
        write_register(row, in->rd, &row->scratch[k]);
    return accepted;
}

static struct answer apply_memory(const struct policy *p, const struct insn *in,
                                  int word, struct row *row)
{
    const struct entry *a = &row->reg[in->rs1];
    struct entry b = second_operand(in, row);
    struct answer answer = memory_operands(in, word, row, a, &b);

    if (answer.number != ACCEPTED)
        return answer;
    if (a->kind == K_FRAME)
        return apply_scratch(in, word, b.lo, row);
    if (b.kind == K_FRAME)
        return apply_scratch(in, word, a->lo, row);

    int region = a->kind == K_ADDRESS ? a->region : b.region;
    int64_t lo = (int64_t)a->lo + b.lo;
    int64_t hi = (int64_t)a->hi + b.hi;
    int step = smaller(a->step, b.step);
    const struct field *f = find_field(&p->region[region], lo, hi + in->width);

    /* A field ends inside its region, so no byte found is above 4,095. */
    if (f == NULL)
        return refuse(OUTSIDE_FIELD, word, in->rs1);
    if (!serves(in, f->element))
        return refuse(WRONG_ELEMENT, word, in->rs1);
    if (lo % in->width != 0 || step % in->width != 0)
        return refuse(OFF_GRID, word, in->rs1);
    if (!(f->permission & (in->form == LOAD ? READ : WRITE)))
        return refuse(NO_PERMISSION, word, in->rs1);

    struct entry held = loaded_entry(f);

    if (in->form == LOAD)
        write_register(row, in->rd, &held);
    else if (!entry_fits(&row->reg[in->rd], &held))
        return refuse(BAD_VALUE, word, in->rd);
    return accepted;
}

/* Test the conditions of a word that is no transfer, and apply it. */
static struct answer apply(const struct policy *p, const struct insn *in,
                           int word, struct row *row)
{
    struct entry value;

    switch (in->form) {
    case SETHI:
        value = number(in->imm);
        write_register(row, in->rd, &value);
        return accepted;
    case ALU:
        return apply_alu(p, in, word, row);
    default:
        return apply_memory(p, in, word, row);
    }
}

/* ---- Narrowing; each gives false if no member is left ---- */

static bool keep_at_most(struct entry *e, int64_t bound)
{
    if (bound < e->lo)
        return false;
    if (bound < e->hi)
        *e = make_set(K_NUMBER, 0, e->step, e->lo,
                      (int32_t)(bound - (bound - e->lo) % e->step));
    return true;
}

static bool keep_at_least(struct entry *e, int64_t bound)
{
    if (bound > e->hi)
        return false;
    if (bound > e->lo)
        *e = make_set(K_NUMBER, 0, e->step,
                      (int32_t)(bound + (e->hi - bound) % e->step), e->hi);
    return true;
}

static bool narrow_number(struct entry *e, int condition, int32_t n)
{
    switch (condition) {
    case EQUAL:
        return keep_at_most(e, n) && keep_at_least(e, n);
    case NOT_EQUAL:
        if (e->lo == n)
            return keep_at_least(e, (int64_t)n + 1);
        if (e->hi == n)
            return keep_at_most(e, (int64_t)n - 1);
        return true;
    case LESS:
        return keep_at_most(e, (int64_t)n - 1);
    case LESS_EQUAL:
        return keep_at_most(e, n);
    case GREATER:
        return keep_at_least(e, (int64_t)n + 1);
    case GREATER_EQUAL:
        return keep_at_least(e, n);
    default:
        return true;
    }
}

/* Narrow the noted register to the members that obey the condition. */
static bool narrow(struct row *row, int condition)
{
    if (row->note.kind != CODES_COMPARE)
        return true;

    struct entry *e = &row->reg[row->note.reg];

    if (e->kind == K_NUMBER)
        return narrow_number(e, condition, row->note.number);
    if (e->kind == K_START_OR_NULL && row->note.number == 0) {
        if (condition == EQUAL)
            *e = number(0);
        else if (condition == NOT_EQUAL)
            *e = start_of(e->region);
    }
    return true;
}

/* ---- The check ---- */

struct code {
    struct policy policy;
    struct row entry;
    struct entry result;
    int words;
    struct insn insn[MAX_WORDS];
    bool is_target[MAX_WORDS];  /* does a taken edge land on the word? */
    struct row row[MAX_WORDS];
};

static bool is_slot(const struct code *c, int word)
{
    return word > 0 && is_transfer(&c->insn[word - 1]);
}

/* Any branch but never has a taken edge, whether it is reached or not. */
static void find_targets(struct code *c)
{
    memset(c->is_target, 0, sizeof c->is_target);
    for (int w = 0; w < c->words; w++) {
        const struct insn *in = &c->insn[w];
        int target = w + in->imm;

        if (in->form == BICC && in->condition != NEVER &&
            target >= 0 && target < c->words)
            c->is_target[target] = true;
    }
}

/* A slot is examined as an ordinary word too if a taken edge lands on it. */
static bool is_examined(const struct code *c, int word)
{
    return !is_slot(c, word) || c->is_target[word];
}

static bool flow_well_formed(const struct code *c, int word)
{
    const struct insn *in = &c->insn[word];

    if (!is_transfer(in))
        return word + 1 < c->words || !is_examined(c, word);
    if (is_slot(c, word) || word + 1 == c->words)
        return false;
    if (in->form == RETURN)
        return true;
    if (in->condition != ALWAYS && word + 2 >= c->words)
        return false;
    if (in->condition != NEVER) {
        int target = word + in->imm;

        return target >= 0 && target < c->words;
    }
    return true;
}

static struct answer check_plain_word(const struct code *c, int word)
{
    struct row row = c->row[word];
    struct answer answer = apply(&c->policy, &c->insn[word], word, &row);

    if (answer.number != ACCEPTED)
        return answer;

    int reg = row_misfit(&row, &c->row[word + 1]);

    return reg < 0 ? accepted : refuse(BAD_EDGE, word, reg);
}

static struct answer check_return(const struct code *c, int word)
{
    struct row row = c->row[word];
    uint8_t kind = row.reg[RETURN_REGISTER].kind;

    if (kind == K_UNSET)
        return refuse(UNSET, word, RETURN_REGISTER);
    if (kind != K_RETURN)
        return refuse(BAD_KINDS, word, RETURN_REGISTER);

    struct answer answer = apply(&c->policy, &c->insn[word + 1], word + 1,
                                 &row);

    if (answer.number != ACCEPTED)
        return answer;
    if (!entry_fits(&row.reg[RESULT_REGISTER], &c->result))
        return refuse(BAD_RESULT, word, RESULT_REGISTER);
    return accepted;
}

/* One edge of a branch: the condition that holds on it, and where it leads. */
static struct answer check_edge(const struct code *c, int word, int condition,
                                bool runs_slot, int next)
{
    struct row row = c->row[word];

    if (!narrow(&row, condition))
        return accepted;
    if (runs_slot) {
        struct answer answer = apply(&c->policy, &c->insn[word + 1], word + 1,
                                     &row);

        if (answer.number != ACCEPTED)
            return answer;
    }

    int reg = row_misfit(&row, &c->row[next]);

    return reg < 0 ? accepted : refuse(BAD_EDGE, word, reg);
}

static struct answer check_branch(const struct code *c, int word)
{
    const struct insn *in = &c->insn[word];
    bool always = in->condition == ALWAYS, never = in->condition == NEVER;
    struct answer answer = accepted;

    if (!always && !never && c->row[word].note.kind == CODES_UNSET)
        return refuse(UNSET, word, NOTE);
    if (!never)
        answer = check_edge(c, word, in->condition, !(in->annul && always),
                            word + in->imm);
    if (answer.number == ACCEPTED && !always)
        answer = check_edge(c, word, in->condition ^ OPPOSITE, !in->annul,
                            word + 2);
    return answer;
}

static struct answer check_word(const struct code *c, int word)
{
    switch (c->insn[word].form) {
    case BICC:
        return check_branch(c, word);
    case RETURN:
        return check_return(c, word);
    default:
        return check_plain_word(c, word);
    }
}

/* The passes after form: words read, flow, entry, and each word's own. */
static struct answer check_code(const struct code *c)
{
    for (int w = 0; w < c->words; w++)
        if (c->insn[w].form == UNREAD)
            return refuse(c->insn[w].refusal, w, 0);
    for (int w = 0; w < c->words; w++) {
        int written = register_written(&c->insn[w]);

        if (!flow_well_formed(c, w))
            return refuse(BAD_FLOW, w, 0);
        if (is_callers(written))
            return refuse(CALLERS_REGISTER, w, written);
    }

    int reg = row_misfit(&c->entry, &c->row[0]);

    if (reg >= 0)
        return refuse(BAD_ENTRY, 0, reg);
    for (int w = 0; w < c->words; w++) {
        if (!is_examined(c, w))
            continue;

        struct answer answer = check_word(c, w);

        if (answer.number != ACCEPTED)
            return answer;
    }
    return accepted;
}

/* ---- Bundle ---- */

static uint16_t get16(const uint8_t *b)
{
    return (uint16_t)(b[0] << 8 | b[1]);
}

static uint32_t get32(const uint8_t *b)
{
    return (uint32_t)b[0] << 24 | (uint32_t)b[1] << 16 | (uint32_t)b[2] << 8 |
           b[3];
}

static struct entry get_entry(const uint8_t *b)
{
    return (struct entry){ .kind = b[0], .region = b[1], .step = b[2],
                           .zero = b[3], .lo = (int32_t)get32(b + 4),
                           .hi = (int32_t)get32(b + 8) };
}

/* A row of so many bytes; without scratch words they are unset. */
static void get_row(const uint8_t *b, size_t bytes, struct row *row)
{
    for (int r = 0; r < REGISTERS; r++, b += ENTRY_BYTES)
        row->reg[r] = get_entry(b);
    memset(row->scratch, 0, sizeof row->scratch);
    if (bytes == ROW_BYTES)
        for (int k = 0; k < SCRATCH_WORDS; k++, b += ENTRY_BYTES)
            row->scratch[k] = get_entry(b);
    row->note = (struct note){ .kind = b[0], .reg = b[1], .zero = get16(b + 2),
                               .number = (int32_t)get32(b + 4) };
}

static struct field get_field(const uint8_t *b)
{
    return (struct field){ .element = b[0], .permission = b[1], .target = b[2],
                           .offset = get16(b + 4), .count = get16(b + 6),
                           .lo = (int32_t)get32(b + 8),
                           .hi = (int32_t)get32(b + 12) };
}

/* The bytes of a row, by the bundle's version; 0 if there is none such. */
static size_t row_bytes_of(const uint8_t *b)
{
    switch (get16(b + 3)) {
    case 1:
        return OLD_ROW_BYTES;
    case 2:
        return ROW_BYTES;
    default:
        return 0;
    }
}

/* Are size, mark, version, length and zeros of regions and fields right? */
static bool bundle_well_formed(const uint8_t *b, size_t size)
{
    if (size < HEAD_BYTES || memcmp(b, "WTR", 3) != 0)
        return false;

    size_t row_bytes = row_bytes_of(b);

    if (row_bytes == 0)
        return false;
    if (size > (row_bytes == ROW_BYTES ? MAX_BUNDLE : OLD_MAX_BUNDLE))
        return false;

    size_t regions = b[5], words = get16(b + 6), fields = 0;
    size_t fields_at = HEAD_BYTES + regions * REGION_BYTES;

    if (size < fields_at)
        return false;
    for (size_t at = HEAD_BYTES; at < fields_at; at += REGION_BYTES) {
        fields += b[at + 2];
        if (b[at + 3] != 0)
            return false;
    }

    size_t fields_end = fields_at + fields * FIELD_BYTES;

    if (size != fields_end + row_bytes + ENTRY_BYTES +
                words * (WORD_BYTES + row_bytes))
        return false;
    for (size_t at = fields_at; at < fields_end; at += FIELD_BYTES)
        if (b[at + 3] != 0)
            return false;
    return true;
}

/* Build the policy; *at moves past the fields. */
static int get_policy(const uint8_t **at, int regions, struct policy *p)
{
    const uint8_t *region = *at;
    const uint8_t *b = region + regions * REGION_BYTES;

    p->regions = 0;
    for (int r = 0; r < regions; r++) {
        int refusal = add_region(p, get16(region + r * REGION_BYTES));

        if (refusal != ACCEPTED)
            return refusal;
    }
    for (int r = 0; r < regions; r++) {
        int fields = region[r * REGION_BYTES + 2];

        for (int f = 0; f < fields; f++, b += FIELD_BYTES) {
            struct field field = get_field(b);
            int refusal = add_field(p, r, &field);

            if (refusal != ACCEPTED)
                return refusal;
        }
    }
    *at = b;
    return ACCEPTED;
}

/* The answer to a bundle; c is room for what is read from it. */
static struct answer answer_bundle(enum edition edition, const uint8_t *bundle,
                                   size_t size, struct code *c)
{
    const uint8_t *at = bundle + HEAD_BYTES;

    if (!bundle_well_formed(bundle, size))
        return refuse(BAD_BUNDLE, 0, 0);

    size_t row_bytes = row_bytes_of(bundle);
    int refusal = get_policy(&at, bundle[5], &c->policy);

    if (refusal != ACCEPTED)
        return refuse(refusal, 0, 0);
    c->words = get16(bundle + 6);
    if (c->words < 1 || c->words > MAX_WORDS)
        return refuse(BAD_INPUT, 0, 0);

    get_row(at, row_bytes, &c->entry);
    c->result = get_entry(at + row_bytes);
    if (!entry_row_well_formed(&c->policy, &c->entry) ||
        !entry_well_formed(&c->policy, RESULT_REGISTER, &c->result))
        return refuse(BAD_INPUT, 0, 0);

    at += row_bytes + ENTRY_BYTES;
    for (int w = 0; w < c->words; w++, at += WORD_BYTES)
        c->insn[w] = decode(edition, get32(at));
    find_targets(c);
    for (int w = 0; w < c->words; w++, at += row_bytes) {
        get_row(at, row_bytes, &c->row[w]);

        int reg = row_fault(&c->policy, &c->row[w]);

        if (reg >= 0)
            return refuse(BAD_ROW, w, reg);
    }
    return check_code(c);
}

/* ---- Program ---- */

static void print_answer(struct answer a)
{
    printf("%d %d %d\n", a.number, a.word, a.reg);
}

/* One byte more than a bundle may have tells that it is too long. */
static uint8_t buffer[MAX_BUNDLE + 1];
static struct code code;

static void answer_input(enum edition edition, long count)
{
    size_t size = fread(buffer, 1, sizeof buffer, stdin);
    struct answer answer = accepted;

    for (long i = 0; i < count; i++)
        answer = answer_bundle(edition, buffer, size, &code);
    print_answer(answer);
}

/* Answer each bundle of a stream; false if the stream breaks off. */
static bool answer_stream(enum edition edition)
{
    uint8_t head[4];
    size_t got;

    while ((got = fread(head, 1, sizeof head, stdin)) == sizeof head) {
        size_t size = get32(head);
        size_t kept = size < sizeof buffer ? size : sizeof buffer;

        if (fread(buffer, 1, kept, stdin) != kept)
            return false;
        for (size_t rest = size - kept; rest > 0; rest--)
            if (getchar() == EOF)
                return false;
        print_answer(answer_bundle(edition, buffer, kept, &code));
    }
    return got == 0;
}

int main(int argc, char **argv)
{
    enum edition edition = V8;

    if (argc > 1 && (strcmp(argv[1], "8") == 0 || strcmp(argv[1], "9") == 0)) {
        edition = argv[1][0] == '9' ? V9 : V8;
        argc--;
        argv++;
    }
    if (argc == 1) {
        answer_input(edition, 1);
        return 0;
    }
    if (argc == 2 && strcmp(argv[1], "-s") == 0)
        return answer_stream(edition) ? 0 : 1;
    if (argc == 3 && strcmp(argv[1], "-n") == 0) {
        char *end;
        long count = strtol(argv[2], &end, 10);

        if (*end == '\0' && count >= 1) {
            answer_input(edition, count);
            return 0;
        }
    }
    fprintf(stderr, "usage: answer [8 | 9] [-n COUNT | -s]\n");
    return 2;
}

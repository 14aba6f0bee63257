/*
 * Listing of kinds, the plain implementation.
 *
 * Reads records (an edition, a policy, an entry row, words, and the length of
 * a table) and prints for each the answer, and the marks that the table then
 * has. A record is laid out as in crates/tables/src/record.rt; what it expects
 * is passed over.
 *
 * It is written for simplicity and speed and is NOT verified. Words, policies,
 * entry rows and flow are read and tested by the parts of answer.c.
 *
 *   kinds            a stream of records; of each two lines: the answer, and
 *                    the table's marks as digits, or `same` if no byte of it
 *                    was written
 *   kinds -n COUNT   one record, listed COUNT times in memory (for timing)
 */
#define main answer_main
#include "answer.c"
#undef main

enum { TABLE_MARKS = MAX_WORDS * REGISTERS };

/* ---- Marks ---- */

enum mark {
    NOT_REACHED, A_NUMBER, AN_ADDRESS, ADDRESS_OR_0, A_RETURN, NOT_SET
};

/* Words that have marks to pass on, each at most once: a ring. */
struct queue {
    int first, count;
    uint8_t word[MAX_WORDS];
    bool has[MAX_WORDS];
};

static void put(struct queue *q, int word)
{
    if (q->has[word])
        return;
    q->has[word] = true;
    q->word[(q->first + q->count++) % MAX_WORDS] = (uint8_t)word;
}

static int take(struct queue *q)
{
    int word = q->word[q->first];

    q->first = (q->first + 1) % MAX_WORDS;
    q->count--;
    q->has[word] = false;
    return word;
}

static uint8_t meet(uint8_t a, uint8_t b)
{
    if (a == NOT_REACHED || a == b)
        return b;
    return NOT_SET;
}

/* Marks arrive at a word; has one of its own changed? */
static bool arrive(uint8_t *restrict at, const uint8_t *restrict marks)
{
    uint8_t changed = 0;

    for (int r = 0; r < REGISTERS; r++) {
        uint8_t met = meet(at[r], marks[r]);

        changed |= met ^ at[r];
        at[r] = met;
    }
    return changed != 0;
}

/* ---- What each word does to the marks ---- */

static uint8_t alu_mark(const struct insn *in, const uint8_t *marks)
{
    uint8_t a = marks[in->rs1];
    uint8_t b = in->immediate ? A_NUMBER : marks[in->rs2];

    if (in->op == OR && in->rs1 == 0)
        return b;
    if (in->op == OR && !in->immediate && in->rs2 == 0)
        return a;
    if (a == A_NUMBER && b == A_NUMBER)
        return A_NUMBER;
    if (in->op == ADD && a == A_NUMBER && b == AN_ADDRESS)
        return AN_ADDRESS;
    if ((in->op == ADD || in->op == SUB) && a == AN_ADDRESS && b == A_NUMBER)
        return AN_ADDRESS;
    return NOT_SET;
}

/* Apply a word to the marks. */
static void mark_word(const struct insn *in, uint8_t *marks)
{
    if (in->rd == 0)
        return;
    switch (in->form) {
    case SETHI:
        marks[in->rd] = A_NUMBER;
        break;
    case ALU:
        marks[in->rd] = alu_mark(in, marks);
        break;
    case LOAD:
        marks[in->rd] = in->width < 4 ? A_NUMBER : NOT_SET;
        break;
    }
}

/* ---- The listing ---- */

struct listing {
    const struct code *code;
    struct queue queue;
    uint8_t mark[MAX_WORDS][REGISTERS];
};

static void send(struct listing *l, const uint8_t *marks, int to)
{
    if (arrive(l->mark[to], marks))
        put(&l->queue, to);
}

/* One edge of a transfer, with its slot or without. */
static void send_over_slot(struct listing *l, int word, bool runs_slot, int to)
{
    uint8_t marks[REGISTERS];

    memcpy(marks, l->mark[word], sizeof marks);
    if (runs_slot)
        mark_word(&l->code->insn[word + 1], marks);
    send(l, marks, to);
}

static void pass_branch(struct listing *l, int word)
{
    const struct insn *in = &l->code->insn[word];
    bool always = in->condition == ALWAYS, never = in->condition == NEVER;

    if (!never)
        send_over_slot(l, word, !(in->annul && always), word + in->imm);
    if (!always)
        send_over_slot(l, word, !in->annul, word + 2);
}

/* Pass on the marks of a word; a slot does so if a taken edge lands on it. */
static void pass_on(struct listing *l, int word)
{
    const struct insn *in = &l->code->insn[word];

    if (is_transfer(in)) {
        send(l, l->mark[word], word + 1);
        if (in->form == BICC)
            pass_branch(l, word);
    } else if (is_examined(l->code, word)) {
        uint8_t marks[REGISTERS];

        memcpy(marks, l->mark[word], sizeof marks);
        mark_word(in, marks);
        send(l, marks, word + 1);
    }
}

/* The marks of a routine that has passed the tests. */
static void list(const struct code *c, struct listing *l)
{
    uint8_t first[REGISTERS];

    memset(l, 0, sizeof *l);
    l->code = c;
    for (int r = 0; r < REGISTERS; r++) {
        uint8_t kind = c->entry.reg[r].kind;
        bool marked = kind != K_UNSET && kind != K_FRAME;

        first[r] = marked ? kind : NOT_SET;
    }
    send(l, first, 0);
    while (l->queue.count > 0)
        pass_on(l, take(&l->queue));
}

/* ---- Records ---- */

enum {
    RECORD_WORDS = 26,      /* numbers before the words */
    MOST_NUMBERS = 1024,
    MOST_ENTRY = 1024,
    MOST_TABLE = 8192,
    UNTOUCHED = 0xAA
};

enum {
    EDITION = 0, TABLE_LENGTH = 4, ENTRY_LENGTH, WORD_COUNT, REGION_COUNT,
    FIELD_COUNT, MARK_COUNT, SIZES, COUNTS = SIZES + MAX_REGIONS
};

struct record {
    uint32_t number[MOST_NUMBERS];
    uint8_t entry[MOST_ENTRY];
    uint8_t table[MOST_TABLE];
};

static struct field raw_field(const uint32_t *n)
{
    return (struct field){ .element = (uint8_t)(n[0] >> 16),
                           .permission = (uint8_t)(n[0] >> 8),
                           .target = (uint8_t)n[0],
                           .offset = (uint16_t)(n[1] >> 16),
                           .count = (uint16_t)n[1],
                           .lo = (int32_t)(n[2] ^ 0x80000000),
                           .hi = (int32_t)(n[3] ^ 0x80000000) };
}

/* Build the policy by adds; it obeys the rules if none is refused. */
static bool raw_policy(const uint32_t *n, struct policy *p)
{
    const uint32_t *field = n + RECORD_WORDS + n[WORD_COUNT];

    p->regions = 0;
    for (uint32_t r = 0; r < n[REGION_COUNT]; r++)
        if (r == MAX_REGIONS ||
            add_region(p, (uint16_t)n[SIZES + r]) != ACCEPTED)
            return false;
    for (int r = 0; r < p->regions; r++)
        for (uint32_t k = n[COUNTS + r]; k > 0; k--, field += 4) {
            struct field f = raw_field(field);

            if (add_field(p, r, &f) != ACCEPTED)
                return false;
        }
    return true;
}

/* The answer to a record; the table is written if it is accepted. */
static struct answer list_record(struct record *record, struct code *c)
{
    const uint32_t *n = record->number;

    if (!raw_policy(n, &c->policy))
        return refuse(BAD_POLICY, 0, 0);
    if (n[WORD_COUNT] < 1 || n[WORD_COUNT] > MAX_WORDS ||
        n[ENTRY_LENGTH] != ROW_BYTES || n[TABLE_LENGTH] != TABLE_MARKS)
        return refuse(BAD_INPUT, 0, 0);
    get_row(record->entry, ROW_BYTES, &c->entry);
    if (!entry_row_well_formed(&c->policy, &c->entry))
        return refuse(BAD_INPUT, 0, 0);

    c->words = (int)n[WORD_COUNT];
    for (int w = 0; w < c->words; w++) {
        c->insn[w] = decode(n[EDITION], n[RECORD_WORDS + w]);
        if (c->insn[w].form == UNREAD)
            return refuse(c->insn[w].refusal, w, 0);
    }
    find_targets(c);
    for (int w = 0; w < c->words; w++) {
        int written = register_written(&c->insn[w]);

        if (!flow_well_formed(c, w))
            return refuse(BAD_FLOW, w, 0);
        if (is_callers(written))
            return refuse(CALLERS_REGISTER, w, written);
    }

    struct listing l;

    list(c, &l);
    memcpy(record->table, l.mark, TABLE_MARKS);
    return accepted;
}

/* Are there so many bytes more? */
static bool get_bytes(uint8_t *b, size_t size)
{
    return fread(b, 1, size, stdin) == size;
}

/* Read a record; false if there is none, or none that is whole. */
static bool get_record(struct record *record)
{
    uint8_t b[4];
    uint32_t *n = record->number;

    if (!get_bytes(b, sizeof b))
        return false;

    uint32_t count = get32(b);

    if (count < RECORD_WORDS || count > MOST_NUMBERS)
        return false;
    for (uint32_t i = 0; i < count; i++) {
        if (!get_bytes(b, sizeof b))
            return false;
        n[i] = get32(b);
    }
    return (n[EDITION] == V8 || n[EDITION] == V9) &&
           n[ENTRY_LENGTH] <= MOST_ENTRY && n[TABLE_LENGTH] <= MOST_TABLE &&
           n[MARK_COUNT] <= MOST_TABLE &&
           n[WORD_COUNT] + 4 * n[FIELD_COUNT] == count - RECORD_WORDS &&
           get_bytes(record->entry, n[ENTRY_LENGTH]) &&
           get_bytes(record->table, n[MARK_COUNT]);
}

static void print_table(const uint8_t *table)
{
    bool same = true;

    for (int i = 0; i < MOST_TABLE; i++)
        same = same && table[i] == UNTOUCHED;
    for (int i = 0; i < TABLE_MARKS && !same; i++)
        putchar(table[i] <= NOT_SET ? '0' + table[i] : '?');
    puts(same ? "same" : "");
}

int main(int argc, char **argv)
{
    static struct record record;
    static struct code room;
    long count = 1;

    if (argc == 3 && strcmp(argv[1], "-n") == 0)
        count = strtol(argv[2], NULL, 10);
    if ((argc != 1 && argc != 3) || count < 1) {
        fprintf(stderr, "usage: kinds [-n COUNT]\n");
        return 2;
    }
    while (get_record(&record)) {
        struct answer answer = accepted;

        memset(record.table, UNTOUCHED, sizeof record.table);
        for (long i = 0; i < count; i++)
            answer = list_record(&record, &room);
        print_answer(answer);
        print_table(record.table);
    }
    return feof(stdin) ? 0 : 1;
}

/* A plain interpreter of static RV32IM executables: the yardstick for the speed of `rumtsafi run`, and a second opinion
   on what it prints.

       interpreter run FILE [--steps N] [--input FILE] [--entries] [--predecode]

   It decodes at each step, by one switch; with --predecode it decodes each word once and keeps its fields. All that it
   knows of the 4 GiB of addresses lies in flat arrays, one place for each byte or word of them, which take memory where
   they are touched alone. It keeps the counts that `run` keeps: steps, cost by the usual latencies, steps at each
   address of the text, targets of JALR there, and the first step that touches the text. It prints the program's output
   and then the same end line. With --entries it prints the addresses at which steps began, and how many, on standard
   error.

   It takes the executable as given: a file that `rumtsafi run` refuses may do anything here. */
#define _DEFAULT_SOURCE
#include <inttypes.h>
#include <stdbool.h>
#include <stdint.h>
#include <stdio.h>
#include <stdlib.h>
#include <string.h>
#include <sys/mman.h>

enum {
    STACK_START = 0x7ff00000, STACK_SIZE = 0x100000, STACK_POINTER = 0x7ffffff0,
    MEMORY_LIMIT = 67108864, FILE_LIMIT = 16777216,
};
static const uint32_t HIGHEST_END = 0xffff0000;
static const uint32_t WRONG_FILE = -9u, WRONG_ADDRESS = -14u, NO_SUCH_CALL = -38u;

/* The latencies of the usual table, in cycles. */
enum { ONE = 1, OF_MUL = 3, OF_LOAD = 2, OF_JUMP = 2, OF_DIV = 32 };

/* What is known of an aligned word: whether it is text, and a target of a JALR; and which of its bytes are mapped. */
enum { TEXT = 1, TARGET = 2, FIRST_MAPPED = 16, ALL_MAPPED = 240 };

/* The operations. A word that no other one of them has is ILLEGAL; one that isn't looked at yet is UNKNOWN. */
enum operation {
    UNKNOWN, ILLEGAL, LUI, AUIPC, JAL, JALR, BEQ, BNE, BLT, BGE, BLTU, BGEU, LB, LH, LW, LBU, LHU, SB, SH, SW, ADDI,
    SLLI, SLTI, SLTIU, XORI, SRLI, SRAI, ORI, ANDI, ADD, SUB, SLL, SLT, SLTU, XOR, SRL, SRA, OR, AND, MUL, MULH, MULHSU,
    MULHU, DIV, DIVU, REM, REMU, FENCE, SYSTEM,
};

/* The bits of a word that tell its operation: its opcode, funct3 and funct7; -1 where a field may be anything. */
static const struct row {
    unsigned char operation, opcode;
    signed char funct3, funct7;
} rows[] = {
    { LUI, 0x37, -1, -1 }, { AUIPC, 0x17, -1, -1 }, { JAL, 0x6f, -1, -1 }, { JALR, 0x67, 0, -1 },
    { BEQ, 0x63, 0, -1 }, { BNE, 0x63, 1, -1 }, { BLT, 0x63, 4, -1 }, { BGE, 0x63, 5, -1 },
    { BLTU, 0x63, 6, -1 }, { BGEU, 0x63, 7, -1 },
    { LB, 0x03, 0, -1 }, { LH, 0x03, 1, -1 }, { LW, 0x03, 2, -1 }, { LBU, 0x03, 4, -1 }, { LHU, 0x03, 5, -1 },
    { SB, 0x23, 0, -1 }, { SH, 0x23, 1, -1 }, { SW, 0x23, 2, -1 },
    { ADDI, 0x13, 0, -1 }, { SLTI, 0x13, 2, -1 }, { SLTIU, 0x13, 3, -1 }, { XORI, 0x13, 4, -1 },
    { ORI, 0x13, 6, -1 }, { ANDI, 0x13, 7, -1 },
    { SLLI, 0x13, 1, 0 }, { SRLI, 0x13, 5, 0 }, { SRAI, 0x13, 5, 0x20 },
    { ADD, 0x33, 0, 0 }, { SUB, 0x33, 0, 0x20 }, { SLL, 0x33, 1, 0 }, { SLT, 0x33, 2, 0 }, { SLTU, 0x33, 3, 0 },
    { XOR, 0x33, 4, 0 }, { SRL, 0x33, 5, 0 }, { SRA, 0x33, 5, 0x20 }, { OR, 0x33, 6, 0 }, { AND, 0x33, 7, 0 },
    { MUL, 0x33, 0, 1 }, { MULH, 0x33, 1, 1 }, { MULHSU, 0x33, 2, 1 }, { MULHU, 0x33, 3, 1 },
    { DIV, 0x33, 4, 1 }, { DIVU, 0x33, 5, 1 }, { REM, 0x33, 6, 1 }, { REMU, 0x33, 7, 1 },
    { FENCE, 0x0f, 0, -1 }, { SYSTEM, 0x73, -1, -1 },
};
static unsigned char operations[1 << 17];

/* A decoded word. */
struct line {
    uint32_t immediate;
    unsigned char operation, rd, rs1, rs2;
};

struct range {
    uint32_t start, past;
};

enum kind { EXIT, BREAK, ACCESS, MISALIGNED, FETCH, BAD_WORD, LIMIT };

static unsigned char *memory, *facts;
static uint64_t *entries;
static struct line *lines;
static struct range *ranges;
static uint32_t range_count, segment_bytes, heap_start, heap_end;
/* The registers, and a place that a decoded word writes to instead of x0. */
enum { NOWHERE = 32 };
static uint32_t x[33], entry;
static uint64_t steps, cost;
static const unsigned char *input;
static uint32_t input_left;
static bool touched, ended;
static uint32_t touched_pc, touched_address, end_value, end_width;
static enum kind end_kind;

static void fail(const char *text)
{
    fprintf(stderr, "interpreter: %s\n", text);
    exit(2);
}

static void end(enum kind kind, uint32_t value)
{
    ended = true;
    end_kind = kind;
    end_value = value;
}

/* Memory. */

static void *claim(size_t size)
{
    void *place = mmap(NULL, size, PROT_READ | PROT_WRITE, MAP_PRIVATE | MAP_ANONYMOUS | MAP_NORESERVE, -1, 0);
    if (place == MAP_FAILED)
        fail("out of memory");
    return place;
}

static inline uint32_t word_at(uint32_t address)
{
    uint32_t word;
    memcpy(&word, memory + address, 4);
    return word;
}

static bool is_mapped(uint32_t address)
{
    return facts[address / 4] & FIRST_MAPPED << address % 4;
}

/* Maps the bytes from an address to another one, or takes them out. */
static void map(uint32_t address, uint32_t past, bool mapped)
{
    for (; address < past; address++) {
        if (address % 4 == 0 && past - address >= 4) {
            facts[address / 4] = (unsigned char)((facts[address / 4] & ~ALL_MAPPED) | mapped * ALL_MAPPED);
            address += 3;
        } else if (mapped) {
            facts[address / 4] |= (unsigned char)(FIRST_MAPPED << address % 4);
        } else {
            facts[address / 4] &= (unsigned char)~(FIRST_MAPPED << address % 4);
        }
    }
}

static bool are_mapped(uint32_t address, uint32_t length)
{
    uint32_t past = address + length;
    if (length && past - 1 < address)
        return false;
    for (; address != past && is_mapped(address); address++)
        if (address % 4 == 0 && past - address >= 4 && facts[address / 4] >= ALL_MAPPED)
            address += 3;
    return address == past;
}

/* Keeps the first byte of the text, in the order of the access, that the first such access moves. The words of the text
   that it moves have to be looked at again. */
static void touch(uint32_t pc, uint32_t address, uint32_t length)
{
    for (uint32_t i = 0; i < length; i = ((address + i) | 3) + 1 - address) {
        uint32_t at = address + i;
        if (!(facts[at / 4] & TEXT))
            continue;
        lines[at / 4].operation = UNKNOWN;
        if (!touched) {
            touched = true;
            touched_pc = pc;
            touched_address = at;
        }
    }
}

/* Whether a load or store may move its bytes, in all cases. */
__attribute__((noinline)) static bool may_move(uint32_t pc, uint32_t address, uint32_t width)
{
    touch(pc, address, width);
    for (uint32_t i = 0; i < width; i++) {
        if (!is_mapped(address + i)) {
            end(ACCESS, address);
            end_width = width;
            return false;
        }
    }
    return true;
}

/* The same; the usual case is an aligned access to mapped bytes that are no text. */
static inline bool moves(uint32_t pc, uint32_t address, uint32_t width)
{
    bool usual = !(address & (width - 1)) && (facts[address / 4] & (ALL_MAPPED | TEXT)) == ALL_MAPPED;
    return __builtin_expect(usual, 1) || may_move(pc, address, width);
}

/* Environment calls. */

/* What a call answers whose bytes can't be moved, or 0. */
static uint32_t refusal(uint32_t pc, bool is_open, uint32_t address, uint32_t count)
{
    if (!is_open)
        return WRONG_FILE;
    if (!are_mapped(address, count))
        return WRONG_ADDRESS;
    touch(pc, address, count);
    return 0;
}

static uint32_t call_read(uint32_t pc, uint32_t file, uint32_t address, uint32_t most)
{
    uint32_t count = most < input_left ? most : input_left, refused = refusal(pc, file == 0, address, count);
    if (refused)
        return refused;
    memcpy(memory + address, input, count);
    input += count;
    input_left -= count;
    return count;
}

static uint32_t call_write(uint32_t pc, uint32_t file, uint32_t address, uint32_t count)
{
    uint32_t refused = refusal(pc, file == 1 || file == 2, address, count);
    if (refused)
        return refused;
    fwrite(memory + address, 1, count, stdout);
    return count;
}

static uint32_t call_brk(uint32_t due)
{
    bool meets_stack = due > STACK_START && heap_start < STACK_START + (uint32_t)STACK_SIZE;
    bool fits = due >= heap_start && due <= HIGHEST_END && !meets_stack
        && (uint64_t)segment_bytes + STACK_SIZE + (due - heap_start) <= MEMORY_LIMIT;
    if (fits) {
        if (due > heap_end)
            memset(memory + heap_end, 0, due - heap_end);
        map(heap_end, due, true);
        map(due, heap_end, false);
        heap_end = due;
    }
    return heap_end;
}

static void environment_call(uint32_t pc)
{
    switch (x[17]) {
    case 63: x[10] = call_read(pc, x[10], x[11], x[12]); break;
    case 64: x[10] = call_write(pc, x[10], x[11], x[12]); break;
    case 93: end(EXIT, x[10]); break;
    case 214: x[10] = call_brk(x[10]); break;
    default: x[10] = NO_SUCH_CALL;
    }
}

/* The words. */

static void fill_operations(void)
{
    memset(operations, ILLEGAL, sizeof operations);
    for (const struct row *row = rows; row < rows + sizeof rows / sizeof *rows; row++)
        for (int bits = 0; bits < 1024; bits++)
            if ((row->funct3 < 0 || row->funct3 == bits >> 7) && (row->funct7 < 0 || row->funct7 == (bits & 127)))
                operations[row->opcode << 10 | bits] = row->operation;
}

static inline enum operation operation_of(uint32_t word)
{
    return operations[(word & 127) << 10 | (word >> 5 & 0x380) | word >> 25];
}

static inline uint32_t upper(uint32_t word)
{
    return word & 0xfffff000;
}

static inline uint32_t inner(uint32_t word)
{
    return (uint32_t)((int32_t)word >> 20);
}

static inline uint32_t of_store(uint32_t word)
{
    return (inner(word) & ~31u) | (word >> 7 & 31);
}

static inline uint32_t of_branch(uint32_t word)
{
    return (uint32_t)((int32_t)word >> 31) << 12 | (word << 4 & 0x800) | (word >> 20 & 0x7e0) | (word >> 7 & 0x1e);
}

static inline uint32_t of_jump(uint32_t word)
{
    return (uint32_t)((int32_t)word >> 31) << 20 | (word & 0xff000) | (word >> 9 & 0x800) | (word >> 20 & 0x7fe);
}

static struct line decode(uint32_t word)
{
    struct line line = { inner(word), operation_of(word), word >> 7 & 31, word >> 15 & 31, word >> 20 & 31 };
    line.rd = line.rd ? line.rd : NOWHERE;
    switch (word & 127) {
    case 0x37: case 0x17: line.immediate = upper(word); break;
    case 0x6f: line.immediate = of_jump(word); break;
    case 0x63: line.immediate = of_branch(word); break;
    case 0x23: line.immediate = of_store(word); break;
    }
    return line;
}

static inline uint32_t quotient(uint32_t a, uint32_t b)
{
    return b == 0 ? UINT32_MAX : a == 0x80000000 && b == UINT32_MAX ? a : (uint32_t)((int32_t)a / (int32_t)b);
}

static inline uint32_t rest(uint32_t a, uint32_t b)
{
    return b == 0 ? a : a == 0x80000000 && b == UINT32_MAX ? 0 : (uint32_t)((int32_t)a % (int32_t)b);
}

/* The steps. */

/* The immediate of a word of this form. */
#define IMMEDIATE(form) (predecodes ? line.immediate : form(word))
/* Ends a step that costs so much and gives its register a value. */
#define GIVES(cycles, value) { spent += (cycles); x[rd] = (value); pc += 4; continue; }
/* Ends a step that leads to an address where the condition holds. */
#define LEADS(cycles, condition, form) { \
    spent += (cycles); \
    if (!(condition)) { pc += 4; continue; } \
    target = pc + IMMEDIATE(form); \
    if (target & 3) { end(MISALIGNED, target); goto out; } \
    pc = target; \
    continue; \
}
#define LOADS(width, kind) { \
    uint32_t from = a + IMMEDIATE(inner); \
    kind value; \
    spent += OF_LOAD; \
    if (!moves(pc, from, width)) goto out; \
    memcpy(&value, memory + from, width); \
    x[rd] = (uint32_t)value; \
    pc += 4; \
    continue; \
}
#define STORES(width) { \
    uint32_t to = a + IMMEDIATE(of_store); \
    spent += ONE; \
    if (!moves(pc, to, width)) goto out; \
    memcpy(memory + to, &b, width); \
    pc += 4; \
    continue; \
}

static inline __attribute__((always_inline)) void interpret(uint64_t limit, const bool predecodes)
{
    uint64_t left = limit, spent = 0;
    uint32_t pc = entry;
    for (;;) {
        struct line line = { 0 };
        uint32_t word = 0, rd, a, b, target;
        enum operation operation;
        if (!predecodes)
            x[0] = 0;
        if (left == 0) {
            end(LIMIT, 0);
            goto out;
        }
        left--;
        if (predecodes)
            line = lines[pc / 4];
        /* A word that is decoded is text. */
        if ((!predecodes || line.operation == UNKNOWN) && !(facts[pc / 4] & TEXT)) {
            end(FETCH, pc);
            goto out;
        }
        entries[pc / 4]++;
        if (predecodes) {
            if (line.operation == UNKNOWN)
                line = lines[pc / 4] = decode(word_at(pc));
            operation = line.operation, rd = line.rd, a = x[line.rs1], b = x[line.rs2];
        } else {
            word = word_at(pc);
            operation = operation_of(word), rd = word >> 7 & 31, a = x[word >> 15 & 31], b = x[word >> 20 & 31];
        }
        switch (operation) {
        case LUI: GIVES(ONE, IMMEDIATE(upper));
        case AUIPC: GIVES(ONE, pc + IMMEDIATE(upper));
        case JAL:
            spent += OF_JUMP;
            target = pc + IMMEDIATE(of_jump);
            if (target & 3) { end(MISALIGNED, target); goto out; }
            x[rd] = pc + 4;
            pc = target;
            continue;
        case JALR:
            spent += OF_JUMP;
            target = (a + IMMEDIATE(inner)) & ~1u;
            if (target & 3) { end(MISALIGNED, target); goto out; }
            x[rd] = pc + 4;
            pc = target;
            if (facts[pc / 4] & TEXT)
                facts[pc / 4] |= TARGET;
            continue;
        case BEQ: LEADS(ONE, a == b, of_branch);
        case BNE: LEADS(ONE, a != b, of_branch);
        case BLT: LEADS(ONE, (int32_t)a < (int32_t)b, of_branch);
        case BGE: LEADS(ONE, (int32_t)a >= (int32_t)b, of_branch);
        case BLTU: LEADS(ONE, a < b, of_branch);
        case BGEU: LEADS(ONE, a >= b, of_branch);
        case LB: LOADS(1, int8_t);
        case LH: LOADS(2, int16_t);
        case LW: LOADS(4, uint32_t);
        case LBU: LOADS(1, uint8_t);
        case LHU: LOADS(2, uint16_t);
        case SB: STORES(1);
        case SH: STORES(2);
        case SW: STORES(4);
        /* The canonical no-op costs nothing. */
        case ADDI: GIVES(rd % NOWHERE || word_at(pc) != 0x00000013, a + IMMEDIATE(inner));
        case SLLI: GIVES(ONE, a << (IMMEDIATE(inner) & 31));
        case SLTI: GIVES(ONE, (int32_t)a < (int32_t)IMMEDIATE(inner));
        case SLTIU: GIVES(ONE, a < IMMEDIATE(inner));
        case XORI: GIVES(ONE, a ^ IMMEDIATE(inner));
        case SRLI: GIVES(ONE, a >> (IMMEDIATE(inner) & 31));
        case SRAI: GIVES(ONE, (uint32_t)((int32_t)a >> (IMMEDIATE(inner) & 31)));
        case ORI: GIVES(ONE, a | IMMEDIATE(inner));
        case ANDI: GIVES(ONE, a & IMMEDIATE(inner));
        case ADD: GIVES(ONE, a + b);
        case SUB: GIVES(ONE, a - b);
        case SLL: GIVES(ONE, a << (b & 31));
        case SLT: GIVES(ONE, (int32_t)a < (int32_t)b);
        case SLTU: GIVES(ONE, a < b);
        case XOR: GIVES(ONE, a ^ b);
        case SRL: GIVES(ONE, a >> (b & 31));
        case SRA: GIVES(ONE, (uint32_t)((int32_t)a >> (b & 31)));
        case OR: GIVES(ONE, a | b);
        case AND: GIVES(ONE, a & b);
        case MUL: GIVES(OF_MUL, a * b);
        case MULH: GIVES(OF_MUL, (uint32_t)(((int64_t)(int32_t)a * (int32_t)b) >> 32));
        case MULHSU: GIVES(OF_MUL, (uint32_t)(((int64_t)(int32_t)a * (int64_t)b) >> 32));
        case MULHU: GIVES(OF_MUL, (uint32_t)(((uint64_t)a * b) >> 32));
        case DIV: GIVES(OF_DIV, quotient(a, b));
        case DIVU: GIVES(OF_DIV, b == 0 ? UINT32_MAX : a / b);
        case REM: GIVES(OF_DIV, rest(a, b));
        case REMU: GIVES(OF_DIV, b == 0 ? a : a % b);
        case FENCE:
            spent += ONE;
            pc += 4;
            continue;
        case SYSTEM:
            if (word_at(pc) != 0x00000073 && word_at(pc) != 0x00100073)
                break;
            spent += ONE;
            if (word_at(pc) == 0x00100073)
                end(BREAK, 0);
            else
                environment_call(pc);
            if (ended)
                goto out;
            pc += 4;
            continue;
        default:;
        }
        end(BAD_WORD, word_at(pc));
        goto out;
    }
out:
    steps = limit - left;
    cost = spent;
}

static void decode_each_step(uint64_t limit)
{
    interpret(limit, false);
}

static void decode_once(uint64_t limit)
{
    interpret(limit, true);
}

/* The files. */

static unsigned char *read_file(const char *name, uint32_t *length)
{
    unsigned char *bytes = claim(FILE_LIMIT);
    FILE *file = fopen(name, "rb");
    if (!file)
        fail("a file can't be read");
    *length = (uint32_t)fread(bytes, 1, FILE_LIMIT, file);
    fclose(file);
    return bytes;
}

static uint32_t field(const unsigned char *bytes, uint32_t length, uint32_t offset, uint32_t width)
{
    uint32_t value = 0;
    if (offset > length || length - offset < width)
        fail("the executable is too short");
    memcpy(&value, bytes + offset, width);
    return value;
}

static uint32_t add_segments(const unsigned char *bytes, uint32_t length)
{
    uint32_t at = field(bytes, length, 28, 4), count = field(bytes, length, 44, 2), greatest_end = 0;
    for (; count--; at += 32) {
        uint32_t offset = field(bytes, length, at + 4, 4), file_size = field(bytes, length, at + 16, 4);
        uint32_t start = field(bytes, length, at + 8, 4), size = field(bytes, length, at + 20, 4);
        if (field(bytes, length, at, 4) != 1 || size == 0)
            continue;
        if (file_size > length || offset > length - file_size || file_size > size)
            fail("a segment isn't in the executable");
        memcpy(memory + start, bytes + offset, file_size);
        map(start, start + size, true);
        segment_bytes += size;
        if (start + size > greatest_end)
            greatest_end = start + size;
    }
    return greatest_end;
}

static void add_ranges(const unsigned char *bytes, uint32_t length)
{
    uint32_t at = field(bytes, length, 32, 4), count = field(bytes, length, 48, 2);
    ranges = claim((count + 1) * sizeof *ranges);
    for (; count--; at += 40) {
        uint32_t start = field(bytes, length, at + 12, 4), size = field(bytes, length, at + 20, 4);
        uint32_t first = (start + 3) & ~3u, past = (start + size) & ~3u;
        if (field(bytes, length, at + 4, 4) != 1 || (field(bytes, length, at + 8, 4) & 6) != 6 || first >= past)
            continue;
        ranges[range_count++] = (struct range){ first, past };
        for (uint32_t address = first; address < past; address += 4)
            facts[address / 4] |= TEXT;
    }
}

static void start(const char *name)
{
    uint32_t length;
    unsigned char *bytes = read_file(name, &length);
    /* The last bytes that a word at the last address would have. */
    memory = claim((1ull << 32) + 8);
    facts = claim(1ull << 30);
    entries = claim((1ull << 30) * sizeof *entries);
    lines = claim((1ull << 30) * sizeof *lines);
    heap_start = heap_end = (add_segments(bytes, length) + 15) & ~15u;
    add_ranges(bytes, length);
    map(STACK_START, STACK_START + (uint32_t)STACK_SIZE, true);
    entry = field(bytes, length, 24, 4);
    x[2] = STACK_POINTER;
    fill_operations();
}

static void print_end(void)
{
    printf("end ");
    switch (end_kind) {
    case EXIT: printf("exit %08" PRIx32, end_value); break;
    case BREAK: printf("break"); break;
    case ACCESS: printf("access %08" PRIx32 " %" PRIu32, end_value, end_width); break;
    case MISALIGNED: printf("misaligned %08" PRIx32, end_value); break;
    case FETCH: printf("fetch %08" PRIx32, end_value); break;
    case BAD_WORD: printf("illegal %08" PRIx32, end_value); break;
    case LIMIT: printf("limit"); break;
    }
    printf(" steps %" PRIu64 " cost %" PRIu64 "\n", steps, cost);
}

static void print_entries(void)
{
    for (struct range *range = ranges; range < ranges + range_count; range++)
        for (uint32_t at = range->start / 4; at < range->past / 4; at++)
            if (entries[at])
                fprintf(stderr, "%08" PRIx32 " %" PRIu64 "%s\n", 4 * at, entries[at],
                        facts[at] & TARGET ? " target" : "");
    if (touched)
        fprintf(stderr, "touched %08" PRIx32 " %08" PRIx32 "\n", touched_pc, touched_address);
}

int main(int count, char **words)
{
    uint64_t limit = FILE_LIMIT;
    bool shows_entries = false, predecodes = false;
    if (count < 3 || strcmp(words[1], "run") != 0)
        fail("use: interpreter run FILE [--steps N] [--input FILE] [--entries] [--predecode]");
    for (int i = 3; i < count; i++) {
        if (strcmp(words[i], "--entries") == 0)
            shows_entries = true;
        else if (strcmp(words[i], "--predecode") == 0)
            predecodes = true;
        else if (strcmp(words[i], "--steps") == 0 && i + 1 < count)
            limit = strtoull(words[++i], NULL, 10);
        else if (strcmp(words[i], "--input") == 0 && i + 1 < count)
            input = read_file(words[++i], &input_left);
        else
            fail("an option that isn't known");
    }
    start(words[2]);
    (predecodes ? decode_once : decode_each_step)(limit);
    print_end();
    if (shows_entries)
        print_entries();
    return 0;
}

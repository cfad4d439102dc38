/* Decodes instructions of x86-64 and i386 with Zydis, and gives only what the lint asks for, in
   structures that don't change with the version of Zydis. src/zydis.rs declares the same structures. */

#include <Zydis/Zydis.h>
#include <stdint.h>
#include <string.h>

/* Instructions that are told apart. All others are OTHER. */
enum mnemonic {
    OTHER, PUSH, POP, PUSHF, POPF, LEAVE, RET, PADDING, STOP, CALL, JMP, JZ, JNZ, JCC, LEA, MOV, MOVSXD,
    ADD, SUB, INC, DEC, AND, XOR, XCHG, SYSCALL, CMP, CMOV, ENTER,
    NEG, NOT, SHL, SHR, MOVE_VECTOR, OR
};

enum operand_kind { NONE, REGISTER, MEMORY, IMMEDIATE, TARGET };

/* The processors whose code is read. */
enum mode { X86_64, I386, MODES };

/* Registers have the numbers that instructions have for them. */
enum { RIP = 16, OTHER_REGISTER = 254, NO_REGISTER = 255 };

struct operand {
    uint8_t kind;
    uint8_t bits;    /* the size; 255 if it is larger */
    uint8_t reg;     /* the general register that it is, or is a part of */
    uint8_t is_whole; /* whether it is all bits of that register */
    uint8_t base;    /* of memory, as are the next three */
    uint8_t index;
    uint8_t scale;
    uint8_t is_thread_local; /* whether the address is relative to fs or gs */
    int64_t value;   /* the immediate, the displacement, or the address that is jumped to */
};

struct instruction {
    uint8_t length;
    uint8_t mnemonic;
    uint8_t operand_count;
    uint8_t width;        /* the width of its operands in bits */
    uint16_t written;     /* a bit for each general register that it writes */
    uint8_t stored_bytes; /* how many bytes it writes to memory at a base register plus an offset */
    uint8_t stored_base;
    int32_t stored_offset; /* displacements have 32 bits */
    struct operand operands[2];
};

static ZydisDecoder decoders[MODES];
static ZydisFormatter formatter;

/* To be called once, before any other function here. */
int dwcheck_lint_zydis_start(void)
{
    if (!ZYAN_SUCCESS(ZydisDecoderInit(&decoders[X86_64], ZYDIS_MACHINE_MODE_LONG_64, ZYDIS_STACK_WIDTH_64)) ||
        !ZYAN_SUCCESS(ZydisDecoderInit(&decoders[I386], ZYDIS_MACHINE_MODE_LEGACY_32, ZYDIS_STACK_WIDTH_32)) ||
        !ZYAN_SUCCESS(ZydisFormatterInit(&formatter, ZYDIS_FORMATTER_STYLE_ATT)))
        return 0;
    /* Numbers as objdump writes them: 0x8, not 0x08, and 0x4c724, not 0x000000000004C724. */
    const ZydisFormatterProperty plain[] = {
        ZYDIS_FORMATTER_PROP_ADDR_PADDING_ABSOLUTE, ZYDIS_FORMATTER_PROP_ADDR_PADDING_RELATIVE,
        ZYDIS_FORMATTER_PROP_DISP_PADDING, ZYDIS_FORMATTER_PROP_IMM_PADDING
    };
    for (size_t i = 0; i < sizeof plain / sizeof *plain; i++)
        ZydisFormatterSetProperty(&formatter, plain[i], ZYDIS_PADDING_DISABLED);
    return ZYAN_SUCCESS(ZydisFormatterSetProperty(&formatter, ZYDIS_FORMATTER_PROP_HEX_UPPERCASE, ZYAN_FALSE));
}

/* The first of the whole general registers of a processor, which come in the order of their numbers. */
static ZydisRegister first_register(enum mode mode)
{
    return mode == I386 ? ZYDIS_REGISTER_EAX : ZYDIS_REGISTER_RAX;
}

static int is_whole(enum mode mode, ZydisRegister named)
{
    ZydisRegister last = mode == I386 ? ZYDIS_REGISTER_EDI : ZYDIS_REGISTER_R15;
    return named >= first_register(mode) && named <= last;
}

/* The general register that a register is, or is a part of. */
static uint8_t register_of(enum mode mode, ZydisRegister named)
{
    ZydisMachineMode machine = mode == I386 ? ZYDIS_MACHINE_MODE_LEGACY_32 : ZYDIS_MACHINE_MODE_LONG_64;
    ZydisRegister whole = ZydisRegisterGetLargestEnclosing(machine, named);
    return is_whole(mode, whole) ? (uint8_t)(whole - first_register(mode)) : NO_REGISTER;
}

/* A register of an address. It may be half of a register, or a vector. */
static uint8_t address_register(enum mode mode, ZydisRegister named)
{
    if (named == ZYDIS_REGISTER_NONE)
        return NO_REGISTER;
    if (named == ZYDIS_REGISTER_RIP)
        return RIP;
    return is_whole(mode, named) ? register_of(mode, named) : OTHER_REGISTER;
}

static int is_thread_local(const ZydisDecodedOperand *in)
{
    return in->mem.segment == ZYDIS_REGISTER_FS || in->mem.segment == ZYDIS_REGISTER_GS;
}

static uint8_t mnemonic_of(const ZydisDecodedInstruction *in)
{
    switch (in->mnemonic) {
    case ZYDIS_MNEMONIC_PUSH: return PUSH;
    case ZYDIS_MNEMONIC_POP: return POP;
    case ZYDIS_MNEMONIC_PUSHFQ: case ZYDIS_MNEMONIC_PUSHFD: return PUSHF;
    case ZYDIS_MNEMONIC_POPFQ: case ZYDIS_MNEMONIC_POPFD: return POPF;
    case ZYDIS_MNEMONIC_ENTER: return ENTER;
    case ZYDIS_MNEMONIC_LEAVE: return LEAVE;
    case ZYDIS_MNEMONIC_RET: case ZYDIS_MNEMONIC_IRETQ: case ZYDIS_MNEMONIC_IRETD: return RET;
    case ZYDIS_MNEMONIC_NOP: case ZYDIS_MNEMONIC_INT3: return PADDING;
    case ZYDIS_MNEMONIC_HLT: case ZYDIS_MNEMONIC_UD0: case ZYDIS_MNEMONIC_UD1: case ZYDIS_MNEMONIC_UD2: return STOP;
    case ZYDIS_MNEMONIC_CALL: return CALL;
    case ZYDIS_MNEMONIC_JMP: return JMP;
    case ZYDIS_MNEMONIC_JZ: return JZ;
    case ZYDIS_MNEMONIC_JNZ: return JNZ;
    case ZYDIS_MNEMONIC_LEA: return LEA;
    case ZYDIS_MNEMONIC_MOV: return MOV;
    case ZYDIS_MNEMONIC_MOVSXD: return MOVSXD;
    case ZYDIS_MNEMONIC_ADD: return ADD;
    case ZYDIS_MNEMONIC_SUB: return SUB;
    case ZYDIS_MNEMONIC_INC: return INC;
    case ZYDIS_MNEMONIC_DEC: return DEC;
    case ZYDIS_MNEMONIC_AND: return AND;
    case ZYDIS_MNEMONIC_XOR: return XOR;
    case ZYDIS_MNEMONIC_OR: return OR;
    case ZYDIS_MNEMONIC_NEG: return NEG;
    case ZYDIS_MNEMONIC_NOT: return NOT;
    case ZYDIS_MNEMONIC_SHL: return SHL;
    case ZYDIS_MNEMONIC_SHR: return SHR;
    case ZYDIS_MNEMONIC_MOVQ: case ZYDIS_MNEMONIC_VMOVQ: case ZYDIS_MNEMONIC_PINSRQ: case ZYDIS_MNEMONIC_PEXTRQ:
    case ZYDIS_MNEMONIC_VPINSRQ: case ZYDIS_MNEMONIC_VPEXTRQ: return MOVE_VECTOR;
    case ZYDIS_MNEMONIC_XCHG: return XCHG;
    case ZYDIS_MNEMONIC_SYSCALL: return SYSCALL;
    case ZYDIS_MNEMONIC_CMP: return CMP;
    /* The target of XBEGIN is where a transaction that fails goes on. */
    case ZYDIS_MNEMONIC_XBEGIN: return JCC;
    default: break;
    }
    if (in->machine_mode == ZYDIS_MACHINE_MODE_LEGACY_32) {
        switch (in->mnemonic) {
        case ZYDIS_MNEMONIC_INT: return SYSCALL;
        case ZYDIS_MNEMONIC_MOVD: case ZYDIS_MNEMONIC_VMOVD: case ZYDIS_MNEMONIC_PINSRD: case ZYDIS_MNEMONIC_PEXTRD:
        case ZYDIS_MNEMONIC_VPINSRD: case ZYDIS_MNEMONIC_VPEXTRD: return MOVE_VECTOR;
        default: break;
        }
    }
    switch (in->meta.category) {
    case ZYDIS_CATEGORY_COND_BR: return JCC;
    case ZYDIS_CATEGORY_CMOV: return CMOV;
    default: return OTHER;
    }
}

static void set_operand(enum mode mode, struct operand *out, const ZydisDecodedOperand *in, uint64_t next)
{
    out->bits = in->size > 255 ? 255 : (uint8_t)in->size;
    switch (in->type) {
    case ZYDIS_OPERAND_TYPE_REGISTER:
        out->kind = REGISTER;
        out->reg = register_of(mode, in->reg.value);
        out->is_whole = (uint8_t)is_whole(mode, in->reg.value);
        break;
    case ZYDIS_OPERAND_TYPE_MEMORY:
        out->kind = MEMORY;
        out->base = address_register(mode, in->mem.base);
        out->index = address_register(mode, in->mem.index);
        out->scale = in->mem.scale;
        out->is_thread_local = (uint8_t)is_thread_local(in);
        out->value = in->mem.disp.has_displacement ? in->mem.disp.value : 0;
        if (out->base == RIP)
            out->value += (int64_t)next;
        break;
    case ZYDIS_OPERAND_TYPE_IMMEDIATE:
        out->kind = in->imm.is_relative ? TARGET : IMMEDIATE;
        out->value = in->imm.value.s + (in->imm.is_relative ? (int64_t)next : 0);
        break;
    default:
        break;
    }
}

/* Notes what an operand says is written: a general register, or memory at a base and an offset. */
static void add_write(enum mode mode, struct instruction *out, const ZydisDecodedOperand *in)
{
    if (!(in->actions & ZYDIS_OPERAND_ACTION_MASK_WRITE))
        return;
    if (in->type == ZYDIS_OPERAND_TYPE_REGISTER) {
        uint8_t reg = register_of(mode, in->reg.value);
        if (reg != NO_REGISTER)
            out->written |= (uint16_t)(1u << reg);
    } else if (in->type == ZYDIS_OPERAND_TYPE_MEMORY) {
        uint8_t base = address_register(mode, in->mem.base);
        if (base >= RIP || in->mem.index != ZYDIS_REGISTER_NONE || is_thread_local(in))
            return;
        out->stored_base = base;
        out->stored_offset = in->mem.disp.has_displacement ? (int32_t)in->mem.disp.value : 0;
        out->stored_bytes = in->size / 8 > 255 ? 255 : (uint8_t)(in->size / 8);
    }
}

/* Whether no operand of an instruction matters, so that they needn't be decoded. */
static int is_without_operands(const ZydisDecodedInstruction *in, uint8_t mnemonic)
{
    switch (mnemonic) {
    case PUSHF: case POPF: case LEAVE: case PADDING: case STOP: case SYSCALL:
        return 1;
    default:
        return in->mnemonic == ZYDIS_MNEMONIC_TEST || in->mnemonic == ZYDIS_MNEMONIC_ENDBR64;
    }
}

/* Whether the only operand that matters is an address in the code, or what points to one. */
static int is_jump(uint8_t mnemonic)
{
    return mnemonic == CALL || (mnemonic >= JMP && mnemonic <= JCC);
}

/* Decodes the instruction at the first of `length` bytes, whose address is `address`. Returns 0 if
   there is none. */
int dwcheck_lint_zydis_decode(int mode, const uint8_t *bytes, size_t length, uint64_t address, struct instruction *out)
{
    ZydisDecoderContext context;
    ZydisDecodedInstruction in;
    ZydisDecodedOperand operands[ZYDIS_MAX_OPERAND_COUNT];
    memset(out, 0, sizeof *out);
    if (!ZYAN_SUCCESS(ZydisDecoderDecodeInstruction(&decoders[mode], &context, bytes, length, &in)))
        return 0;
    out->length = in.length;
    out->mnemonic = mnemonic_of(&in);
    out->width = in.operand_width;
    out->operands[0].base = out->operands[0].index = out->operands[0].reg = NO_REGISTER;
    out->operands[1] = out->operands[0];
    if (is_without_operands(&in, out->mnemonic))
        return 1;
    if (is_jump(out->mnemonic) && in.raw.imm[0].is_relative) {
        out->operand_count = 1;
        out->operands[0].kind = TARGET;
        out->operands[0].value = in.raw.imm[0].value.s + (int64_t)(address + in.length);
        return 1;
    }
    if (!ZYAN_SUCCESS(ZydisDecoderDecodeOperands(&decoders[mode], &context, &in, operands, in.operand_count)))
        return 0;
    out->operand_count = in.operand_count_visible;
    for (int i = 0; i < in.operand_count_visible && i < 2; i++)
        set_operand(mode, &out->operands[i], &operands[i], address + in.length);
    /* What is put into a copy of a vector is the operand after that. */
    if (in.mnemonic == ZYDIS_MNEMONIC_VPINSRQ || in.mnemonic == ZYDIS_MNEMONIC_VPINSRD)
        set_operand(mode, &out->operands[1], &operands[2], address + in.length);
    for (int i = 0; i < in.operand_count; i++)
        add_write(mode, out, &operands[i]);
    return 1;
}

/* Writes the text of the instruction at the first of `length` bytes into `text`, with a 0 at its
   end. Returns 0 if there is none. */
int dwcheck_lint_zydis_text(int mode, const uint8_t *bytes, size_t length, uint64_t address, char *text, size_t size)
{
    ZydisDecodedInstruction in;
    ZydisDecodedOperand operands[ZYDIS_MAX_OPERAND_COUNT];
    if (!ZYAN_SUCCESS(ZydisDecoderDecodeFull(&decoders[mode], bytes, length, &in, operands)))
        return 0;
    return ZYAN_SUCCESS(ZydisFormatterFormatInstruction(
        &formatter, &in, operands, in.operand_count_visible, text, size, address, ZYAN_NULL));
}

/*
 * The 68HC11's instructions as a verdict needs them, by place in the four opcode maps: length, cycles, and what the
 * rules at a mark ask. A length of 0 is a place without an instruction.
 */
#ifndef PEER_INSTRUCTIONS_H
#define PEER_INSTRUCTIONS_H
#include <stdint.h>

/* Where control goes. FLOW_UNKNOWN: the bytes do not tell; such an instruction is kept out. */
enum flow { FLOW_NEXT, FLOW_BOTH, FLOW_TARGET, FLOW_CALL, FLOW_RETURN, FLOW_UNKNOWN };

/* How the address of a write, a jump or a call stands in the bytes: RELATIVE in the last, else after the opcode. */
enum operand { NO_ADDRESS, DIRECT, EXTENDED, RELATIVE };

struct instruction {
    uint8_t length, cycles;
    uint8_t kept_out;
    uint8_t pushed, pulled; /* bytes; without the return address of a call or an RTS */
    uint8_t written;        /* bytes of a direct or extended write */
    uint8_t operand, flow;
};

enum { PLAIN_MAP, MAP_18, MAP_1A, MAP_CD, MAPS };

#define PLAIN(l, c) {.length = l, .cycles = c}
#define PUSH(l, c, n) {.length = l, .cycles = c, .pushed = n}
#define PULL(l, c, n) {.length = l, .cycles = c, .pulled = n}
#define WRITE(l, c, mode, n) {.length = l, .cycles = c, .operand = mode, .written = n}
#define BRANCH(l, c, to) {.length = l, .cycles = c, .operand = RELATIVE, .flow = to}
#define JUMP(l, c) {.length = l, .cycles = c, .operand = EXTENDED, .flow = FLOW_TARGET}
#define CALL(l, c, mode) {.length = l, .cycles = c, .operand = mode, .flow = FLOW_CALL}
#define RETURN(l, c) {.length = l, .cycles = c, .flow = FLOW_RETURN}
#define OUT(l, c) {.length = l, .cycles = c, .kept_out = 1}
#define OUT_PUSH(l, c, n) {.length = l, .cycles = c, .kept_out = 1, .pushed = n, .flow = FLOW_UNKNOWN}
#define OUT_PULL(l, c, n) {.length = l, .cycles = c, .kept_out = 1, .pulled = n, .flow = FLOW_UNKNOWN}
#define OUT_JUMP(l, c) {.length = l, .cycles = c, .kept_out = 1, .flow = FLOW_UNKNOWN}

/* A read of a byte or a word in immediate, direct, indexed and extended form, whose opcodes are $10 apart. */
#define READ_BYTE(op) \
    [op] = PLAIN(2, 2), [op + 0x10] = PLAIN(2, 3), [op + 0x20] = PLAIN(2, 4), [op + 0x30] = PLAIN(3, 4)
#define READ_WORD(op, c) \
    [op] = PLAIN(3, c), [op + 0x10] = PLAIN(2, c + 1), [op + 0x20] = PLAIN(2, c + 2), [op + 0x30] = PLAIN(3, c + 2)
#define READ_WORD_PREFIXED(op, c) \
    [op] = PLAIN(4, c), [op + 0x10] = PLAIN(3, c + 1), [op + 0x20] = PLAIN(3, c + 2), [op + 0x30] = PLAIN(4, c + 2)
/* A store in direct, indexed and extended form. */
#define STORE(op, c, n) \
    [op] = WRITE(2, c, DIRECT, n), [op + 0x10] = OUT(2, c + 1), [op + 0x20] = WRITE(3, c + 1, EXTENDED, n)
#define STORE_PREFIXED(op, c, n) \
    [op] = WRITE(3, c, DIRECT, n), [op + 0x10] = OUT(3, c + 1), [op + 0x20] = WRITE(4, c + 1, EXTENDED, n)
/* A read-modify-write on A, B, an indexed and an extended byte. */
#define CHANGE(op) \
    [op] = PLAIN(1, 2), [op + 0x10] = PLAIN(1, 2), [op + 0x20] = OUT(2, 6), [op + 0x30] = WRITE(3, 6, EXTENDED, 1)

static const struct instruction INSTRUCTIONS[MAPS][256] = {
    [PLAIN_MAP] = {
        [0x00] = OUT(1, 2),     /* TEST */
        [0x01] = PLAIN(1, 2),   /* NOP */
        [0x02] = PLAIN(1, 41),  /* IDIV */
        [0x03] = PLAIN(1, 41),  /* FDIV */
        [0x04] = PLAIN(1, 3),   /* LSRD */
        [0x05] = PLAIN(1, 3),   /* ASLD */
        [0x06] = PLAIN(1, 2),   /* TAP */
        [0x07] = PLAIN(1, 2),   /* TPA */
        [0x08] = PLAIN(1, 3),   /* INX */
        [0x09] = PLAIN(1, 3),   /* DEX */
        [0x0A] = PLAIN(1, 2),   /* CLV */
        [0x0B] = PLAIN(1, 2),   /* SEV */
        [0x0C] = PLAIN(1, 2),   /* CLC */
        [0x0D] = PLAIN(1, 2),   /* SEC */
        [0x0E] = PLAIN(1, 2),   /* CLI */
        [0x0F] = PLAIN(1, 2),   /* SEI */
        [0x10] = PLAIN(1, 2),   /* SBA */
        [0x11] = PLAIN(1, 2),   /* CBA */
        [0x12] = BRANCH(4, 6, FLOW_BOTH), /* BRSET direct */
        [0x13] = BRANCH(4, 6, FLOW_BOTH), /* BRCLR direct */
        [0x14] = WRITE(3, 6, DIRECT, 1),  /* BSET direct */
        [0x15] = WRITE(3, 6, DIRECT, 1),  /* BCLR direct */
        [0x16] = PLAIN(1, 2),   /* TAB */
        [0x17] = PLAIN(1, 2),   /* TBA */
        [0x19] = PLAIN(1, 2),   /* DAA */
        [0x1B] = PLAIN(1, 2),   /* ABA */
        [0x1C] = OUT(3, 7),     /* BSET indexed */
        [0x1D] = OUT(3, 7),     /* BCLR indexed */
        [0x1E] = BRANCH(4, 7, FLOW_BOTH), /* BRSET indexed */
        [0x1F] = BRANCH(4, 7, FLOW_BOTH), /* BRCLR indexed */
        [0x20] = BRANCH(2, 3, FLOW_TARGET), /* BRA */
        [0x21] = PLAIN(2, 3),             /* BRN */
        [0x22] = BRANCH(2, 3, FLOW_BOTH), /* BHI */
        [0x23] = BRANCH(2, 3, FLOW_BOTH), /* BLS */
        [0x24] = BRANCH(2, 3, FLOW_BOTH), /* BCC */
        [0x25] = BRANCH(2, 3, FLOW_BOTH), /* BCS */
        [0x26] = BRANCH(2, 3, FLOW_BOTH), /* BNE */
        [0x27] = BRANCH(2, 3, FLOW_BOTH), /* BEQ */
        [0x28] = BRANCH(2, 3, FLOW_BOTH), /* BVC */
        [0x29] = BRANCH(2, 3, FLOW_BOTH), /* BVS */
        [0x2A] = BRANCH(2, 3, FLOW_BOTH), /* BPL */
        [0x2B] = BRANCH(2, 3, FLOW_BOTH), /* BMI */
        [0x2C] = BRANCH(2, 3, FLOW_BOTH), /* BGE */
        [0x2D] = BRANCH(2, 3, FLOW_BOTH), /* BLT */
        [0x2E] = BRANCH(2, 3, FLOW_BOTH), /* BGT */
        [0x2F] = BRANCH(2, 3, FLOW_BOTH), /* BLE */
        [0x30] = PLAIN(1, 3),   /* TSX */
        [0x31] = PULL(1, 3, 1), /* INS */
        [0x32] = PULL(1, 4, 1), /* PULA */
        [0x33] = PULL(1, 4, 1), /* PULB */
        [0x34] = PUSH(1, 3, 1), /* DES */
        [0x35] = OUT(1, 3),     /* TXS */
        [0x36] = PUSH(1, 3, 1), /* PSHA */
        [0x37] = PUSH(1, 3, 1), /* PSHB */
        [0x38] = PULL(1, 5, 2), /* PULX */
        [0x39] = RETURN(1, 5),  /* RTS */
        [0x3A] = PLAIN(1, 3),   /* ABX */
        [0x3B] = OUT_PULL(1, 12, 9), /* RTI */
        [0x3C] = PUSH(1, 4, 2), /* PSHX */
        [0x3D] = PLAIN(1, 10),  /* MUL */
        [0x3E] = OUT_PUSH(1, 14, 9), /* WAI */
        [0x3F] = OUT_PUSH(1, 14, 9), /* SWI */
        CHANGE(0x40), /* NEG */
        CHANGE(0x43), /* COM */
        CHANGE(0x44), /* LSR */
        CHANGE(0x46), /* ROR */
        CHANGE(0x47), /* ASR */
        CHANGE(0x48), /* ASL */
        CHANGE(0x49), /* ROL */
        CHANGE(0x4A), /* DEC */
        CHANGE(0x4C), /* INC */
        [0x4D] = PLAIN(1, 2), [0x5D] = PLAIN(1, 2), [0x6D] = PLAIN(2, 6), [0x7D] = PLAIN(3, 6), /* TST */
        [0x6E] = OUT_JUMP(2, 3), [0x7E] = JUMP(3, 3), /* JMP */
        CHANGE(0x4F), /* CLR */
        READ_BYTE(0x80), /* SUBA */
        READ_BYTE(0x81), /* CMPA */
        READ_BYTE(0x82), /* SBCA */
        READ_WORD(0x83, 4), /* SUBD */
        READ_BYTE(0x84), /* ANDA */
        READ_BYTE(0x85), /* BITA */
        READ_BYTE(0x86), /* LDAA */
        STORE(0x97, 3, 1), /* STAA */
        READ_BYTE(0x88), /* EORA */
        READ_BYTE(0x89), /* ADCA */
        READ_BYTE(0x8A), /* ORAA */
        READ_BYTE(0x8B), /* ADDA */
        READ_WORD(0x8C, 4), /* CPX */
        [0x8D] = CALL(2, 6, RELATIVE), /* BSR */
        [0x9D] = CALL(2, 5, DIRECT), [0xAD] = OUT(2, 6), [0xBD] = CALL(3, 6, EXTENDED), /* JSR */
        [0x8E] = OUT(3, 3), [0x9E] = OUT(2, 4), [0xAE] = OUT(2, 5), [0xBE] = OUT(3, 5), /* LDS */
        [0x8F] = PLAIN(1, 3), /* XGDX */
        STORE(0x9F, 4, 2), /* STS */
        READ_BYTE(0xC0), /* SUBB */
        READ_BYTE(0xC1), /* CMPB */
        READ_BYTE(0xC2), /* SBCB */
        READ_WORD(0xC3, 4), /* ADDD */
        READ_BYTE(0xC4), /* ANDB */
        READ_BYTE(0xC5), /* BITB */
        READ_BYTE(0xC6), /* LDAB */
        STORE(0xD7, 3, 1), /* STAB */
        READ_BYTE(0xC8), /* EORB */
        READ_BYTE(0xC9), /* ADCB */
        READ_BYTE(0xCA), /* ORAB */
        READ_BYTE(0xCB), /* ADDB */
        READ_WORD(0xCC, 3), /* LDD */
        STORE(0xDD, 4, 2), /* STD */
        READ_WORD(0xCE, 3), /* LDX */
        [0xCF] = OUT(1, 2), /* STOP */
        STORE(0xDF, 4, 2), /* STX */
    },
    /* Y where the plain map has X. */
    [MAP_18] = {
        [0x08] = PLAIN(2, 4),   /* INY */
        [0x09] = PLAIN(2, 4),   /* DEY */
        [0x1C] = OUT(4, 8),     /* BSET indexed */
        [0x1D] = OUT(4, 8),     /* BCLR indexed */
        [0x1E] = BRANCH(5, 8, FLOW_BOTH), /* BRSET indexed */
        [0x1F] = BRANCH(5, 8, FLOW_BOTH), /* BRCLR indexed */
        [0x30] = PLAIN(2, 4),   /* TSY */
        [0x35] = OUT(2, 4),     /* TYS */
        [0x38] = PULL(2, 6, 2), /* PULY */
        [0x3A] = PLAIN(2, 4),   /* ABY */
        [0x3C] = PUSH(2, 5, 2), /* PSHY */
        [0x60] = OUT(3, 7),     /* NEG indexed */
        [0x63] = OUT(3, 7),     /* COM indexed */
        [0x64] = OUT(3, 7),     /* LSR indexed */
        [0x66] = OUT(3, 7),     /* ROR indexed */
        [0x67] = OUT(3, 7),     /* ASR indexed */
        [0x68] = OUT(3, 7),     /* ASL indexed */
        [0x69] = OUT(3, 7),     /* ROL indexed */
        [0x6A] = OUT(3, 7),     /* DEC indexed */
        [0x6C] = OUT(3, 7),     /* INC indexed */
        [0x6D] = PLAIN(3, 7),   /* TST indexed */
        [0x6E] = OUT_JUMP(3, 4), /* JMP indexed */
        [0x6F] = OUT(3, 7),     /* CLR indexed */
        READ_WORD_PREFIXED(0x8C, 5), /* CPY */
        [0x8F] = PLAIN(2, 4),   /* XGDY */
        [0xA0] = PLAIN(3, 5),   /* SUBA indexed */
        [0xA1] = PLAIN(3, 5),   /* CMPA indexed */
        [0xA2] = PLAIN(3, 5),   /* SBCA indexed */
        [0xA3] = PLAIN(3, 7),   /* SUBD indexed */
        [0xA4] = PLAIN(3, 5),   /* ANDA indexed */
        [0xA5] = PLAIN(3, 5),   /* BITA indexed */
        [0xA6] = PLAIN(3, 5),   /* LDAA indexed */
        [0xA7] = OUT(3, 5),     /* STAA indexed */
        [0xA8] = PLAIN(3, 5),   /* EORA indexed */
        [0xA9] = PLAIN(3, 5),   /* ADCA indexed */
        [0xAA] = PLAIN(3, 5),   /* ORAA indexed */
        [0xAB] = PLAIN(3, 5),   /* ADDA indexed */
        [0xAD] = OUT(3, 7),     /* JSR indexed */
        [0xAE] = OUT(3, 6),     /* LDS indexed */
        [0xAF] = OUT(3, 6),     /* STS indexed */
        READ_WORD_PREFIXED(0xCE, 4), /* LDY */
        STORE_PREFIXED(0xDF, 5, 2), /* STY */
        [0xE0] = PLAIN(3, 5),   /* SUBB indexed */
        [0xE1] = PLAIN(3, 5),   /* CMPB indexed */
        [0xE2] = PLAIN(3, 5),   /* SBCB indexed */
        [0xE3] = PLAIN(3, 7),   /* ADDD indexed */
        [0xE4] = PLAIN(3, 5),   /* ANDB indexed */
        [0xE5] = PLAIN(3, 5),   /* BITB indexed */
        [0xE6] = PLAIN(3, 5),   /* LDAB indexed */
        [0xE7] = OUT(3, 5),     /* STAB indexed */
        [0xE8] = PLAIN(3, 5),   /* EORB indexed */
        [0xE9] = PLAIN(3, 5),   /* ADCB indexed */
        [0xEA] = PLAIN(3, 5),   /* ORAB indexed */
        [0xEB] = PLAIN(3, 5),   /* ADDB indexed */
        [0xEC] = PLAIN(3, 6),   /* LDD indexed */
        [0xED] = OUT(3, 6),     /* STD indexed */
    },
    [MAP_1A] = {
        READ_WORD_PREFIXED(0x83, 5), /* CPD */
        [0xAC] = PLAIN(3, 7),   /* CPY indexed by X */
        [0xEE] = PLAIN(3, 6),   /* LDY indexed by X */
        [0xEF] = OUT(3, 6),     /* STY indexed by X */
    },
    [MAP_CD] = {
        [0xA3] = PLAIN(3, 7),   /* CPD indexed by Y */
        [0xAC] = PLAIN(3, 7),   /* CPX indexed by Y */
        [0xEE] = PLAIN(3, 6),   /* LDX indexed by Y */
        [0xEF] = OUT(3, 6),     /* STX indexed by Y */
    },
};

#endif

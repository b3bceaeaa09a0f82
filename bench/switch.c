/* A hand-written interpreter for the instructions of the mixes: a plain switch over the opcode, and one after the
   prefix $18. All flags are computed at once, by the usual idioms: carry from the wider sum, half carry and overflow
   from exclusive ors. Any other opcode is refused. The lowest SP is kept as the stepper keeps it. */
#include "switch.h"

enum { C = 1, V = 2, Z = 4, N = 8, H = 32 };

struct cpu {
    uint16_t x, y, sp, pc, lowest;
    uint8_t a, b, flags;
};

/* Cycles by opcode; 0 where there is no instruction. */
static const uint8_t COST[256] = {
    [0x01] = 2, [0x08] = 3, [0x09] = 3, [0x13] = 6, [0x14] = 6, [0x16] = 2, [0x1B] = 2, [0x1D] = 7,
    [0x20] = 3, [0x25] = 3, [0x26] = 3, [0x30] = 3, [0x31] = 3, [0x32] = 4, [0x33] = 4, [0x34] = 3,
    [0x36] = 3, [0x37] = 3, [0x38] = 5, [0x39] = 5, [0x3C] = 4, [0x3D] = 10, [0x44] = 2, [0x48] = 2,
    [0x4C] = 2, [0x59] = 2, [0x5A] = 2, [0x7C] = 6, [0x7E] = 3, [0x7F] = 6, [0x81] = 2, [0x84] = 2,
    [0x8B] = 2, [0x8D] = 6, [0x8E] = 3, [0x96] = 3, [0x9A] = 3, [0xA7] = 4, [0xAB] = 4, [0xB7] = 4,
    [0xBD] = 6, [0xC0] = 2, [0xC3] = 4, [0xCB] = 2, [0xCE] = 3, [0xD9] = 3, [0xDD] = 4, [0xDE] = 4,
    [0xDF] = 4, [0xE6] = 4, [0xEB] = 4, [0xF6] = 4, [0xF7] = 4, [0xF8] = 4, [0xFC] = 5, [0xFF] = 5,
};
static const uint8_t COST_18[256] = {[0x69] = 7, [0xA6] = 5, [0xCE] = 4, [0xE7] = 5};

static inline uint8_t byte_at(const uint8_t *mem, uint16_t at)
{
    return mem[at];
}

static inline uint16_t word_at(const uint8_t *mem, uint16_t at)
{
    return (uint16_t)(mem[at] << 8 | mem[(uint16_t)(at + 1)]);
}

static inline void put_word(uint8_t *mem, uint16_t at, uint16_t v)
{
    mem[at] = (uint8_t)(v >> 8);
    mem[(uint16_t)(at + 1)] = (uint8_t)v;
}

static inline void push_word(struct cpu *r, uint8_t *mem, uint16_t v)
{
    put_word(mem, (uint16_t)(r->sp - 1), v);
    r->sp -= 2;
}

static inline uint16_t pull_word(struct cpu *r, const uint8_t *mem)
{
    r->sp += 2;
    return word_at(mem, (uint16_t)(r->sp - 1));
}

static inline uint16_t d_of(const struct cpu *r)
{
    return (uint16_t)(r->a << 8 | r->b);
}

static inline void put_d(struct cpu *r, uint16_t v)
{
    r->a = (uint8_t)(v >> 8);
    r->b = (uint8_t)v;
}

/* Flags. */
static inline unsigned nz8(uint8_t v)
{
    return (v >> 7) * N | (v == 0) * Z;
}

static inline unsigned nz16(uint16_t v)
{
    return (v >> 15) * N | (v == 0) * Z;
}

static inline void set(struct cpu *r, unsigned which, unsigned flags)
{
    r->flags = (uint8_t)((r->flags & ~which) | flags);
}

/* Loads, stores and logic: V is cleared, C kept. */
static inline uint8_t moved8(struct cpu *r, uint8_t v)
{
    set(r, N | Z | V, nz8(v));
    return v;
}

static inline uint16_t moved16(struct cpu *r, uint16_t v)
{
    set(r, N | Z | V, nz16(v));
    return v;
}

static inline uint8_t add8(struct cpu *r, uint8_t a, uint8_t m, unsigned carry)
{
    unsigned sum = a + m + carry;
    uint8_t v = (uint8_t)sum;
    set(r, H | N | Z | V | C,
        ((a ^ m ^ sum) >> 4 & 1) * H | nz8(v) | ((a ^ sum) & (m ^ sum) & 0x80) / 0x80 * V | (sum >> 8) * C);
    return v;
}

static inline uint8_t sub8(struct cpu *r, uint8_t a, uint8_t m)
{
    uint8_t v = (uint8_t)(a - m);
    set(r, N | Z | V | C, nz8(v) | (((a ^ m) & (a ^ v)) >> 7) * V | (a < m) * C);
    return v;
}

static inline uint16_t add16(struct cpu *r, uint16_t d, uint16_t m)
{
    unsigned sum = (unsigned)d + m;
    uint16_t v = (uint16_t)sum;
    set(r, N | Z | V | C, nz16(v) | ((d ^ sum) & (m ^ sum) & 0x8000) / 0x8000 * V | (sum >> 16) * C);
    return v;
}

/* A shift's result and the bit shifted out; V is N exclusive or C. */
static inline uint8_t shifted(struct cpu *r, uint8_t v, unsigned out)
{
    set(r, N | Z | V | C, nz8(v) | ((v >> 7) ^ out) * V | out * C);
    return v;
}

static inline uint8_t rol8(struct cpu *r, uint8_t v)
{
    return shifted(r, (uint8_t)(v << 1 | (r->flags & C)), v >> 7);
}

static inline uint8_t inc8(struct cpu *r, uint8_t v)
{
    uint8_t q = (uint8_t)(v + 1);
    set(r, N | Z | V, nz8(q) | (v == 0x7F) * V);
    return q;
}

static inline uint8_t dec8(struct cpu *r, uint8_t v)
{
    uint8_t q = (uint8_t)(v - 1);
    set(r, N | Z | V, nz8(q) | (v == 0x80) * V);
    return q;
}

static inline void zero_x(struct cpu *r)
{
    set(r, Z, (r->x == 0) * Z);
}

static inline void multiply(struct cpu *r)
{
    put_d(r, (uint16_t)(r->a * r->b));
    set(r, C, (r->b >> 7) * C);
}

static inline void branch(struct cpu *r, uint8_t distance, int taken)
{
    if (taken)
        r->pc = (uint16_t)(r->pc + (int8_t)distance);
}

static struct cpu unpack(const uint8_t regs[13])
{
    return (struct cpu){
        .a = regs[0], .b = regs[1], .x = word_at(regs, 2), .y = word_at(regs, 4),
        .sp = word_at(regs, 6), .pc = word_at(regs, 8), .flags = regs[10], .lowest = word_at(regs, 11),
    };
}

static void pack(uint8_t regs[13], const struct cpu *r)
{
    regs[0] = r->a;
    regs[1] = r->b;
    put_word(regs, 2, r->x);
    put_word(regs, 4, r->y);
    put_word(regs, 6, r->sp);
    put_word(regs, 8, r->pc);
    regs[10] = r->flags;
    put_word(regs, 11, r->lowest);
}

/* Operands: the bytes after the opcode, and what they name. */
#define OPERAND(i) byte_at(mem, (uint16_t)(pc + (i)))
#define WORD_OPERAND(i) word_at(mem, (uint16_t)(pc + (i)))
#define DIRECT mem[OPERAND(1)]
#define EXTENDED mem[WORD_OPERAND(1)]
#define INDEXED_X mem[(uint16_t)(r.x + OPERAND(1))]
#define INDEXED_Y mem[(uint16_t)(r.y + OPERAND(2))]
#define NEXT(n) r.pc = (uint16_t)(pc + (n))

int switch_run(uint8_t regs[13], uint8_t mem[65536], uint16_t home, uint32_t budget, uint32_t *cycles)
{
    struct cpu r = unpack(regs);
    uint32_t left = budget;
    int answer = SWITCH_HOME;
    uint16_t to;

    while (r.pc != home) {
        const uint16_t pc = r.pc;
        const uint8_t op = mem[pc];
        const uint8_t cost = op == 0x18 ? COST_18[OPERAND(1)] : COST[op];

        if (cost == 0) {
            answer = SWITCH_REFUSED;
            break;
        }
        if (left < cost) {
            answer = SWITCH_SPENT;
            break;
        }
        left -= cost;

        switch (op) {
        case 0x01: NEXT(1); break;                                                    /* NOP */
        case 0x08: NEXT(1); r.x++; zero_x(&r); break;                                 /* INX */
        case 0x09: NEXT(1); r.x--; zero_x(&r); break;                                 /* DEX */
        case 0x13: NEXT(4); branch(&r, OPERAND(3), !(DIRECT & OPERAND(2))); break;    /* BRCLR direct */
        case 0x14: NEXT(3); DIRECT = moved8(&r, DIRECT | OPERAND(2)); break;          /* BSET direct */
        case 0x16: NEXT(1); r.b = moved8(&r, r.a); break;                             /* TAB */
        case 0x1B: NEXT(1); r.a = add8(&r, r.a, r.b, 0); break;                       /* ABA */
        case 0x1D: NEXT(3); INDEXED_X = moved8(&r, INDEXED_X & ~OPERAND(2)); break;   /* BCLR X */
        case 0x20: NEXT(2); branch(&r, OPERAND(1), 1); break;                         /* BRA */
        case 0x25: NEXT(2); branch(&r, OPERAND(1), r.flags & C); break;               /* BCS */
        case 0x26: NEXT(2); branch(&r, OPERAND(1), !(r.flags & Z)); break;            /* BNE */
        case 0x30: NEXT(1); r.x = (uint16_t)(r.sp + 1); break;                        /* TSX */
        case 0x31: NEXT(1); r.sp++; break;                                            /* INS */
        case 0x32: NEXT(1); r.a = mem[++r.sp]; break;                                 /* PULA */
        case 0x33: NEXT(1); r.b = mem[++r.sp]; break;                                 /* PULB */
        case 0x34: NEXT(1); r.sp--; break;                                            /* DES */
        case 0x36: NEXT(1); mem[r.sp--] = r.a; break;                                 /* PSHA */
        case 0x37: NEXT(1); mem[r.sp--] = r.b; break;                                 /* PSHB */
        case 0x38: NEXT(1); r.x = pull_word(&r, mem); break;                          /* PULX */
        case 0x39: r.pc = pull_word(&r, mem); break;                                  /* RTS */
        case 0x3C: NEXT(1); push_word(&r, mem, r.x); break;                           /* PSHX */
        case 0x3D: NEXT(1); multiply(&r); break;                                      /* MUL */
        case 0x44: NEXT(1); r.a = shifted(&r, r.a >> 1, r.a & 1); break;              /* LSRA */
        case 0x48: NEXT(1); r.a = shifted(&r, (uint8_t)(r.a << 1), r.a >> 7); break;  /* ASLA */
        case 0x4C: NEXT(1); r.a = inc8(&r, r.a); break;                               /* INCA */
        case 0x59: NEXT(1); r.b = rol8(&r, r.b); break;                               /* ROLB */
        case 0x5A: NEXT(1); r.b = dec8(&r, r.b); break;                               /* DECB */
        case 0x7C: NEXT(3); EXTENDED = inc8(&r, EXTENDED); break;                     /* INC extended */
        case 0x7E: r.pc = WORD_OPERAND(1); break;                                     /* JMP extended */
        case 0x7F: NEXT(3); EXTENDED = 0; set(&r, N | Z | V | C, Z); break;           /* CLR extended */
        case 0x81: NEXT(2); sub8(&r, r.a, OPERAND(1)); break;                         /* CMPA immediate */
        case 0x84: NEXT(2); r.a = moved8(&r, r.a & OPERAND(1)); break;                /* ANDA immediate */
        case 0x8B: NEXT(2); r.a = add8(&r, r.a, OPERAND(1), 0); break;                /* ADDA immediate */
        case 0x8D: NEXT(2); to = r.pc; branch(&r, OPERAND(1), 1); push_word(&r, mem, to); break; /* BSR */
        case 0x8E: NEXT(3); r.sp = moved16(&r, WORD_OPERAND(1)); break;               /* LDS immediate */
        case 0x96: NEXT(2); r.a = moved8(&r, DIRECT); break;                          /* LDAA direct */
        case 0x9A: NEXT(2); r.a = moved8(&r, r.a | DIRECT); break;                    /* ORAA direct */
        case 0xA7: NEXT(2); INDEXED_X = moved8(&r, r.a); break;                       /* STAA X */
        case 0xAB: NEXT(2); r.a = add8(&r, r.a, INDEXED_X, 0); break;                 /* ADDA X */
        case 0xB7: NEXT(3); EXTENDED = moved8(&r, r.a); break;                        /* STAA extended */
        case 0xBD: to = WORD_OPERAND(1); NEXT(3); push_word(&r, mem, r.pc); r.pc = to; break; /* JSR extended */
        case 0xC0: NEXT(2); r.b = sub8(&r, r.b, OPERAND(1)); break;                   /* SUBB immediate */
        case 0xC3: NEXT(3); put_d(&r, add16(&r, d_of(&r), WORD_OPERAND(1))); break;   /* ADDD immediate */
        case 0xCB: NEXT(2); r.b = add8(&r, r.b, OPERAND(1), 0); break;                /* ADDB immediate */
        case 0xCE: NEXT(3); r.x = moved16(&r, WORD_OPERAND(1)); break;                /* LDX immediate */
        case 0xD9: NEXT(2); r.b = add8(&r, r.b, DIRECT, r.flags & C); break;          /* ADCB direct */
        case 0xDD: NEXT(2); put_word(mem, OPERAND(1), moved16(&r, d_of(&r))); break;  /* STD direct */
        case 0xDE: NEXT(2); r.x = moved16(&r, word_at(mem, OPERAND(1))); break;       /* LDX direct */
        case 0xDF: NEXT(2); put_word(mem, OPERAND(1), moved16(&r, r.x)); break;       /* STX direct */
        case 0xE6: NEXT(2); r.b = moved8(&r, INDEXED_X); break;                       /* LDAB X */
        case 0xEB: NEXT(2); r.b = add8(&r, r.b, INDEXED_X, 0); break;                 /* ADDB X */
        case 0xF6: NEXT(3); r.b = moved8(&r, EXTENDED); break;                        /* LDAB extended */
        case 0xF7: NEXT(3); EXTENDED = moved8(&r, r.b); break;                        /* STAB extended */
        case 0xF8: NEXT(3); r.b = moved8(&r, r.b ^ EXTENDED); break;                  /* EORB extended */
        case 0xFC: NEXT(3); put_d(&r, moved16(&r, word_at(mem, WORD_OPERAND(1)))); break; /* LDD extended */
        case 0xFF: NEXT(3); put_word(mem, WORD_OPERAND(1), moved16(&r, r.x)); break;  /* STX extended */
        case 0x18:
            switch (OPERAND(1)) {
            case 0x69: NEXT(3); INDEXED_Y = rol8(&r, INDEXED_Y); break;               /* ROL Y */
            case 0xA6: NEXT(3); r.a = moved8(&r, INDEXED_Y); break;                   /* LDAA Y */
            case 0xCE: NEXT(4); r.y = moved16(&r, WORD_OPERAND(2)); break;            /* LDY immediate */
            case 0xE7: NEXT(3); INDEXED_Y = moved8(&r, r.b); break;                   /* STAB Y */
            }
            break;
        }
        if (r.sp < r.lowest)
            r.lowest = r.sp;
    }
    pack(regs, &r);
    *cycles = budget - left;
    return answer;
}

/* A Uxn core for the speed comparison, in the manner of the reference core uxn.c: one switch over
 * the 256 instruction bytes and macros for the modes. Counter, stack pointers and high marks are in
 * locals. Only the arms that write ports look at what is watched. The calls have the interface of the
 * proved library; compiled with -DPEER=name they are name_run, name_frame and name_load. */

#include <stddef.h>
#include <stdint.h>
#include <string.h>

typedef struct {
    uint16_t pc;
    uint8_t wp;
    uint8_t rp;
    uint8_t wp_high;
    uint8_t rp_high;
} machine;

typedef struct {
    machine machine;
    uint32_t steps;
    uint8_t number;
    uint8_t answer;
    uint8_t verdict;
    uint8_t sent;
    uint8_t ports[2];
} reply;

enum { REFUSED, LOADED, WENT_ON, BROKE, SPENT, IGNORED, PAUSED };

/* As every number above 255. */
enum { WATCH_NONE = 256 };

#define JOIN2(a, b) a##_##b
#define JOIN(a, b) JOIN2(a, b)
#define CALL(name) JOIN(PEER, name)

#define BUFFERS                                                                                    \
    machine from, uint8_t *restrict mem, size_t mem_len, uint8_t *restrict dev, size_t dev_len,    \
        uint8_t *restrict wst, size_t wst_len, uint8_t *restrict rst, size_t rst_len

reply CALL(run)(BUFFERS, uint32_t budget, uint16_t watch);
reply CALL(frame)(BUFFERS, const uint8_t *record, size_t record_len, uint32_t budget);
reply CALL(load)(BUFFERS, const uint8_t *program, size_t program_len);

static uint8_t wrong_buffer(size_t mem_len, size_t dev_len, size_t wst_len, size_t rst_len)
{
    return mem_len != 65536 ? 1 : dev_len != 256 ? 2 : wst_len != 256 ? 3 : rst_len != 256 ? 4 : 0;
}

static reply refused(machine from, uint8_t number)
{
    return (reply){from, 0, number, REFUSED, 0, 0, {0, 0}};
}

/* Stacks: R is 1 in return mode, where the return stack is the main one. */
#define MAIN_POP (R ? rst[--rp] : wst[--wp])
#define MAIN_PUSH(value) (R ? (rst[rp++] = (uint8_t)(value)) : (wst[wp++] = (uint8_t)(value)))
#define OTHER_PUSH(value) (R ? (wst[wp++] = (uint8_t)(value)) : (rst[rp++] = (uint8_t)(value)))

/* Operands and results of 8, of 16 and of mode-dependent size: S is 1 in 16-bit form. */
#define POP8(x) uint16_t x = MAIN_POP;
#define POP16(x)                                                                                   \
    uint16_t x = MAIN_POP;                                                                         \
    x |= (uint16_t)(MAIN_POP << 8);
#define POP(x)                                                                                     \
    uint16_t x = MAIN_POP;                                                                         \
    if (S)                                                                                         \
        x |= (uint16_t)(MAIN_POP << 8);
#define PUSH8(value) MAIN_PUSH(value);
#define PUSH(value)                                                                                \
    {                                                                                              \
        uint16_t pushed = (uint16_t)(value);                                                       \
        if (S)                                                                                     \
            MAIN_PUSH(pushed >> 8);                                                                \
        MAIN_PUSH(pushed);                                                                         \
    }
#define OTHER16(value)                                                                             \
    {                                                                                              \
        uint16_t moved = (uint16_t)(value);                                                        \
        OTHER_PUSH(moved >> 8);                                                                    \
        OTHER_PUSH(moved);                                                                         \
    }
#define OTHER(value)                                                                               \
    {                                                                                              \
        uint16_t moved = (uint16_t)(value);                                                        \
        if (S)                                                                                     \
            OTHER_PUSH(moved >> 8);                                                                \
        OTHER_PUSH(moved);                                                                         \
    }

#define NEAR(offset) ((uint16_t)(pc + (int8_t)(offset)))
#define GO(address) pc = S ? (address) : NEAR(address);
#define FETCH16 ((uint16_t)(mem[pc] << 8 | mem[(uint16_t)(pc + 1)]))
#define LOAD(address)                                                                              \
    {                                                                                              \
        uint16_t at = (address);                                                                   \
        PUSH8(mem[at])                                                                             \
        if (S)                                                                                     \
            PUSH8(mem[(uint16_t)(at + 1)])                                                         \
    }
#define STORE(address, value)                                                                      \
    {                                                                                              \
        uint16_t at = (address);                                                                   \
        if (S) {                                                                                   \
            mem[at] = (uint8_t)((value) >> 8);                                                     \
            mem[(uint16_t)(at + 1)] = (uint8_t)(value);                                            \
        } else                                                                                     \
            mem[at] = (uint8_t)(value);                                                            \
    }
/* A page ends at FF: the zero page of memory, the device page. */
#define READ(page, at)                                                                             \
    {                                                                                              \
        PUSH8(page[at])                                                                            \
        if (S)                                                                                     \
            PUSH8(page[(uint8_t)((at) + 1)])                                                       \
    }
#define WRITE(page, at, value)                                                                     \
    {                                                                                              \
        if (S) {                                                                                   \
            page[at] = (uint8_t)((value) >> 8);                                                    \
            page[(uint8_t)((at) + 1)] = (uint8_t)(value);                                          \
        } else                                                                                     \
            page[at] = (uint8_t)(value);                                                           \
    }

/* After a write of the watched port nothing is left of the budget. */
#define PAUSE(port)                                                                                \
    if ((port) == watch || (S && (uint8_t)((port) + 1) == watch)) {                                \
        answer = PAUSED;                                                                           \
        budget -= left;                                                                            \
        left = 0;                                                                                  \
    }

/* An operation in its eight modes: operands are read, keep resets the pointer, results follow. */
#define MODE(byte, s, r, keep, restore, take, give)                                                \
    case byte: {                                                                                   \
        enum { S = s, R = r };                                                                     \
        keep take restore give                                                                     \
    } break;
#define KEEP_W uint8_t kept = wp;
#define KEEP_R uint8_t kept = rp;
#define BACK_W wp = kept;
#define BACK_R rp = kept;
#define OPERATION(code, take, give)                                                                \
    MODE(code, 0, 0, , , take, give)                                                               \
    MODE(code | 0x20, 1, 0, , , take, give)                                                        \
    MODE(code | 0x40, 0, 1, , , take, give)                                                        \
    MODE(code | 0x60, 1, 1, , , take, give)                                                        \
    MODE(code | 0x80, 0, 0, KEEP_W, BACK_W, take, give)                                            \
    MODE(code | 0xa0, 1, 0, KEEP_W, BACK_W, take, give)                                            \
    MODE(code | 0xc0, 0, 1, KEEP_R, BACK_R, take, give)                                            \
    MODE(code | 0xe0, 1, 1, KEEP_R, BACK_R, take, give)

/* MUL for a chip without a multiplier, as in the library: by shifts and adds, a turn for each bit
 * of the smaller number. */
static inline uint16_t product(uint16_t a, uint16_t b)
{
    uint16_t term = a < b ? b : a;
    uint16_t rest = a < b ? a : b;
    uint16_t sum = 0;
    while (rest > 0) {
        if (rest & 1)
            sum += term;
        term <<= 1;
        rest >>= 1;
    }
    return sum;
}

/* After each step the high marks are raised to the pointers. */
#define RAISE                                                                                      \
    if (wp_high < wp)                                                                              \
        wp_high = wp;                                                                              \
    if (rp_high < rp)                                                                              \
        rp_high = rp;

/* A run on buffers of the right lengths. */
static inline reply run_sized(machine from, uint8_t *restrict mem, uint8_t *restrict dev,
                              uint8_t *restrict wst, uint8_t *restrict rst, uint32_t budget,
                              uint16_t watch)
{
    uint16_t pc = from.pc;
    uint8_t wp = from.wp;
    uint8_t rp = from.rp;
    uint8_t wp_high = from.wp_high;
    uint8_t rp_high = from.rp_high;
    uint8_t answer = SPENT;
    uint32_t left = budget;
    while (left) {
        left--;
        switch (mem[pc++]) {
        case 0x00: /* BRK */
            answer = BROKE;
            RAISE
            goto end;
        case 0x20: /* JCI */
            pc += (wst[--wp] ? FETCH16 : 0) + 2;
            break;
        case 0x40: /* JMI */
            pc += FETCH16 + 2;
            break;
        case 0x60: { /* JSI */
            uint16_t offset = FETCH16;
            pc += 2;
            rst[rp++] = pc >> 8;
            rst[rp++] = (uint8_t)pc;
            pc += offset;
        } break;
        case 0xa0: /* LIT2 */
            wst[wp++] = mem[pc++]; /* fall through */
        case 0x80: /* LIT */
            wst[wp++] = mem[pc++];
            break;
        case 0xe0: /* LIT2r */
            rst[rp++] = mem[pc++]; /* fall through */
        case 0xc0: /* LITr */
            rst[rp++] = mem[pc++];
            break;
        OPERATION(0x01, POP(a), PUSH(a + 1))                                      /* INC */
        OPERATION(0x02, POP(a), (void)a;)                                         /* POP */
        OPERATION(0x03, POP(b) POP(a), (void)a; PUSH(b))                          /* NIP */
        OPERATION(0x04, POP(b) POP(a), PUSH(b) PUSH(a))                           /* SWP */
        OPERATION(0x05, POP(c) POP(b) POP(a), PUSH(b) PUSH(c) PUSH(a))            /* ROT */
        OPERATION(0x06, POP(a), PUSH(a) PUSH(a))                                  /* DUP */
        OPERATION(0x07, POP(b) POP(a), PUSH(a) PUSH(b) PUSH(a))                   /* OVR */
        OPERATION(0x08, POP(b) POP(a), PUSH8(a == b))                             /* EQU */
        OPERATION(0x09, POP(b) POP(a), PUSH8(a != b))                             /* NEQ */
        OPERATION(0x0a, POP(b) POP(a), PUSH8(a > b))                              /* GTH */
        OPERATION(0x0b, POP(b) POP(a), PUSH8(a < b))                              /* LTH */
        OPERATION(0x0c, POP(to), GO(to))                                          /* JMP */
        OPERATION(0x0d, POP(to) POP8(a), if (a) GO(to))                           /* JCN */
        OPERATION(0x0e, POP(to), OTHER16(pc) GO(to))                              /* JSR */
        OPERATION(0x0f, POP(a), OTHER(a))                                         /* STH */
        OPERATION(0x10, POP8(to), READ(mem, to))                                  /* LDZ */
        OPERATION(0x11, POP8(to) POP(a), WRITE(mem, to, a))                       /* STZ */
        OPERATION(0x12, POP8(to), LOAD(NEAR(to)))                                 /* LDR */
        OPERATION(0x13, POP8(to) POP(a), STORE(NEAR(to), a))                      /* STR */
        OPERATION(0x14, POP16(to), LOAD(to))                                      /* LDA */
        OPERATION(0x15, POP16(to) POP(a), STORE(to, a))                           /* STA */
        OPERATION(0x16, POP8(port), READ(dev, port))                              /* DEI */
        OPERATION(0x17, POP8(port) POP(a), WRITE(dev, port, a) PAUSE(port))       /* DEO */
        OPERATION(0x18, POP(b) POP(a), PUSH(a + b))                               /* ADD */
        OPERATION(0x19, POP(b) POP(a), PUSH(a - b))                               /* SUB */
        OPERATION(0x1a, POP(b) POP(a), PUSH(product(a, b)))                       /* MUL */
        OPERATION(0x1b, POP(b) POP(a), PUSH(b ? a / b : 0))                       /* DIV */
        OPERATION(0x1c, POP(b) POP(a), PUSH(a & b))                               /* AND */
        OPERATION(0x1d, POP(b) POP(a), PUSH(a | b))                               /* ORA */
        OPERATION(0x1e, POP(b) POP(a), PUSH(a ^ b))                               /* EOR */
        OPERATION(0x1f, POP8(b) POP(a), PUSH((uint32_t)(a >> (b & 15)) << (b >> 4))) /* SFT */
        }
        RAISE
    }
end:
    return (reply){{pc, wp, rp, wp_high, rp_high}, budget - left, 0, answer, 0, 0, {0, 0}};
}

reply CALL(run)(BUFFERS, uint32_t budget, uint16_t watch)
{
    uint8_t number = wrong_buffer(mem_len, dev_len, wst_len, rst_len);
    if (number)
        return refused(from, number);
    return run_sized(from, mem, dev, wst, rst, budget, watch);
}

reply CALL(frame)(BUFFERS, const uint8_t *record, size_t record_len, uint32_t budget)
{
    uint8_t number = wrong_buffer(mem_len, dev_len, wst_len, rst_len);
    if (number)
        return refused(from, number);
    if (record_len != 128)
        return refused(from, 7);
    if (record[0] > 126)
        return refused(from, 8);
    for (size_t at = 2 + (size_t)record[0]; at < 128; at++)
        if (record[at])
            return refused(from, 8);
    dev[0xf2] = 0;
    memcpy(mem + 0x0080, record, 128);
    machine start = {0x0100, 0, 0, 0, 0};
    reply ran = run_sized(start, mem, dev, wst, rst, budget, WATCH_NONE);
    if (ran.answer == BROKE)
        ran.verdict = dev[0xf2];
    return ran;
}

reply CALL(load)(BUFFERS, const uint8_t *program, size_t program_len)
{
    uint8_t number = wrong_buffer(mem_len, dev_len, wst_len, rst_len);
    if (number)
        return refused(from, number);
    if (program_len == 0 || program_len > 65280)
        return refused(from, 5);
    memset(mem, 0, 65536);
    memcpy(mem + 0x0100, program, program_len);
    memset(dev, 0, 256);
    memset(wst, 0, 256);
    memset(rst, 0, 256);
    return (reply){{0x0100, 0, 0, 0, 0}, 0, 0, LOADED, 0, 0, {0, 0}};
}

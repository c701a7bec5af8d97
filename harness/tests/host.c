/* The calls of include/uxn_filter.h, each made on buffers lent one by one and once more through a uxn_host. After each, the
   two replies, the two records and every byte of the buffers and of the sheets must be the same. C99 and C++ both. For tests/header.rs
   it prints how often each answer of each call came; at a difference it says where, and ends with status 1. */
#include <stddef.h>
#include <stdint.h>
#include <stdio.h>
#include <string.h>

#include "uxn_filter.h"

enum { INSTALL, STEP, RUN, EVENT, FRAME, CALLS };

static const char *const names[CALLS] = {"install", "step", "run", "event", "frame"};

#define LONGEST_SHEET (8 * 4096)

static uint8_t memory[65536], device_page[256], working[256], ret[256];
static uxn_machine machine;
static uxn_host host;
/* One is lent with the buffers, the other with the host; the last byte is beyond every sheet. */
static uint8_t sheet[LONGEST_SHEET + 1], host_sheet[LONGEST_SHEET + 1];

#define BUFFERS memory, sizeof memory, device_page, sizeof device_page, working, sizeof working, ret, sizeof ret

/* By call, answer and number. */
static unsigned met[CALLS][7][12];

/* Xorshift: the same numbers in every run. */
static uint32_t below(uint32_t end)
{
    static uint64_t state = 0x9e3779b97f4a7c15;

    state ^= state << 13;
    state ^= state >> 7;
    state ^= state << 17;
    return (uint32_t)(state >> 32) % end;
}

static int same_record(uxn_machine one, uxn_machine other)
{
    return one.pc == other.pc && one.wp == other.wp && one.rp == other.rp && one.wp_high == other.wp_high &&
           one.rp_high == other.rp_high;
}

static int same_reply(uxn_reply one, uxn_reply other)
{
    return same_record(one.machine, other.machine) && one.steps == other.steps && one.number == other.number &&
           one.answer == other.answer && one.verdict == other.verdict && one.sent == other.sent &&
           one.ports[0] == other.ports[0] && one.ports[1] == other.ports[1];
}

/* What differs between the two, or a null pointer. */
static const char *difference(uxn_reply raw, uxn_reply through)
{
    if (!same_reply(raw, through))
        return "reply";
    if (!same_record(machine, host.machine))
        return "record";
    if (memcmp(memory, host.memory, sizeof memory) != 0)
        return "memory";
    if (memcmp(device_page, host.device_page, sizeof device_page) != 0)
        return "device page";
    if (memcmp(working, host.working, sizeof working) != 0)
        return "working stack";
    if (memcmp(ret, host.ret, sizeof ret) != 0)
        return "return stack";
    if (memcmp(sheet, host_sheet, sizeof sheet) != 0)
        return "sheet";
    return NULL;
}

/* Any bytes, half of them LIT, BRK at a few; 0 is BRK too. One in 16 is a DEO, in any mode. */
static void fill(uint8_t *bytes, size_t length)
{
    size_t place;

    for (place = 0; place < length; place++)
        bytes[place] = (uint8_t)(below(2) ? 0x80 : below(8) ? below(256) : 0x17 + 0x20 * below(8));
}

/* The same byte into both. */
static void put(uint8_t *raw, uint8_t *through, uint32_t length)
{
    uint32_t place = below(length);

    raw[place] = through[place] = (uint8_t)below(256);
}

/* Any bytes into both memories, as a program that need not be one that is admitted. */
static void put_program(void)
{
    size_t length = 1 + below(300);

    fill(memory + 0x0100, length);
    memcpy(host.memory + 0x0100, memory + 0x0100, length);
}

/* Writes of any bytes to any ports, and BRK: it is admitted. */
static size_t admitted_program(uint8_t *program)
{
    size_t length = 0, end = 5 * below(60);

    while (length < end) {
        program[length++] = 0x80;
        program[length++] = (uint8_t)below(256);
        program[length++] = 0x80;
        program[length++] = (uint8_t)(below(2) ? 0x80 : below(256));
        program[length++] = 0x17;
    }
    program[length++] = 0x00;
    return length;
}

static uxn_reply install(uxn_reply *through)
{
    static const uint32_t lengths[] = {0, 1, 4096, 4097, 65280, 65281};
    static uint8_t program[65281];
    size_t length, sheet_length;

    if (below(2)) {
        length = admitted_program(program);
    } else {
        length = below(4) ? 1 + below(300) : lengths[below(6)];
        fill(program, length);
    }
    sheet_length = 8 * (length < 4096 ? length : 4096);
    if (below(4) == 0)
        sheet_length = below(LONGEST_SHEET + 1);
    *through = uxn_host_install(&host, program, length, host_sheet, sheet_length);
    return uxn_install(machine, BUFFERS, program, length, sheet, sheet_length);
}

/* What is watched: nothing, by any number for it, or a port. Most bytes on the stacks are 80. */
static uint16_t watched(void)
{
    switch (below(4)) {
    case 0:
        return (uint16_t)(UXN_WATCH_NONE + below(2) * 0x80);
    case 1:
        return (uint16_t)below(65536);
    default:
        return (uint16_t)(0x80 + below(2));
    }
}

static uxn_reply event(uxn_reply *through)
{
    static const uint32_t wrong[] = {16, 255, 256, 259, 65536 + 3, UINT32_MAX};
    uint32_t device = below(4) ? below(16) : wrong[below(6)], budget = below(200);
    uint8_t high = below(2) ? (uint8_t)below(3) : 0;
    uint16_t watch = watched();

    device_page[16 * (device % 16)] = host.device_page[16 * (device % 16)] = high;
    *through = uxn_host_event(&host, device, budget, watch);
    return uxn_event(machine, BUFFERS, device, budget, watch);
}

static uxn_reply frame(uxn_reply *through)
{
    uint8_t record[129] = {0};
    uint32_t data = below(160), length = below(4) ? 128 : 124 + below(6), budget = below(200);

    record[0] = (uint8_t)data;
    fill(record + 1, data < 126 ? 1 + data : 127);
    *through = uxn_host_frame(&host, record, length, budget);
    return uxn_frame(machine, BUFFERS, record, length, budget);
}

int main(void)
{
    uxn_reply raw, through;
    uint32_t budget;
    uint16_t watch;
    unsigned turn, call, answer, number;
    const char *differs;

    for (turn = 0; turn < 5000; turn++) {
        put(memory, host.memory, sizeof memory);
        put(memory, host.memory, 256);
        put(device_page, host.device_page, sizeof device_page);
        put(working, host.working, sizeof working);
        put(ret, host.ret, sizeof ret);
        put(sheet, host_sheet, sizeof sheet);
        if (turn % 4 == 0)
            put_program();
        call = turn % 16 == 0 ? (unsigned)INSTALL : below(CALLS);
        switch (call) {
        case INSTALL:
            raw = install(&through);
            break;
        case STEP:
            through = uxn_host_step(&host);
            raw = uxn_step(machine, BUFFERS);
            break;
        case RUN:
            budget = below(200);
            watch = watched();
            through = uxn_host_run(&host, budget, watch);
            raw = uxn_run(machine, BUFFERS, budget, watch);
            break;
        case EVENT:
            raw = event(&through);
            break;
        default:
            raw = frame(&through);
            break;
        }
        machine = raw.machine;
        differs = difference(raw, through);
        if (differs != NULL) {
            printf("call %u, %s: another %s\n", turn, names[call], differs);
            return 1;
        }
        met[call][raw.answer][raw.number]++;
    }
    for (call = 0; call < CALLS; call++)
        for (answer = 0; answer < 7; answer++)
            for (number = 0; number < 12; number++)
                if (met[call][answer][number] != 0)
                    printf("%s: answer %u, number %u: %u\n", names[call], answer, number, met[call][answer][number]);
    return 0;
}

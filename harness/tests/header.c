/* Every call that include/uxn_filter.h and include/uxn_bench.h declare, as a C program makes it. Prints one line for each, for
   tests/header.rs. */
#include <stddef.h>
#include <stdint.h>
#include <stdio.h>
#include <string.h>

#include "uxn_bench.h"
#include "uxn_filter.h"

_Static_assert(sizeof(uxn_machine) == 6, "the machine record");
_Static_assert(sizeof(uxn_reply) == 20, "the reply");
_Static_assert(offsetof(uxn_machine, wp_high) == 4, "high mark of the working stack");
_Static_assert(offsetof(uxn_machine, rp_high) == 5, "high mark of the return stack");
_Static_assert(offsetof(uxn_reply, steps) == 8, "steps");
_Static_assert(offsetof(uxn_reply, number) == 12, "number");
_Static_assert(offsetof(uxn_reply, answer) == 13, "answer");
_Static_assert(offsetof(uxn_reply, verdict) == 14, "verdict");
_Static_assert(offsetof(uxn_reply, sent) == 15, "how many ports");
_Static_assert(offsetof(uxn_reply, ports) == 16, "which ports");
_Static_assert(UXN_PAUSED == 6 && UXN_WATCH_NONE == 256, "the watch");
_Static_assert(sizeof(uxn_written) == 16, "what was written");
_Static_assert(offsetof(uxn_written, line) == 8, "line");
_Static_assert(offsetof(uxn_written, number) == 12, "number of a refused write");

_Static_assert(sizeof(uxn_place) == 6, "a place");
_Static_assert(offsetof(uxn_place, routine) == 4, "routine of a place");
_Static_assert(sizeof(uxn_why) == 22, "why a program is refused");
_Static_assert(offsetof(uxn_why, count) == 2, "count");
_Static_assert(offsetof(uxn_why, here) == 4, "here");
_Static_assert(offsetof(uxn_why, next) == 10, "next");
_Static_assert(offsetof(uxn_why, other) == 16, "other");

static uint8_t memory[65536], device_page[256], working[256], ret[256];

#define BUFFERS_BUT_MEMORY device_page, sizeof device_page, working, sizeof working, ret, sizeof ret
#define BUFFERS memory, sizeof memory, BUFFERS_BUT_MEMORY

static void say(const char *call, uxn_reply r)
{
    printf("%s: answer %u, number %u, steps %u, verdict %u, sent %u %02x %02x, pc %04x, wp %u, rp %u, high %u %u\n", call, r.answer,
           r.number, (unsigned)r.steps, r.verdict, r.sent, r.ports[0], r.ports[1], r.machine.pc, r.machine.wp, r.machine.rp,
           r.machine.wp_high, r.machine.rp_high);
}

static void say_sheet(const uint8_t *sheet, size_t sheet_length)
{
    size_t place;

    printf("sheet");
    for (place = 0; place < sheet_length; place++)
        printf(place % 8 ? " %02x" : ", %02x", sheet[place]);
    printf("\n");
}

static void say_admission(const uint8_t *program, size_t length, uint8_t *sheet, size_t sheet_length)
{
    printf("admit: %u, ", uxn_admit(program, length, sheet, sheet_length));
    say_sheet(sheet, sheet_length);
}

static void say_place(uxn_place place)
{
    printf(", %04x %u %u %04x", place.at, place.work, place.ret, place.routine);
}

static void say_why(const uint8_t *program, size_t length)
{
    uxn_why why = uxn_explain(program, length);

    printf("explain: %u, rule %u, count %u", why.number, why.rule, why.count);
    say_place(why.here);
    say_place(why.next);
    say_place(why.other);
    printf("\n");
}

static void say_move(const char *call, uxn_written w, const uint8_t *output, size_t output_length)
{
    size_t place;

    printf("%s: length %u, line %u, number %u, output", call, (unsigned)w.length, (unsigned)w.line, w.number);
    for (place = 0; place < output_length; place++)
        printf(" %02x", output[place]);
    printf("\n");
}

/* The bytes of the output that are not 0, each with its place. */
static void say_records(const char *call, uxn_written w, const uint8_t *output, size_t output_length)
{
    size_t place;

    printf("%s: length %u, line %u, number %u, output", call, (unsigned)w.length, (unsigned)w.line, w.number);
    for (place = 0; place < output_length; place++)
        if (output[place] != 0)
            printf(" %u:%02x", (unsigned)place, output[place]);
    printf("\n");
}

int main(void)
{
    /* port F2 gets 1, then BRK: every frame is passed */
    static const uint8_t program[] = {0x80, 0x01, 0x80, 0xf2, 0x17, 0x00};
    /* ports FF and 00 get 1 and 2, in one instruction */
    static const uint8_t two[] = {0xa0, 0x01, 0x02, 0x80, 0xff, 0x37, 0x00};
    /* POP of the empty stack */
    static const uint8_t refused[] = {0x02, 0x00};
    /* a call of the routine at 0104, BRK after it, JMP2r */
    static const uint8_t caller[] = {0x60, 0x00, 0x01, 0x00, 0x6c};
    /* a program for each rule, in the order of their numbers, but for depths above 255 */
    static const uint8_t cut[] = {0x80}, forbidden[] = {0x0c}, few_working[] = {0x18}, few_return[] = {0x58};
    static const uint8_t below_floor[] = {0x60, 0x00, 0x01, 0x00, 0x42, 0x00};
    static const uint8_t outside[] = {0x80, 0x07}, ways_differ[] = {0x80, 0x07, 0x40, 0xff, 0xfb};
    static const uint8_t return_in_0100[] = {0xe0, 0x00, 0x00, 0x6c}, return_off_floor[] = {0x60, 0x00, 0x01, 0x00, 0xc0, 0x00, 0x6c};
    static const uint8_t returns_differ[] = {0xa0, 0x00, 0x00, 0x60, 0x00, 0x01, 0x00, 0x20, 0x00, 0x01, 0x6c, 0x02, 0x6c};
    static const uint32_t wrong[] = {16, 255, 256, 259, 65536 + 3, UINT32_MAX};
    /* a marked record and one that is not marked; the same with a routine of its own */
    static const uint8_t old[] = {1, 2, 3, 0xa0, 0, 0, 0, 0xf2};
    static const uint8_t called[] = {1, 2, 3, 0xa0, 2, 0, 0, 0};
    /* a record with data and one without, in the old form; the rest of them is zero */
    static const uint8_t old_records[2 * 64] = {3, 5, 7, 8, 9};
    static const uint8_t longer[4097] = {0x00};
    uint8_t wide[18], narrow[9], wide_records[2 * 128 + 2], narrow_records[2 * 64 + 1];
    uint8_t sheet[8 * sizeof program], two_sheet[8 * sizeof two];
    uint8_t record[128];
    uxn_machine machine = {0x1234, 5, 6, 7, 8};
    uxn_reply reply;
    size_t n;

    memset(record, 0, sizeof record);
    reply = uxn_install(machine, BUFFERS, program, sizeof program, sheet, sizeof sheet);
    say("install", reply);
    say_sheet(sheet, sizeof sheet);
    reply = uxn_step(reply.machine, BUFFERS);
    say("step", reply);
    reply = uxn_run(reply.machine, BUFFERS, 2, UXN_WATCH_NONE);
    say("run", reply);
    reply = uxn_install(reply.machine, BUFFERS, program, sizeof program, sheet, sizeof sheet);
    reply = uxn_run(reply.machine, BUFFERS, 2, 0xf2);
    say("run, watched", reply);
    reply = uxn_step(reply.machine, BUFFERS);
    say("step", reply);
    /* DEO2 at FF */
    reply = uxn_install(reply.machine, BUFFERS, two, sizeof two, two_sheet, sizeof two_sheet);
    reply = uxn_run(reply.machine, BUFFERS, 2, 0x00);
    reply = uxn_step(reply.machine, BUFFERS);
    say("step", reply);
    reply = uxn_install(reply.machine, BUFFERS, two, sizeof two, two_sheet, sizeof two_sheet);
    reply = uxn_run(reply.machine, BUFFERS, 3, 0x00);
    say("run, watched", reply);
    reply = uxn_run(reply.machine, BUFFERS, 100, 0x00);
    say("run, watched", reply);
    reply = uxn_install(reply.machine, BUFFERS, program, sizeof program, sheet, sizeof sheet);
    reply = uxn_frame(reply.machine, BUFFERS, record, sizeof record, 100);
    say("frame", reply);
    /* the filter that is in stays */
    reply = uxn_install(reply.machine, BUFFERS, two, sizeof two, sheet, sizeof sheet);
    say("install", reply);
    say_sheet(sheet, 16);
    reply = uxn_install(reply.machine, BUFFERS, refused, sizeof refused, sheet, 16);
    say("install", reply);
    say_sheet(sheet, 24);
    printf("install: %d\n", uxn_install(machine, memory, 1, BUFFERS_BUT_MEMORY, program, 0, sheet, 0).number == UXN_MEMORY_LENGTH);
    printf("install: %d\n", uxn_install(machine, BUFFERS, program, 0, sheet, 0).number == UXN_PROGRAM_LENGTH);
    printf("install: %d\n", uxn_install(machine, BUFFERS, longer, sizeof longer, sheet, 0).number == UXN_ADMIT_LENGTH);
    reply = uxn_frame(reply.machine, BUFFERS, record, sizeof record, 100);
    say("frame", reply);
    reply = uxn_event(reply.machine, BUFFERS, 15, 100, 0xf2);
    say("event", reply);
    device_page[0xf0] = 0x01;
    reply = uxn_event(reply.machine, BUFFERS, 15, 100, 0x1f2);
    say("event", reply);
    reply = uxn_event(reply.machine, BUFFERS, 15, 100, 0xf2);
    say("event, watched", reply);
    printf("paused: %d\n", reply.answer == UXN_PAUSED);
    reply = uxn_run(reply.machine, BUFFERS, 100 - reply.steps, UXN_WATCH_NONE);
    say("run", reply);
    reply = uxn_frame(reply.machine, BUFFERS, record, sizeof record - 1, 100);
    say("frame", reply);
    /* the vector of device 3 is not 0 either: a number that C cuts to its low byte would be that device */
    device_page[0x30] = 0x01;
    for (n = 0; n < sizeof wrong / sizeof *wrong; n++) {
        reply = uxn_event(reply.machine, BUFFERS, wrong[n], 100, UXN_WATCH_NONE);
        printf("device %lu: answer %u, number %u\n", (unsigned long)wrong[n], reply.answer, reply.number);
    }
    printf("device -1: %d\n", uxn_event(reply.machine, BUFFERS, -1, 100, UXN_WATCH_NONE).number == UXN_DEVICE_NUMBER);

    /* the load of uxn_bench.h takes what an install refuses */
    reply = uxn_load(reply.machine, BUFFERS, refused, sizeof refused);
    say("load", reply);
    printf("load: %d\n", uxn_load(machine, BUFFERS, program, 0).number == UXN_PROGRAM_LENGTH);

    say_admission(program, sizeof program, sheet, sizeof sheet);
    say_admission(program, sizeof program, sheet, 24);
    say_admission(caller, sizeof caller, sheet, 8 * sizeof caller);
    say_admission(refused, sizeof refused, sheet, 16);
    printf("admit: %d\n", uxn_admit(program, 0, sheet, 0) == UXN_PROGRAM_LENGTH);
    printf("admit: %d\n", uxn_admit(memory, 4097, sheet, 0) == UXN_ADMIT_LENGTH);
    printf("admit: %d\n", uxn_admit(program, sizeof program, sheet, 0) == UXN_SHEET_LENGTH);
    printf("admit: %d\n", uxn_admit(refused, sizeof refused, sheet, 16) == UXN_NO_ASSIGNMENT);

    say_why(cut, sizeof cut);
    say_why(forbidden, sizeof forbidden);
    say_why(few_working, sizeof few_working);
    say_why(few_return, sizeof few_return);
    say_why(below_floor, sizeof below_floor);
    say_why(outside, sizeof outside);
    say_why(ways_differ, sizeof ways_differ);
    say_why(return_in_0100, sizeof return_in_0100);
    say_why(return_off_floor, sizeof return_off_floor);
    printf("explain: %d\n", uxn_explain(returns_differ, sizeof returns_differ).rule == UXN_RULE_RETURNS_DIFFER);
    /* literals, up to 256 bytes on a stack */
    memset(memory, 0xa0, 4096);
    say_why(memory, 4096);
    memset(memory, 0xe0, 4096);
    say_why(memory, 4096);
    say_why(program, sizeof program);
    printf("explain: %d\n", uxn_explain(program, 0).number == UXN_PROGRAM_LENGTH);
    printf("explain: %d\n", uxn_explain(memory, 4097).number == UXN_ADMIT_LENGTH);

    memset(wide, 7, sizeof wide);
    memset(narrow, 7, sizeof narrow);
    say_move("widen", uxn_widen_sheet(old, sizeof old, wide, sizeof wide), wide, sizeof wide);
    say_move("narrow", uxn_narrow_sheet(wide, 16, narrow, sizeof narrow), narrow, sizeof narrow);
    printf("widen: %d\n", uxn_widen_sheet(old, 7, wide, 0).number == UXN_SHEET_FORM);
    printf("widen: %d\n", uxn_widen_sheet(old, sizeof old, wide, 15).number == UXN_OUTPUT_LENGTH);
    printf("narrow: %d\n", uxn_narrow_sheet(old, sizeof old, narrow, 0).number == UXN_SHEET_FORM);
    printf("narrow: %d\n", uxn_narrow_sheet(called, sizeof called, narrow, 0).number == UXN_SHEET_ROUTINE);
    printf("narrow: %d\n", uxn_narrow_sheet(wide, 16, narrow, 7).number == UXN_OUTPUT_LENGTH);

    memset(wide_records, 7, sizeof wide_records);
    memset(narrow_records, 7, sizeof narrow_records);
    say_records("widen records", uxn_widen_records(old_records, sizeof old_records, wide_records, sizeof wide_records), wide_records,
                sizeof wide_records);
    say_records("narrow records", uxn_narrow_records(wide_records, 2 * 128, narrow_records, sizeof narrow_records), narrow_records,
                sizeof narrow_records);
    printf("widen records: %d\n", uxn_widen_records(old_records, 127, wide_records, 0).number == UXN_RECORDS_LENGTH);
    printf("widen records: %d\n", uxn_widen_records(old_records, 128, wide_records, 255).number == UXN_OUTPUT_LENGTH);
    printf("narrow records: %d\n", uxn_narrow_records(wide_records, 255, narrow_records, 0).number == UXN_RECORDS_LENGTH);
    printf("narrow records: %d\n", uxn_narrow_records(wide_records, 256, narrow_records, 127).number == UXN_OUTPUT_LENGTH);
    wide_records[128] = 63;
    printf("narrow records: %d\n", uxn_narrow_records(wide_records, 256, narrow_records, 0).number == UXN_RECORD_TOO_LONG);
    wide_records[127] = 1;
    printf("narrow records: %d\n", uxn_narrow_records(wide_records, 256, narrow_records, 0).number == UXN_RECORD_FORM);
    printf("widen records: %d\n", uxn_widen_records(wide_records, 192, narrow_records, 0).number == UXN_RECORD_FORM);
    return 0;
}

/* How much stack each call takes: it is made on a painted stack, and the bytes that lost their paint are counted, less those of
   a function that makes no call. Prints one line for each call, for tests/integration.rs. */
#define _XOPEN_SOURCE 700
#include <stdint.h>
#include <stdio.h>
#include <string.h>
#include <ucontext.h>

#include "uxn_bench.h"

static uint8_t memory[65536], device_page[256], working[256], ret[256];
static uint8_t program[4096], sheet[8 * sizeof program], record[128];
/* stored sheets, whose first record is marked and whose others are not, in the old form and in the new one */
static const uint8_t narrow_sheet[4 * sizeof program] = {1, 0, 0, 0x80}, wide_sheet[8 * sizeof program] = {1, 0, 0, 0x80, 1};
/* files of records with no data, in either form */
static const uint8_t records[128 * 64];
static size_t length;
static uint8_t painted[131072];
static ucontext_t host, guest;

#define BUFFERS memory, sizeof memory, device_page, sizeof device_page, working, sizeof working, ret, sizeof ret

static const uxn_machine start = {0x0100, 8, 8, 0, 0};

static void none(void) {}
static void install(void) { uxn_install(start, BUFFERS, program, length, sheet, 8 * length); }
static void step(void) { uxn_step(start, BUFFERS); }
static void run(void) { uxn_run(start, BUFFERS, 100, 0x00); }
static void event(void) { uxn_event(start, BUFFERS, 0, 100, 0x00); }
static void frame(void) { uxn_frame(start, BUFFERS, record, sizeof record, 100); }
static void admit(void) { uxn_admit(program, length, sheet, 8 * length); }
static void explain(void) { uxn_explain(program, length); }
static void widen(void) { uxn_widen_sheet(narrow_sheet, 4 * length, sheet, 8 * length); }
static void narrow(void) { uxn_narrow_sheet(wide_sheet, 8 * length, sheet, 4 * length); }
static size_t count(void) { return length < 64 ? length : 64; }
static void widen_records(void) { uxn_widen_records(records, 64 * count(), sheet, 128 * count()); }
static void narrow_records(void) { uxn_narrow_records(records, 128 * count(), sheet, 64 * count()); }

static size_t taken(void (*call)(void), int paint)
{
    size_t untouched = 0;

    memset(painted, paint, sizeof painted);
    getcontext(&guest);
    guest.uc_stack.ss_sp = painted;
    guest.uc_stack.ss_size = sizeof painted;
    guest.uc_link = &host;
    makecontext(&guest, call, 0);
    swapcontext(&host, &guest);
    while (untouched < sizeof painted && painted[untouched] == paint)
        untouched++;
    return sizeof painted - untouched;
}

/* The most over programs that begin with each instruction byte, or with a call of it, and over lengths; a byte that is written
   may be the paint. */
static size_t most(void (*call)(void))
{
    static const size_t lengths[] = {1, 2, 64, sizeof program};
    static const uint8_t jsi[] = {0x60, 0x00, 0x01, 0x00};
    size_t result = 0, found, n;
    int byte, paint, called;

    for (byte = 0; byte < 512; byte++)
        for (n = 0; n < sizeof lengths / sizeof *lengths; n++)
            for (paint = 0x5a; paint <= 0xa5; paint += 0xa5 - 0x5a) {
                length = lengths[n];
                memset(program, byte % 256, length);
                called = byte >= 256 && length > sizeof jsi;
                memcpy(program, jsi, called ? sizeof jsi : 0);
                /* Steps, runs, events and frames have a program that need not be admitted. */
                uxn_load(start, BUFFERS, program, length);
                device_page[0] = 1;
                found = taken(call, paint);
                if (found > result)
                    result = found;
            }
    return result;
}

int main(void)
{
    static const struct {
        const char *name;
        void (*call)(void);
    } calls[] = {{"uxn_install", install},
                 {"uxn_step", step},
                 {"uxn_run", run},
                 {"uxn_event", event},
                 {"uxn_frame", frame},
                 {"uxn_admit", admit},
                 {"uxn_explain", explain},
                 {"uxn_widen_sheet", widen},
                 {"uxn_narrow_sheet", narrow},
                 {"uxn_widen_records", widen_records},
                 {"uxn_narrow_records", narrow_records}};
    size_t without = most(none), n;

    for (n = 0; n < sizeof calls / sizeof *calls; n++)
        printf("%s %u\n", calls[n].name, (unsigned)(most(calls[n].call) - without));
    return 0;
}

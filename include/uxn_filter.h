/*
 * The filter machine as a static library: libcapi.a, made by `tools/build capi`, for x86-64.
 *
 * A machine is a record of five numbers, passed and returned by value, and four buffers that the caller owns and lends to
 * each call, each with its length in bytes:
 *
 *   memory        65,536 bytes   the program stands at 0x0100; a frame record is written to 0x0080 .. 0x00FF
 *   device page      256 bytes   plain bytes; a 16-bit number at port 16 * d is the vector of device d, port 0xF2 the verdict
 *   working stack    256 bytes
 *   return stack     256 bytes
 *
 * The four must not overlap each other, nor the program, sheet or record that is lent with them, and no pointer may be null. Any
 * length may be lent: another length than the one above is refused. A call keeps nothing: what stays between calls is the
 * record in the reply, which the next call is given, and the bytes of the four buffers.
 *
 * Every call ends: a run takes at most `budget` instructions. What each call replies and leaves in every lent byte is proved
 * for every input (crates/capi/src/lib.rt has the contracts, crates/model/specs the definitions that they cite).
 *
 * These are eleven calls: five on a machine, the admission of a program, why a program is refused, two moves of stored sheets, and
 * two of files of frame records. A filter goes in by uxn_install, which admits it first; the load of a program that need not be
 * admitted is not for couplers, and stands in uxn_bench.h. At the end of this file stands a struct, uxn_host, that holds record and
 * buffers of a machine, with functions that make the calls on it. A host that does not use it pays nothing for it.
 */
#ifndef UXN_FILTER_H
#define UXN_FILTER_H

#include <stddef.h>
#include <stdint.h>

/* The version of this interface. Every change of a call, a struct or a constant of this file raises it. Version 1 had no such
   name: there the device of uxn_event was a uint8_t, so that C cut 259 down to 3, and there was no uxn_host. In version 2 a sheet
   had four bytes for each program byte; since version 3 it has eight, and uxn_widen_sheet and uxn_narrow_sheet move sheets from
   one form to the other. Since version 4 uxn_explain says why a program is refused. Since version 5 uxn_machine has two high marks:
   it has 6 bytes where it had 4, and uxn_reply 16 where it had 12. Since version 6 uxn_run and uxn_event take what is watched, with
   the answer UXN_PAUSED, and uxn_reply has 20 bytes: uxn_step says which ports the instruction wrote. Since version 7 a frame record
   has 128 bytes, where it had 64, and uxn_widen_records and uxn_narrow_records move files of records from one form to the other. Since
   version 8 uxn_install admits a program and loads it, uxn_host_install stands in the place of uxn_host_load, and uxn_load is declared
   in uxn_bench.h. */
#define UXN_FILTER_VERSION 8

#ifdef __cplusplus
extern "C" {
#endif

/* Program counter, pointer of the working stack, pointer of the return stack, and a high mark for each stack: the greatest value that
   its pointer had after any instruction since the last install or frame start, 0 there. After a frame the marks say how near to the end
   of its stacks, 255, the filter came. Where an install is followed by frame calls alone, each is at most the greatest depth of that
   stack on the sheet. After an event, a run or a step 255 may also be a stack that went round below 0. A call does not judge the marks
   that it is given. */
typedef struct {
    uint16_t pc;
    uint8_t wp;
    uint8_t rp;
    uint8_t wp_high;
    uint8_t rp_high;
} uxn_machine;

/* uxn_reply.answer */
#define UXN_REFUSED 0 /* nothing was done: the reply has the record as given, every lent byte is as found, but for the sheet of an
                         install that is refused with 11, which is all zero; `number` says why */
#define UXN_LOADED 1  /* uxn_install: the program is admitted and in memory, all else is zero, the counter is at 0x0100, the sheet is
                         written */
#define UXN_WENT_ON 2 /* uxn_step: the instruction was not BRK */
#define UXN_BROKE 3   /* the last instruction was BRK; the counter is just past it */
#define UXN_SPENT 4   /* the budget is used up and the last instruction was not BRK */
#define UXN_IGNORED 5 /* uxn_event: the device's vector is 0; nothing changed */
#define UXN_PAUSED 6  /* uxn_run, uxn_event: the last instruction wrote the watched port and was not BRK; it goes before UXN_SPENT */

/* `watch` of uxn_run and uxn_event: a port, 0 to 255, or nothing. Every number above 255 watches nothing; but C cuts one of more than
   16 bits before the call sees it. */
#define UXN_WATCH_NONE 256

/* uxn_reply.number, where the answer is UXN_REFUSED, uxn_why.number and what uxn_admit answers: the smallest that applies to the call.
   uxn_written.number: the first that applies, in the order that the call names */
#define UXN_MEMORY_LENGTH 1         /* memory is not 65,536 bytes */
#define UXN_DEVICE_PAGE_LENGTH 2    /* the device page is not 256 bytes */
#define UXN_WORKING_STACK_LENGTH 3  /* the working stack is not 256 bytes */
#define UXN_RETURN_STACK_LENGTH 4   /* the return stack is not 256 bytes */
#define UXN_PROGRAM_LENGTH 5        /* the program is empty */
#define UXN_DEVICE_NUMBER 6         /* uxn_event: the device is above 15 */
#define UXN_RECORD_LENGTH 7         /* uxn_frame: the record is not 128 bytes */
#define UXN_RECORD_FORM 8           /* uxn_frame, the moves of records: a record's length byte is above 126, that of an old
                                       record above 62, or a byte past the data is not 0 */
#define UXN_ADMIT_LENGTH 9          /* uxn_install, uxn_admit, uxn_explain: the program is above 4,096 bytes */
#define UXN_SHEET_LENGTH 10         /* uxn_install, uxn_admit: the sheet is not eight times the program's length */
#define UXN_NO_ASSIGNMENT 11        /* uxn_install, uxn_admit, uxn_explain: no depths and routines obey the admission rules */
#define UXN_OUTPUT_LENGTH 13        /* the moves of sheets and of records: the output is too short */
#define UXN_RECORDS_LENGTH 15       /* uxn_widen_records, uxn_narrow_records: the file is not whole records */
#define UXN_RECORD_TOO_LONG 16      /* uxn_narrow_records: a record's length byte is above 62, so that it can not go back */
#define UXN_SHEET_FORM 18           /* uxn_widen_sheet, uxn_narrow_sheet: the sheet is not of the form that is moved */
#define UXN_SHEET_ROUTINE 19        /* uxn_narrow_sheet: a marked record has another routine than 0x0100 */

typedef struct {
    uxn_machine machine; /* the record afterwards: give it to the next call */
    uint32_t steps;      /* instructions carried out, BRK counted; 0 for an install, a refusal and an ignored event */
    uint8_t number;      /* 0 unless refused */
    uint8_t answer;
    uint8_t verdict;     /* uxn_frame that broke: port 0xF2, where 0 drops the frame and any other number passes it; else 0 */
    uint8_t sent;        /* uxn_step: how many ports the instruction wrote, 0, 1 (DEO) or 2 (DEO2); 0 for all other calls */
    uint8_t ports[2];    /* which, in the order of writing; 0 where there is none. The bytes written stand in the device page */
} uxn_reply;

/* A filter goes in, if it is admitted: the sheet, of eight bytes for each program byte, is written as uxn_admit writes it, memory
   becomes zero but for the program at 0x0100, device page and stacks zero, pointers and high marks 0, the counter 0x0100. If it is
   refused, the record and the four buffers stay as found, so that the filter before it goes on; so does the sheet, but for 11, which
   leaves it all zero. The program must not change while the call is under way, and the sheet must not overlap it. Refusals: 1 to 4, 5,
   9, 10, 11. */
uxn_reply uxn_install(uxn_machine machine, uint8_t *memory, size_t memory_length, uint8_t *device_page, size_t device_page_length,
                      uint8_t *working, size_t working_length, uint8_t *ret, size_t ret_length, const uint8_t *program,
                      size_t program_length, uint8_t *sheet, size_t sheet_length);

/* One instruction; the reply says which ports it wrote. A port counts as written if the byte is the one that stood there. Refusals: 1
   to 4. */
uxn_reply uxn_step(uxn_machine machine, uint8_t *memory, size_t memory_length, uint8_t *device_page, size_t device_page_length,
                   uint8_t *working, size_t working_length, uint8_t *ret, size_t ret_length);

/* Instructions until BRK, at most `budget` of them, and until one has written the port `watch`. From a pause uxn_run with the budget
   less the steps goes on as if there had been none. Refusals: 1 to 4. */
uxn_reply uxn_run(uxn_machine machine, uint8_t *memory, size_t memory_length, uint8_t *device_page, size_t device_page_length,
                  uint8_t *working, size_t working_length, uint8_t *ret, size_t ret_length, uint32_t budget, uint16_t watch);

/* A run from the vector of a device, 0 to 15; stacks, pointers and high marks stay as they are. Any other number is refused, 259 and
   -1 too; but C cuts one of more than 32 bits before the call sees it. From a pause uxn_run goes on, not uxn_event. Refusals: 1 to 4,
   6. */
uxn_reply uxn_event(uxn_machine machine, uint8_t *memory, size_t memory_length, uint8_t *device_page, size_t device_page_length,
                    uint8_t *working, size_t working_length, uint8_t *ret, size_t ret_length, uint32_t device, uint32_t budget,
                    uint16_t watch);

/* A frame record of 128 bytes: length of the data (0 to 126), node number, the data, zeros to the end. Port 0xF2 becomes 0, the
   record is written to 0x0080 .. 0x00FF, pointers and high marks become 0, and the program runs from 0x0100. It watches nothing.
   Refusals: 1 to 4, 7, 8. */
uxn_reply uxn_frame(uxn_machine machine, uint8_t *memory, size_t memory_length, uint8_t *device_page, size_t device_page_length,
                    uint8_t *working, size_t working_length, uint8_t *ret, size_t ret_length, const uint8_t *record,
                    size_t record_length, uint32_t budget);

/* Admission of a program into a sheet, which has eight bytes for each program byte, the first eight for address 0x0100: 1 if the
   program reaches the address and else 0, the depths of the working and of the return stack there, the program byte, the routine,
   its high byte first, and two zeros. The routine is 0x0100, or the target of the JSI that led there; where an address is not
   reached, depths and routine are 0. Answers 0 if the program is admitted; the sheet is written then. Else it answers the number:
   5, 9 and 10 leave the sheet as found, 11 leaves it all zero. The program stays as it is; the two must not overlap, and no pointer
   may be null. */
uint8_t uxn_admit(const uint8_t *program, size_t program_length, uint8_t *sheet, size_t sheet_length);

/* A place: an address with the depths and the routine that it has on a way from 0x0100. Each step of the way is one of an
   instruction that lies in the program, is allowed, finds on each stack the bytes that it takes, and leaves no more than 255. */
typedef struct {
    uint16_t at;      /* the address */
    uint8_t work;     /* the depth of the working stack there */
    uint8_t ret;      /* the depth of the return stack there */
    uint16_t routine; /* 0x0100, or the target of the JSI that led there */
} uxn_place;

/* uxn_why.rule: what is found at the instruction `here` */
#define UXN_RULE_CUT 1               /* it has `count` bytes, and the program ends before the last of them */
#define UXN_RULE_FORBIDDEN 2         /* it is not allowed: JMP, JCN, JSR, STR or STA in any mode, but for the byte 6C */
#define UXN_RULE_FEW_WORKING 3       /* it takes `count` bytes of the working stack, which holds fewer */
#define UXN_RULE_FEW_RETURN 4        /* it takes `count` bytes of the return stack, which holds fewer */
#define UXN_RULE_BELOW_FLOOR 5       /* it takes `count` bytes of the return stack, and fewer lie above the floor, `other.ret` */
#define UXN_RULE_MANY_WORKING 6      /* after it the working stack would hold `count` bytes, more than 255 */
#define UXN_RULE_MANY_RETURN 7       /* after it the return stack would hold `count` bytes, more than 255 */
#define UXN_RULE_OUTSIDE 8           /* it goes on to `next`, which is outside the program */
#define UXN_RULE_WAYS_DIFFER 9       /* it goes on to `next`, and on another way the same address is `other` */
#define UXN_RULE_RETURN_IN_0100 10   /* it is a return, byte 6C, in the routine 0x0100 */
#define UXN_RULE_RETURN_OFF_FLOOR 11 /* it is a return, and its return depth is not the floor, `other.ret` */
#define UXN_RULE_RETURNS_DIFFER 12   /* it is a return, and `other` is one of the same routine with another working depth */

/* Why a program is refused. What a rule does not have is 0. */
typedef struct {
    uint8_t number;  /* as uxn_admit answers with a sheet of the right length: 0, 5, 9 or 11; unless 11, all else is 0 */
    uint8_t rule;    /* the rule that fails */
    uint16_t count;  /* the number that the rule speaks of */
    uxn_place here;  /* the instruction where it fails, with the depths before it */
    uxn_place next;  /* where it goes on: UXN_RULE_OUTSIDE, UXN_RULE_WAYS_DIFFER */
    uxn_place other; /* the same address on another way; the routine's own address, whose return depth is the floor; another return */
} uxn_why;

/* Why a program is refused by uxn_install and uxn_admit. Where several rules fail, or one at several places, one of them is told;
   which one is not promised. It needs no sheet. The program stays as it is, and its pointer may not be null. */
uxn_why uxn_explain(const uint8_t *program, size_t program_length);

/* What a call that writes to a lent output replies. */
typedef struct {
    size_t length;  /* bytes written, from the start of the output on; 0 if refused */
    uint32_t line;  /* 0 in the calls below */
    uint8_t number; /* 0 unless refused */
} uxn_written;

/* The two moves of sheets. In the old form, that of version 2, a record has four bytes: mark, depths of the working and of the
   return stack, program byte. In the new form it has eight: these four, the routine, its high byte first, and two zeros. The sheet
   stays as it is, and so do the bytes of the output past those written. A sheet of no bytes is moved to no bytes. A refusal leaves
   the output as found. The two must not overlap, and no pointer may be null.

   A sheet is wrong, number 18, if its last record is not whole, a mark is above 1, or a byte of an unmarked record is not 0 but for
   its program byte; in the new form also if a marked record has routine 0 or its last two bytes are not 0. The depths of marked
   records and program bytes may be any. Every record is looked at before another number is given. */

/* From the old form to the new one, twice as long: marked records get the routine 0x0100, the others 0. Refusals: 18, then 13. */
uxn_written uxn_widen_sheet(const uint8_t *sheet, size_t sheet_length, uint8_t *output, size_t output_length);

/* Back, half as long: the first four bytes of each record. Refusals: 18, then 19 if a marked record has another routine than
   0x0100, then 13. */
uxn_written uxn_narrow_sheet(const uint8_t *sheet, size_t sheet_length, uint8_t *output, size_t output_length);

/* The two moves of files of frame records, one record after the other and nothing else. In the old form, that of version 6, a record
   has 64 bytes, and its length byte is 0 to 62; in the new form, which uxn_frame takes, 128 bytes and 0 to 126. In both the data are
   followed by zeros. The file stays as it is, and so do the bytes of the output past those written. A file of no bytes is moved to no
   bytes, and there is no limit on the number of records. A refusal leaves the output as found. The two must not overlap, and no
   pointer may be null. Every record is looked at before another number is given. */

/* From the old form to the new one, twice as long: each record gets 64 zeros at its end. Refusals: 15 if the file is not whole
   records of 64 bytes, then 8 if the length byte of a record is above 62 or a byte past its data is not 0, then 13. */
uxn_written uxn_widen_records(const uint8_t *old_records, size_t old_length, uint8_t *output, size_t output_length);

/* Back, half as long: the first 64 bytes of each record. Refusals: 15 if the file is not whole records of 128 bytes, then 8 if the
   length byte of a record is above 126 or a byte past its data is not 0, then 16 if the length byte of a record is above 62, then
   13. */
uxn_written uxn_narrow_records(const uint8_t *new_records, size_t new_length, uint8_t *output, size_t output_length);

/*
 * The usual host, in C99 and later and in C++. A uxn_host is a machine: its record, and its four buffers of the right lengths.
 * Each function below makes the call of its name with these, keeps the record that comes back, and returns the reply. So no
 * length and no record is forgotten, and 1 to 4 are never answered.
 *
 * These functions are C, compiled with the host, and not proved: they only pass on. The calls that they make are proved.
 *
 * Until an install has gone in the struct may hold anything: make no other call before. It has 66,310 bytes, so mind a small
 * stack. Its fields may be read and written between calls, and a copy of it is a copy of the machine. The program, the sheet and the
 * record that are lent must not lie in it, and no pointer may be null.
 */
#if defined(__cplusplus) || (defined(__STDC_VERSION__) && __STDC_VERSION__ >= 199901L)

typedef struct {
    uxn_machine machine; /* as the last call replied it */
    uint8_t memory[65536];
    uint8_t device_page[256];
    uint8_t working[256];
    uint8_t ret[256];
} uxn_host;

/* What every call on a machine is given first. */
#define UXN_HOST_GIVES(host)                                                                                             \
    (host)->machine, (host)->memory, sizeof (host)->memory, (host)->device_page, sizeof (host)->device_page,             \
        (host)->working, sizeof (host)->working, (host)->ret, sizeof (host)->ret

static inline uxn_reply uxn_host_keep(uxn_host *host, uxn_reply reply)
{
    host->machine = reply.machine;
    return reply;
}

static inline uxn_reply uxn_host_install(uxn_host *host, const uint8_t *program, size_t program_length, uint8_t *sheet,
                                         size_t sheet_length)
{
    return uxn_host_keep(host, uxn_install(UXN_HOST_GIVES(host), program, program_length, sheet, sheet_length));
}

static inline uxn_reply uxn_host_step(uxn_host *host)
{
    return uxn_host_keep(host, uxn_step(UXN_HOST_GIVES(host)));
}

static inline uxn_reply uxn_host_run(uxn_host *host, uint32_t budget, uint16_t watch)
{
    return uxn_host_keep(host, uxn_run(UXN_HOST_GIVES(host), budget, watch));
}

static inline uxn_reply uxn_host_event(uxn_host *host, uint32_t device, uint32_t budget, uint16_t watch)
{
    return uxn_host_keep(host, uxn_event(UXN_HOST_GIVES(host), device, budget, watch));
}

static inline uxn_reply uxn_host_frame(uxn_host *host, const uint8_t *record, size_t record_length, uint32_t budget)
{
    return uxn_host_keep(host, uxn_frame(UXN_HOST_GIVES(host), record, record_length, budget));
}

#undef UXN_HOST_GIVES

#endif

#ifdef __cplusplus
}
#endif

#endif

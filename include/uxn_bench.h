/*
 * The load of document 01, for its cases and for tests: it takes any program, admitted or not. A coupler does not include this
 * file. There a filter goes in by uxn_install of uxn_filter.h, which takes none that is not admitted.
 */
#ifndef UXN_BENCH_H
#define UXN_BENCH_H

#include "uxn_filter.h"

#ifdef __cplusplus
extern "C" {
#endif

/* Memory becomes zero but for the program at 0x0100, device page and stacks zero, pointers and high marks 0, the counter 0x0100; the
   answer is UXN_LOADED. No sheet is written. Refusals: 1 to 4, 5 if the program is empty or above 65,280 bytes. */
uxn_reply uxn_load(uxn_machine machine, uint8_t *memory, size_t memory_length, uint8_t *device_page, size_t device_page_length,
                   uint8_t *working, size_t working_length, uint8_t *ret, size_t ret_length, const uint8_t *program,
                   size_t program_length);

#ifdef __cplusplus
}
#endif

#endif

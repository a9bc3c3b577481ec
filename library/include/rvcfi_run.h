/* rvcfi_run.h: a run of a hardened RV64IM image by the machine whose steps are proved to be the definition's.
 *
 * The function is compiled from code whose contract is proved (crates/rvcfi_run_c). What a caller owes is what rvcfi.h says: pointers
 * that are right and never NULL, texts that nobody writes during the call, output and *run that are the caller's alone and no part of
 * them, and the memory of c/heap.c. The output_len bytes at output are initialised. 65,536 bytes of stack.
 */
#ifndef RVCFI_RUN_H
#define RVCFI_RUN_H

#include <stddef.h>
#include <stdint.h>

#ifdef __cplusplus
extern "C" {
#endif

/* The outcome of rvcfi_run. A number keeps its meaning, and a new meaning gets a new number. */
#define RVCFI_RUN_RAN        0u /* the image ran: stop says how it ended */
#define RVCFI_RUN_BAD_IMAGE  1u /* no image: reason and first as rvcfi_verify tells them */
#define RVCFI_RUN_BAD_GRAPH  2u /* no graph: the same */
#define RVCFI_RUN_REJECTED   3u /* a rule fails: reason, first and second as rvcfi_verify tells them */
#define RVCFI_RUN_NO_MEMORY  4u /* there was no memory: nothing is said of the texts */
#define RVCFI_RUN_BAD_SCRIPT 5u /* no script: reason 1 form, 2 range, 3 order; first: the number of the line, from 1 */
#define RVCFI_RUN_HARTS      6u /* the script is for several harts, first of them, and the image for one */

/* How a run stopped. */
#define RVCFI_STOP_LIMIT   0u /* as many steps were taken as were asked for */
#define RVCFI_STOP_EXIT    1u /* value: the status */
#define RVCFI_STOP_HANDLER 2u /* value: RVCFI_HANDLER_* */
#define RVCFI_STOP_BREAK   3u /* value: the pc of an EBREAK of the program's own */
#define RVCFI_STOP_LOAD    4u /* value: the pc of a load outside memory; address: from where */

#define RVCFI_HANDLER_BAD_TARGET 1u
#define RVCFI_HANDLER_BAD_RETURN 2u
#define RVCFI_HANDLER_DEEP       3u

struct rvcfi_run_result {
    uint32_t outcome; /* RVCFI_RUN_RAN to RVCFI_RUN_HARTS */
    uint32_t reason;
    uint64_t first;
    uint64_t second;
    uint32_t stop; /* RVCFI_STOP_LIMIT to RVCFI_STOP_LOAD, where it ran */
    uint32_t hart; /* the hart that stopped it, 0 at the limit */
    uint64_t value;
    uint64_t address;
    uint64_t steps;   /* how many steps all harts took */
    uint64_t written; /* how many bytes the program wrote, also those for which output has no room */
};

/* Runs an image with its graph for at most `limit` steps, on `input`. script is a text as docs/FORMATS.md has it, of turns and
 * changes; with script_len 0 one hart runs, undisturbed. Writes all of *run and returns its outcome. Where it ran, output gets the
 * first bytes of what the program wrote, as many as output_len; else output is as it was. */
uint32_t rvcfi_run(const uint8_t *image, size_t image_len, const uint8_t *graph, size_t graph_len, const uint8_t *script,
                   size_t script_len, const uint8_t *input, size_t input_len, uint64_t limit, uint8_t *output,
                   size_t output_len, struct rvcfi_run_result *run);

#ifdef __cplusplus
}
#endif
#endif

/* emulator.h: hart 0 of an image that was verified, run in Unicorn as docs/MACHINE.md, "What a loader must do", says. */
#ifndef RVCFI_EXAMPLE_EMULATOR_H
#define RVCFI_EXAMPLE_EMULATOR_H

#include "rvcfi.h"

#include <stdint.h>

enum stop_kind {
    STOP_EXIT,   /* a system call ended the run: `number` is its status */
    STOP_BREAK,  /* an EBREAK at `pc` */
    STOP_LOAD,   /* a load at `pc` from outside memory: `number` is its address */
    STOP_LIMIT,  /* as many steps as it may take */
    STOP_OUTPUT, /* standard output takes no more */
    STOP_FAILED  /* what no accepted image does, or the emulator could not be set up */
};

struct stop {
    enum stop_kind kind;
    uint64_t pc;
    uint64_t number;
};

/* Maps the image as the plan says and runs it for at most so many steps; its input is standard input, and its output
 * goes to standard output. The image was accepted, and the plan is its own. */
struct stop emulator_run(const uint8_t *image, const struct rvcfi_image_plan *plan, uint64_t steps);

#endif

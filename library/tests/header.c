/* header.c: rvcfi.h and rvcfi_run.h by themselves, twice, as C99 and as C++, and the types of their functions. */
#include "rvcfi_run.h"
#include "rvcfi_run.h"
#include "rvcfi.h"
#include "rvcfi.h"

typedef uint32_t verify_type(const uint8_t *, size_t, const uint8_t *, size_t, struct rvcfi_verdict *);
typedef uint32_t plan_type(const uint8_t *, size_t, struct rvcfi_image_plan *);
typedef uint32_t calls_type(const uint8_t *, size_t, uint16_t *, size_t, uint32_t *);
typedef uint32_t run_type(const uint8_t *, size_t, const uint8_t *, size_t, const uint8_t *, size_t, const uint8_t *, size_t, uint64_t,
                          uint8_t *, size_t, struct rvcfi_run_result *);

uint32_t header_names(const uint8_t *bytes, size_t length);

uint32_t header_names(const uint8_t *bytes, size_t length)
{
    verify_type *verify = rvcfi_verify;
    plan_type *plan = rvcfi_plan;
    calls_type *list = rvcfi_calls;
    run_type *start = rvcfi_run;
    struct rvcfi_verdict verdict;
    struct rvcfi_image_plan planned;
    struct rvcfi_run_result run;
    uint16_t calls[RVCFI_CALLS_MOST] = {RVCFI_CALLS_GREATEST};
    uint32_t count = 0;
    uint8_t output[1] = {0};

    if (verify(bytes, length, bytes, length, &verdict) == RVCFI_ACCEPTED && verdict.reason == RVCFI_RULE_END)
        return RVCFI_NO_MEMORY;
    if (plan(bytes, length, &planned) == RVCFI_PLANNED)
        return planned.version;
    if (start(bytes, length, bytes, length, bytes, length, bytes, length, 1, output, 1, &run) == RVCFI_RUN_RAN && run.stop == RVCFI_STOP_HANDLER)
        return run.value == RVCFI_HANDLER_DEEP ? run.hart : output[0];
    return list(bytes, length, calls, RVCFI_CALLS_MOST, &count) == RVCFI_CALLS_LISTED ? count : calls[0];
}

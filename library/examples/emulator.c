/* emulator.c: hart 0 of an image that was verified, run in Unicorn.
 *
 * The engine maps nothing but the image's three regions and one page of zeros behind the code; of these the machine of
 * docs/MACHINE.md has eight bytes, so a load further behind, which stops there, answers zeros here. The engine has more
 * instructions than the machine, compressed ones among them; an accepted image has none of these and jumps to none. */
#define _DEFAULT_SOURCE
#include "emulator.h"

#include <stdbool.h>
#include <stdio.h>
#include <string.h>
#include <sys/mman.h>
#include <unicorn/unicorn.h>

#define EBREAK 0x00100073u
#define PAGE 4096u
#define WINDOW ((uint64_t)1 << 28) /* where the bytes of a system call end at most */
#define ANSWER_BAD_FILE ((uint64_t)-9)
#define ANSWER_BAD_POINTER ((uint64_t)-14)
#define ANSWER_NO_CALL ((uint64_t)-38)

enum call { CALL_READ = 63, CALL_WRITE = 64, CALL_EXIT = 93, CALL_EXIT_GROUP = 94 };

/* The host's memory behind the image's. */
struct regions {
    uint8_t *code;
    uint8_t *behind;
    uint8_t *data;
    uint8_t *shadow;
};

struct run {
    const struct rvcfi_image_plan *plan;
    struct regions at;
    struct stop stop;
    bool is_over;
};

static void finish(struct run *run, uc_engine *engine, enum stop_kind kind, uint64_t number)
{
    run->stop.kind = kind;
    run->stop.number = number;
    run->is_over = true;
    uc_emu_stop(engine);
}

static uint64_t get(uc_engine *engine, int name)
{
    uint64_t value = 0;

    uc_reg_read(engine, name, &value);
    return value;
}

/* Whether `length` bytes at an address lie below the window's end: of whole numbers, so that no sum wraps. */
static bool is_in_window(uint64_t address, uint64_t length)
{
    return address <= WINDOW && length <= WINDOW - address;
}

/* Read and write: the answer that goes to x10. */
static uint64_t transfer(struct run *run, uc_engine *engine, bool is_read)
{
    uint64_t file = get(engine, UC_RISCV_REG_X10);
    uint64_t address = get(engine, UC_RISCV_REG_X11);
    uint64_t length = get(engine, UC_RISCV_REG_X12);

    if (is_read ? file != 0 : file != 1 && file != 2)
        return ANSWER_BAD_FILE;
    if (!is_in_window(address, length))
        return ANSWER_BAD_POINTER;
    if (is_read)
        return fread(run->at.data + address, 1, (size_t)length, stdin);
    if (fwrite(run->at.data + address, 1, (size_t)length, stdout) != length)
        finish(run, engine, STOP_OUTPUT, 0);
    return length;
}

static void system_call(struct run *run, uc_engine *engine)
{
    uint64_t number = get(engine, UC_RISCV_REG_X17);
    uint64_t answer = ANSWER_NO_CALL;

    if (number == CALL_EXIT || number == CALL_EXIT_GROUP) {
        finish(run, engine, STOP_EXIT, get(engine, UC_RISCV_REG_X10) % 256);
        return;
    }
    if (number == CALL_READ || number == CALL_WRITE)
        answer = transfer(run, engine, number == CALL_READ);
    uc_reg_write(engine, UC_RISCV_REG_X10, &answer);
}

static void on_exception(uc_engine *engine, uint32_t cause, void *data)
{
    struct run *run = data;

    if (cause == 8 || cause == 11) /* an environment call, from user or from machine mode */
        system_call(run, engine);
    else
        finish(run, engine, cause == 3 ? STOP_BREAK : STOP_FAILED, 0);
}

static bool on_bad_access(uc_engine *engine, uc_mem_type type, uint64_t address, int size, int64_t value, void *data)
{
    (void)size;
    (void)value;
    finish(data, engine, type == UC_MEM_READ_UNMAPPED ? STOP_LOAD : STOP_FAILED, address);
    return false;
}

/* Zeros of the host, which end at a page. */
static uint8_t *zeros(uint64_t size)
{
    void *block = mmap(NULL, (size_t)size, PROT_READ | PROT_WRITE, MAP_PRIVATE | MAP_ANONYMOUS | MAP_NORESERVE, -1, 0);

    return block != MAP_FAILED ? block : NULL;
}

static bool take_memory(struct regions *at, const struct rvcfi_image_plan *plan)
{
    at->code = zeros(plan->code_size);
    at->behind = zeros(PAGE);
    at->data = zeros(plan->data_end);
    at->shadow = zeros(plan->shadow_size);
    return at->code != NULL && at->behind != NULL && at->data != NULL && at->shadow != NULL;
}

static void give_back(const struct regions *at, const struct rvcfi_image_plan *plan)
{
    if (at->code != NULL)
        munmap(at->code, (size_t)plan->code_size);
    if (at->behind != NULL)
        munmap(at->behind, PAGE);
    if (at->data != NULL)
        munmap(at->data, (size_t)plan->data_end);
    if (at->shadow != NULL)
        munmap(at->shadow, (size_t)plan->shadow_size);
}

/* The file's parts go to their places, and the code is read-only from then on, for the host too. */
static bool fill(const struct regions *at, const uint8_t *image, const struct rvcfi_image_plan *plan)
{
    memcpy(at->code, image + plan->code_offset, (size_t)plan->code_length);
    memcpy(at->data + plan->data_address, image + plan->data_offset, (size_t)plan->data_length);
    return mprotect(at->code, (size_t)plan->code_size, PROT_READ) == 0 && mprotect(at->behind, PAGE, PROT_READ) == 0;
}

static bool map(uc_engine *engine, const struct regions *at, const struct rvcfi_image_plan *plan)
{
    const uint32_t both = UC_PROT_READ | UC_PROT_WRITE;

    return uc_mem_map_ptr(engine, 0, plan->data_end, both, at->data) == UC_ERR_OK &&
           uc_mem_map_ptr(engine, plan->code_address, plan->code_size, UC_PROT_READ | UC_PROT_EXEC, at->code) == UC_ERR_OK &&
           uc_mem_map_ptr(engine, plan->code_address + plan->code_size, PAGE, UC_PROT_READ, at->behind) == UC_ERR_OK &&
           uc_mem_map_ptr(engine, plan->shadow_address, plan->shadow_size, both, at->shadow) == UC_ERR_OK;
}

/* Unicorn takes functions of each type as a pointer to void. */
union callback {
    uc_cb_hookintr_t exception;
    uc_cb_eventmem_t access;
    void *pointer;
};

static bool watch(uc_engine *engine, struct run *run)
{
    union callback exception, access;
    uc_hook exceptions, accesses;

    exception.exception = on_exception;
    access.access = on_bad_access;
    return uc_hook_add(engine, &exceptions, UC_HOOK_INTR, exception.pointer, run, 1, 0) == UC_ERR_OK &&
           uc_hook_add(engine, &accesses, UC_HOOK_MEM_INVALID, access.pointer, run, 1, 0) == UC_ERR_OK;
}

/* The word of code at the pc. */
static uint32_t word_at(const struct run *run, uint64_t pc)
{
    uint64_t offset = pc - run->plan->code_address;
    uint32_t word = 0;

    if (pc >= run->plan->code_address && offset <= run->plan->code_size - sizeof word)
        memcpy(&word, run->at.code + offset, sizeof word);
    return word;
}

/* The address of a load that failed. Unicorn tells that of the page that is not there, which may lie behind it. */
static uint64_t address_of_load(uc_engine *engine, uint32_t word)
{
    uint64_t offset = word >> 20;

    if (offset >= 2048)
        offset -= 4096;
    return get(engine, UC_RISCV_REG_X0 + (int)(word >> 15 & 31)) + offset;
}

static bool clear_registers(uc_engine *engine)
{
    const uint64_t zero = 0;
    int name;

    for (name = UC_RISCV_REG_X1; name <= UC_RISCV_REG_X31; name++)
        if (uc_reg_write(engine, name, &zero) != UC_ERR_OK)
            return false;
    return true;
}

/* Starts hart 0, whose registers are all 0, and tells how it stopped. Unicorn tells an EBREAK as an instruction that is
 * none. */
static void start(uc_engine *engine, struct run *run, uint64_t steps)
{
    uint64_t never = run->plan->code_address + run->plan->code_size; /* where no accepted image comes to */
    uc_err error = uc_emu_start(engine, run->plan->entry, never, 0, (size_t)steps);
    uint64_t pc = get(engine, UC_RISCV_REG_PC);

    run->stop.pc = pc;
    if (run->is_over && run->stop.kind == STOP_LOAD)
        run->stop.number = address_of_load(engine, word_at(run, pc));
    if (!run->is_over && error == UC_ERR_OK)
        run->stop.kind = STOP_LIMIT;
    if (!run->is_over && error == UC_ERR_INSN_INVALID && word_at(run, pc) == EBREAK)
        run->stop.kind = STOP_BREAK;
}

struct stop emulator_run(const uint8_t *image, const struct rvcfi_image_plan *plan, uint64_t steps)
{
    struct run run = {plan, {NULL, NULL, NULL, NULL}, {STOP_FAILED, 0, 0}, false};
    uc_engine *engine = NULL;

    if (take_memory(&run.at, plan) && fill(&run.at, image, plan) &&
        uc_open(UC_ARCH_RISCV, UC_MODE_RISCV64, &engine) == UC_ERR_OK) {
        if (map(engine, &run.at, plan) && watch(engine, &run) && clear_registers(engine))
            start(engine, &run, steps);
        uc_close(engine);
    }
    give_back(&run.at, plan);
    return run.stop;
}

/* rvcfi.h: the verifier of hardened RV64IM images, what a loader maps of an image, and which system calls it may make.
 *
 * The functions are compiled from code whose contracts are proved (crates/rvcfi_c): for all bytes they return, read
 * nothing but the bytes that they are given, write nothing but what their last arguments point to, and keep nothing
 * from call to call. They have no state and take no lock, so any number of threads may call them at once.
 *
 * What the caller owes, which nothing checks:
 *   - image and graph point to image_len and graph_len bytes that nobody writes during the call. A length is at most
 *     PTRDIFF_MAX. No pointer is NULL, also where its length is 0 (pass "").
 *   - verdict, plan, calls and count point to what is aligned, is the caller's alone during the call, and is no part of
 *     image or graph or of one another. Structs need not be initialised; the calls_len numbers at calls are.
 *   - rvcfi_verify and rvcfi_calls take memory by c/heap.c from malloc: malloc, realloc and free are one allocator's,
 *     and blocks are aligned as theirs are. They are not called from a signal handler, nor from the forked child of a
 *     process with threads. With c/arena.c for c/heap.c nothing is taken from malloc, and calls come one at a time.
 *   - 8,192 bytes of stack.
 *   - rvcfi_verify is asked of the very bytes that are loaded. What others may write, as a file that is mapped shared,
 *     is copied before the call, and the copy is loaded.
 *
 * docs/COMMANDS.md and docs/FORMATS.md have the texts that `rvcfi verify` prints for these numbers.
 */
#ifndef RVCFI_H
#define RVCFI_H

#include <stddef.h>
#include <stdint.h>

#ifdef __cplusplus
extern "C" {
#endif

/* The outcome of rvcfi_verify. A number keeps its meaning, and a new meaning gets a new number. */
#define RVCFI_ACCEPTED  0u /* the image and the graph meet the rules: every run of the image is safe */
#define RVCFI_BAD_IMAGE 1u /* the first text is no image: reason RVCFI_SHORT, RVCFI_BYTE or RVCFI_LONG */
#define RVCFI_BAD_GRAPH 2u /* the second text is no graph: reason RVCFI_FORM, RVCFI_RANGE or RVCFI_ORDER */
#define RVCFI_REJECTED  3u /* a rule fails: reason is the first that does, RVCFI_RULE_*, in the order of docs/FORMATS.md */
#define RVCFI_NO_MEMORY 4u /* there was no memory: nothing is said of the texts, and all of it is given back */

/* Reasons of RVCFI_BAD_IMAGE. */
#define RVCFI_SHORT 1u /* the file ends before its headers or its data do; first: its length in bytes */
#define RVCFI_BYTE  2u /* a field, or a byte of padding, is wrong; first: its offset in the file in bytes */
#define RVCFI_LONG  3u /* the file goes on behind its data; first: its length in bytes */

/* Reasons of RVCFI_BAD_GRAPH; first: the number of the line, from 1. */
#define RVCFI_FORM  1u /* the line is none that may stand there, or has no newline */
#define RVCFI_RANGE 2u /* a number in it is not allowed */
#define RVCFI_ORDER 3u /* it does not rise above the line before it, or its own numbers do not rise */

/* Reasons of RVCFI_REJECTED. For RVCFI_RULE_LENGTH first is how long the code of the image is and second how long the
 * graph says that it is, both in bytes; for each other rule first is the least address at which it fails. */
#define RVCFI_RULE_LENGTH   1u
#define RVCFI_RULE_PROLOGUE 2u
#define RVCFI_RULE_UNIT     3u
#define RVCFI_RULE_TARGET   4u
#define RVCFI_RULE_UNLISTED 5u
#define RVCFI_RULE_UNUSED   6u
#define RVCFI_RULE_SITE     7u
#define RVCFI_RULE_GATE     8u
#define RVCFI_RULE_ASTRAY   9u
#define RVCFI_RULE_END      10u
#define RVCFI_RULE_LEAF     11u

struct rvcfi_verdict {
    uint32_t outcome; /* RVCFI_ACCEPTED to RVCFI_NO_MEMORY */
    uint32_t reason;  /* one of the reasons of this outcome, or 0 where it has none */
    uint64_t first;   /* what the outcome and the reason say, or 0 */
    uint64_t second;  /* for RVCFI_RULE_LENGTH the length that the graph gives, else 0 */
};

/* Whether two texts are an image and its graph and go together. Writes all of *verdict and returns its outcome.
 * Time and memory grow with the two lengths; the memory is given back before it returns. */
uint32_t rvcfi_verify(const uint8_t *image, size_t image_len, const uint8_t *graph, size_t graph_len,
                      struct rvcfi_verdict *verdict);

/* What a loader maps of an image. Offsets and lengths are bytes of the file, addresses and sizes those of memory.
 * What the file's part does not fill is zeros. */
struct rvcfi_image_plan {
    uint32_t version;        /* 1, for one hart, or 2, for up to eight */
    uint32_t harts;          /* how many harts it may have: 1 or 8 */
    uint64_t entry;          /* where each hart starts, its number in x10 and 0 in all other registers */
    uint64_t code_offset;    /* the code in the file */
    uint64_t code_length;
    uint64_t code_address;   /* the code in memory: read and execute, and eight zeros behind it that can be read */
    uint64_t code_size;
    uint64_t data_offset;    /* the initialised data in the file */
    uint64_t data_length;
    uint64_t data_address;   /* where they go */
    uint64_t data_end;       /* data in memory, from address 0 up to here without it: read and write */
    uint64_t shadow_address; /* the shadow stack in memory: read and write */
    uint64_t shadow_size;
};

/* What rvcfi_plan returns. */
#define RVCFI_PLANNED       0u /* *plan is what a loader maps of the image */
#define RVCFI_PLAN_NO_IMAGE 1u /* the text is no image, and *plan is as it was */

/* What a loader maps of the image that a text is. It does not ask the rules: a loader asks rvcfi_verify of the same
 * bytes first. Takes no memory. docs/MACHINE.md, "What a loader must do", says what a loader owes besides. */
uint32_t rvcfi_plan(const uint8_t *image, size_t image_len, struct rvcfi_image_plan *plan);

/* What rvcfi_calls returns. Unless it is RVCFI_CALLS_LISTED, *count and the numbers at calls are as they were. */
#define RVCFI_CALLS_LISTED    0u /* the graph lists *count numbers, which rise: an image that is accepted with it makes
                                    no other system calls, but 93 where its entry returns */
#define RVCFI_CALLS_FREE      1u /* the graph has no list: an image that is accepted with it may make any */
#define RVCFI_CALLS_BAD_GRAPH 2u /* the text is no graph */
#define RVCFI_CALLS_NO_MEMORY 4u /* there was no memory: nothing is said of the text */

/* How many numbers a list has at most, and the greatest number in one. */
#define RVCFI_CALLS_MOST     8u
#define RVCFI_CALLS_GREATEST 2047u

/* The list of system calls of the graph that a text is. Where it has one, writes how many numbers it has to *count, 1 to
 * RVCFI_CALLS_MOST, and to calls as many of them, from the first on, as the calls_len places there hold; the other
 * places are as they were. */
uint32_t rvcfi_calls(const uint8_t *graph, size_t graph_len, uint16_t *calls, size_t calls_len, uint32_t *count);

#ifdef __cplusplus
}
#endif
#endif

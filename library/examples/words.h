/* words.h: a verdict in the words of `rvcfi verify`. */
#ifndef RVCFI_EXAMPLE_WORDS_H
#define RVCFI_EXAMPLE_WORDS_H

#include "rvcfi.h"

/* How many bytes the words of a verdict have at most, with the zero behind them. */
#define WORDS_MOST 64

/* Writes the line that `rvcfi verify` prints for a verdict, without its newline; for want of memory an empty one. */
void words_of_verdict(const struct rvcfi_verdict *verdict, char words[WORDS_MOST]);

#endif

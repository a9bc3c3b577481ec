/* Prints the primes below 24: for each number its remainders by all lesser numbers from 2 on. */
#include "bytecode.h"

enum { N, DIVISOR, REST, TEST, ONE, LIMIT, ZERO };
enum { EACH = 4, NEXT_DIVISOR = 5, PRIME = 11, COMPOSITE = 12, END = 15, REMAINDER = 16 };

const struct operation_at bytecode[] = {
    { SET, ONE, 1, 0 },
    { SET, LIMIT, 24, 0 },
    { SET, N, 2, 0 },
    { SET, ZERO, 0, 0 },
    { SET, DIVISOR, 2, 0 }, /* EACH */
    { LESS, TEST, DIVISOR, N }, /* NEXT_DIVISOR */
    { SUBTRACT, TEST, ONE, TEST },
    { IF, TEST, PRIME, 0 },
    { CALL, 0, REMAINDER, 0 },
    { ADD, DIVISOR, DIVISOR, ONE },
    { IF, REST, NEXT_DIVISOR, COMPOSITE },
    { PRINT, N, 0, 0 }, /* PRIME */
    { ADD, N, N, ONE }, /* COMPOSITE */
    { LESS, TEST, N, LIMIT },
    { IF, TEST, EACH, END },
    { STOP, 0, 0, 0 }, /* END */
    { ADD, REST, N, ZERO }, /* REMAINDER */
    { LESS, TEST, REST, DIVISOR },
    { IF, TEST, 21, 0 },
    { SUBTRACT, REST, REST, DIVISOR },
    { IF, ONE, 17, 0 },
    { BACK, 0, 0, 0 },
};

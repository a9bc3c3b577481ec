/* A program for the interpreter: an operation, a register, and two more registers, or a number, or a place in b. */
enum operation { SET, ADD, SUBTRACT, LESS, IF, PRINT, CALL, BACK, STOP };

struct operation_at {
    unsigned char operation, a, b, c;
};

extern const struct operation_at bytecode[];

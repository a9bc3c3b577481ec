/* An interpreter whose instructions are labels of a table, with a table of functions beside it. */
enum { PUSH, ADD, DOUBLE, CALL, SWAP, STOP };

static long negate(long n) { return -n; }
static long half(long n) { return n >> 1; }
static long next(long n) { return n + 1; }
static long (*const library[])(long) = { negate, half, next };

static const unsigned char program[] = { PUSH, 20, PUSH, 4, SWAP, ADD, DOUBLE, CALL, 1, CALL, 2, STOP };

__attribute__((noinline)) static long interpreted(const unsigned char *at)
{
    static const void *const labels[] = { &&push, &&add, &&twice, &&call, &&swap, &&stop };
    long stack[8], kept;
    int top = 0;
    goto *labels[*at];
push:
    stack[top++] = at[1];
    at += 2;
    goto *labels[*at];
add:
    top--;
    stack[top - 1] += stack[top];
    goto *labels[*++at];
twice:
    stack[top - 1] <<= 1;
    goto *labels[*++at];
call:
    stack[top - 1] = library[at[1]](stack[top - 1]);
    at += 2;
    goto *labels[*at];
swap:
    kept = stack[top - 1];
    stack[top - 1] = stack[top - 2];
    stack[top - 2] = kept;
    goto *labels[*++at];
stop:
    return stack[0];
}

int main(void)
{
    return (int)interpreted(program);
}

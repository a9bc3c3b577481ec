/* An interpreter whose operations go to each other by computed jumps (labels as values, which gcc and clang have). */
#include "bytecode.h"
#include "text.h"

static long interpret(const struct operation_at *code)
{
    static const void *const targets[] = {
        &&set, &&add, &&subtract, &&less, &&branch, &&print, &&call, &&back, &&stop,
    };
    const struct operation_at *at = code, *pending[8];
    long x[8] = { 0 }, done = 0;
    int depth = 0;

#define NEXT do { done++; at++; goto *targets[at->operation]; } while (0)
#define GO(place) do { done++; at = code + (place); goto *targets[at->operation]; } while (0)

    goto *targets[at->operation];
set:
    x[at->a] = at->b;
    NEXT;
add:
    x[at->a] = x[at->b] + x[at->c];
    NEXT;
subtract:
    x[at->a] = x[at->b] - x[at->c];
    NEXT;
less:
    x[at->a] = x[at->b] < x[at->c];
    NEXT;
branch:
    if (x[at->a])
        GO(at->b);
    if (at->c)
        GO(at->c);
    NEXT;
print:
    put_number(x[at->a]);
    put_text("\n");
    NEXT;
call:
    pending[depth++ & 7] = at;
    GO(at->b);
back:
    at = pending[--depth & 7];
    NEXT;
stop:
    return done;
}

int main(void)
{
    put_number(interpret(bytecode));
    put_text(" operations\n");
    return 0;
}

/* longjmp, a coroutine and what an exception does at its end (the unwinder's `eh_return`). */
long save(long *place);
void resume(long *place) __attribute__((noreturn));
void change(long *left, const long *entered);
void leave(int status);

long place[2], caller[2], other[2], stack[128];

__attribute__((noinline)) static void deep(void)
{
    resume(place);
}

int jumped(void)
{
    if (save(place))
        return 5;
    deep();
    return 6;
}

static void coroutine(void)
{
    change(other, caller);
}

int switched(void)
{
    other[0] = (long)coroutine;
    other[1] = (long)(stack + 128);
    change(caller, other);
    return 5;
}

static void landed(void)
{
    leave(5);
}

__attribute__((noinline)) static void raise(void)
{
    __builtin_eh_return(0, (void *)landed);
}

int thrown(void)
{
    raise();
    return 6;
}

/* The third of three: of the commons it has the greatest alignment. */
long shared[1] __attribute__((aligned(64)));

static long state = 11;

static __attribute__((noinline)) long step(long number)
{
    return number - state++;
}

long twice(long number)
{
    return number + number;
}

__attribute__((weak)) long chosen(long number)
{
    return number + 2000;
}

long call(long (*function)(long), long number)
{
    return function(step(number));
}

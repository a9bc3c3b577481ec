/* The second of three: its `twice` gives way to the third's, its `chosen` comes before the third's. */
long shared[4];
long count = 5;

static long state = 7;

static __attribute__((noinline)) long step(long number)
{
    return (number << 1) + state++;
}

__attribute__((weak)) long twice(long number)
{
    return number + 1000;
}

__attribute__((weak)) long chosen(long number)
{
    return number + 1;
}

long next(long number)
{
    shared[0] += number;
    return step(number);
}

/* The first of three files that are one program: a common of all three, a static variable and a static function of one name in
   each, functions that are weak in others. */
long shared[2];
extern long count;
long twice(long number);
long chosen(long number);
long next(long number);
long call(long (*function)(long), long number);

static long state = 3;

static __attribute__((noinline)) long step(long number)
{
    return number + state++;
}

int main(void)
{
    shared[1] = step(4);
    return (int)(call(next, twice(count)) + chosen(shared[1]) + shared[0]);
}

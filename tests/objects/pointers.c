/* Pointers to functions and to data, in constant and in writable data. */
static long twice(long n) { return n + n; }
static long negated(long n) { return -n; }
long same(long n) { return n; }

typedef long (*operation)(long);

const operation constant_table[] = { twice, negated, same };
operation writable_table[2] = { same, twice };
int numbers[4] = { 3, 1, 4, 1 };
int *second_number = &numbers[1];

long apply(unsigned which, long n)
{
    return writable_table[which & 1](constant_table[which % 2](n)) + *second_number;
}

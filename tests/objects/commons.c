/* Commons, zeroed data, and a little initialised data. */
int shared_count;
long shared_table[12];
char shared_letter;
static long hidden[6];
static short initial[3] = { -1, 2, -3 };
__attribute__((aligned(64))) static char buffer[100];

long add_up(int n)
{
    shared_count += n;
    hidden[n & 3] += initial[n & 1];
    buffer[n & 63] = shared_letter;
    return shared_table[n & 7] + hidden[0] + buffer[1];
}

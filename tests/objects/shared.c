/* Commons of several alignments, behind initialised and zeroed data. */
char letter;
long numbers[5];
__attribute__((aligned(64))) int apart;
static short hidden[7];
static int initial[3] = { 1, -2, 3 };
int *first = &initial[0];

long add_up(int n)
{
    hidden[n & 3] += initial[n & 1];
    numbers[n & 3] += letter;
    apart = *first;
    return numbers[1] + hidden[0];
}

/* Pointers by distances from the pc: constant and writable data, functions in a table, a recursion. */
struct node { struct node *left, *right; long value; };

static struct node leaves[2] = { { 0, 0, 3 }, { 0, 0, 4 } };
struct node root = { &leaves[0], &leaves[1], 5 };
static long visits;

static long twice(long n) { return n + n; }
static long negated(long n) { return -n; }
static long (*const operations[])(long) = { twice, negated };

long total(const struct node *at, unsigned which)
{
    if (!at)
        return 0;
    visits++;
    return total(at->left, which) + operations[which & 1](at->value) + total(at->right, which);
}

long start(void) { return total(&root, visits & 1); }

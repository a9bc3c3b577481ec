/* Computed calls of several types, whose pointers come by parameters, members, elements, results, variables and tables. Each
   function by_.. has one; what each may reach is in tests/real/told.py. */
#define APART __attribute__((noinline))

typedef long (*one)(long);
typedef long (*two)(long, long);
typedef void (*act)(long *);
typedef int (*test)(int);

struct shape { const char *name; two area; union { one edges; one corners; } count; };
struct worker { long kept[3]; act steps[2]; const struct shape *shape; struct { long first; act last[2]; } tail[2]; };

static long next(long n) { return n + 1; }
static long opposite(long n) { return -n; }
static long sum(long a, long b) { return a + b; }
static long difference(long a, long b) { return a - b; }
static long product(long a, long b) { return a << (b & 3); }
static void twice(long *p) { *p *= 2; }
static void three(long *p) { *p = 3; }
static int odd(int n) { return n & 1; }
static int even(int n) { return !(n & 1); }

static const two table[] = { sum, difference };
static const struct { int letter; test asked; } rows[] = { { 'o', odd }, { 'e', even } };
const struct shape shapes[] = { { "a", product, { next } }, { "b", sum, { opposite } } };
struct worker workers[2] = { { { 1, 2, 3 }, { twice, three }, shapes, { { 1, { twice, twice } }, { 2, { three, twice } } } },
                             { { 4, 5, 6 }, { three, twice }, shapes + 1, { { 1, { three, twice } }, { 2, { three, twice } } } } };
two current = difference;
one volatile chosen = opposite;
volatile int which = 1;

APART long by_parameter(one f, long n) { return f(n) + f(n + 1); }
APART long by_tail(long n, one f) { return f(n); }
APART long by_member(const struct shape *s) { return s->area(6, 1) + 1; }
APART long by_union(const struct shape *s) { return s->count.edges(4) + 1; }
APART long by_inner(const struct worker *w) { return w->shape->area(9, 2) + 1; }
APART long by_element(struct worker *w, int k) { w->steps[k](w->kept + k); return w->kept[k]; }
APART long by_row(struct worker *w, int j, int k) { w->tail[j].last[k](w->kept); return w->kept[0]; }
APART one pick(int k) { return k ? chosen : next; }
APART long by_result(int k) { return pick(k)(5) + 1; }
APART long by_table(int k) { return table[k](7, 2) + 1; }
APART long by_rows(int k) { return rows[k].asked(7) + 1; }
APART long by_variable(void) { return current(8, 3) + 1; }
APART long by_choice(int k) { return (k ? odd : even)(k) + 1; }
APART long by_stack(int k)
{
    one list[3] = { next, chosen, next };
    return list[k](k) + 1;
}

APART long by_loop(const struct shape *s, const struct shape *end)
{
    long found = 0;
    for (; s != end; s++)
        found += s->area(found, 2) + 1;
    return found;
}

#ifdef UNTOLD
APART long by_number(unsigned long address) { return ((one)address)(7) + 1; }
APART long by_old(long (*f)()) { return f(3L) + 1; }
#else
static long by_number(unsigned long address) { return address ? -6 : 0; }
static long by_old(one f) { return f ? 5 : 0; }
#endif

int main(void)
{
    int k = which;
    long found = by_parameter(chosen, 5) + by_tail(k, chosen) + by_member(shapes + k) + by_union(shapes) + by_inner(workers);
    found += by_element(workers + k, k) + by_row(workers, 0, k) + by_result(k) + by_table(k) + by_rows(k) + by_variable();
    found += by_choice(k) + by_stack(k) + by_loop(shapes, shapes + 2) + by_number((unsigned long)chosen) + by_old(next);
    return (int)(found & 127);
}

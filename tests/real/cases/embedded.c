/* Computed calls by pointers within structures that are seen in several ways: as the structure that they begin with, by a pointer to
   anything, by that to a list within them, by value. Each function by_.. has one or two; tests/real/told.py has what each may reach. */
#define APART __attribute__((noinline))

typedef long (*one)(long);
typedef int (*order)(const void *, const void *);

struct list { struct list *next, *before; };
struct base { const char *name; one run; struct list links; };
struct whole { struct base base; long kept; long (*more)(struct whole *, long); };
struct holder { long number; struct list links; one act; };
struct pair { one act; long number; };

static long next(long n) { return n + 1; }
static long before(long n) { return n - 1; }
static long sum(struct whole *w, long n) { return w->kept + n; }
static long difference(struct whole *w, long n) { return w->kept - n; }
static int rising(const void *a, const void *b) { return (int)(*(const long *)a - *(const long *)b); }
static int falling(const void *a, const void *b) { return (int)(*(const long *)b - *(const long *)a); }

struct whole wholes[2] = { { { "a", next, { 0, 0 } }, 5, sum }, { { "b", before, { 0, 0 } }, 6, difference } };
struct holder holders[2] = { { 1, { 0, 0 }, next }, { 2, { 0, 0 }, before } };
one many[3] = { next, before, next };
volatile int which = 1;

#define HOLDER_OF(place) ((struct holder *)((char *)(place) - __builtin_offsetof(struct holder, links)))

APART long by_base(struct base *b, long n) { return b->run(n) + 1; }
APART long by_pointers(one *list, int count) { return list[count](count) + list[0](1); }
APART long by_value(struct pair given) { return given.act(given.number) + 1; }
APART struct pair made(int k) { return (struct pair){ k ? next : before, k }; }
APART long by_made(int k) { return made(k).act(k) + 2; }

APART long by_whole(struct base *b, long n)
{
    struct whole *w = (struct whole *)b;
    return w->more(w, n) + 1;
}

APART long by_holder(struct list *links)
{
    struct holder *h = HOLDER_OF(links);
    return h->act(3) + h->number;
}

APART long by_anything(void *data, long n)
{
    struct whole *w = data;
    return w->more(w, n) + 1;
}

APART long by_list(struct list *links)
{
    long found = 0;
    for (; links; links = links->next) {
        struct holder *h = HOLDER_OF(links);
        found += h->act(found) + h->number;
    }
    return found;
}

APART long by_stack(long a, long b, long c, long d, long e, long f, long g, long h, one act)
{
    return act(a + b + c + d + e + f + g + h) + 1;
}

APART void by_order(long *list, int count, order compared)
{
    for (int k = 1; k < count; k++)
        for (int at = k; at > 0 && compared(list + at - 1, list + at) > 0; at--) {
            long kept = list[at];
            list[at] = list[at - 1];
            list[at - 1] = kept;
        }
}

int main(void)
{
    int k = which;
    long list[4] = { 3, 1, 2, 0 };
    struct pair given = { many[k], k };
    holders[0].links.next = &holders[1].links;
    by_order(list, 4, k ? rising : falling);
    long found = by_base(&wholes[k].base, 2) + by_whole(&wholes[k].base, 3) + by_anything(wholes, 4) + by_holder(&holders[k].links);
    found += by_list(&holders[0].links) + by_pointers(many, 2) + by_value(given) + by_made(k) + by_stack(1, 2, 3, 4, 5, 6, 7, 8, many[k]);
    return (int)((found + list[0] + list[3] * 7) & 127);
}

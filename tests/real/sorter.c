/* Sorts numbers by the orders that the input names by letters, and prints them, with what the letters make of them. */
#include "orders.h"
#include "text.h"

enum { COUNT = 16 };

static long numbers[COUNT];

static void fill(unsigned long seed)
{
    for (int at = 0; at < COUNT; at++) {
        seed ^= seed << 13;
        seed ^= seed >> 7;
        seed ^= seed << 17;
        numbers[at] = (long)(seed & 1023) - 512;
    }
}

static void sink(long *heap, int root, int count, order before)
{
    for (int child; (child = 2 * root + 1) < count; root = child) {
        if (child + 1 < count && before(heap[child], heap[child + 1]))
            child++;
        if (!before(heap[root], heap[child]))
            return;
        long lower = heap[root];
        heap[root] = heap[child];
        heap[child] = lower;
    }
}

static void sort(long *list, int count, order before)
{
    for (int root = count / 2; root--;)
        sink(list, root, count, before);
    while (count-- > 1) {
        long greatest = list[0];
        list[0] = list[count];
        list[count] = greatest;
        sink(list, 0, count, before);
    }
}

int main(void)
{
    char letter;
    long sum = 0;
    fill(88172645463325252ul);
    while (read_input(&letter, 1) == 1) {
        order before = order_of(letter);
        if (before)
            sort(numbers, COUNT, before);
        for (int at = 0; at < COUNT; at++) {
            put_hex((unsigned)numbers[at]);
            put_text(at + 1 < COUNT ? " " : "\n");
            sum = mixed(letter, sum, numbers[at]);
        }
    }
    put_number(sum);
    put_text("\n");
    return (int)(sum & 127);
}

/*
 * Packs the input, of which it takes 131,072 bytes: a byte of eight flags, lowest first, and then their items. A flag of 0
 * is a literal byte. A flag of 1 repeats what was unpacked before: two bytes with the distance back, lowest first, and one
 * with the length less 3.
 */
#include "system.h"

enum { MOST = 131072, FAR = 65535, SHORT = 3, LONG = 258, HEADS = 16384, TRIES = 8 };

static unsigned char text[MOST], packed[MOST + MOST / 8 + 1];
static int heads[HEADS], before[MOST]; /* the newest place with a hash and the one before each place, plus one */
static long length, written, flags, flag = 8;

static unsigned hash_at(const unsigned char *at)
{
    return ((unsigned)at[0] << 9 ^ (unsigned)at[1] << 5 ^ at[2]) & (HEADS - 1);
}

static void keep(long place)
{
    unsigned hash = hash_at(text + place);
    before[place] = heads[hash];
    heads[hash] = (int)place + 1;
}

static long same_from(long place, long other)
{
    long most = length - place < LONG ? length - place : LONG, count = 0;
    while (count < most && text[place + count] == text[other + count])
        count++;
    return count;
}

static void put(int is_match)
{
    if (flag == 8) {
        flag = 0;
        flags = written++;
        packed[flags] = 0;
    }
    packed[flags] = (unsigned char)(packed[flags] | is_match << flag++);
}

/* The longest match of a place among the last places with its hash, and how far back it is. */
static long longest(long place, long *back)
{
    long best = 0;
    int tries = TRIES;
    for (int other = heads[hash_at(text + place)]; other && tries && place - other < FAR; other = before[other - 1], tries--) {
        long count = same_from(place, other - 1);
        if (count > best) {
            best = count;
            *back = place - (other - 1);
        }
    }
    return best;
}

static long pack_at(long place)
{
    long back = 0, count = place + SHORT <= length ? longest(place, &back) : 0;
    put(count >= SHORT);
    if (count < SHORT) {
        packed[written++] = text[place];
        return 1;
    }
    packed[written++] = (unsigned char)back;
    packed[written++] = (unsigned char)(back >> 8);
    packed[written++] = (unsigned char)(count - SHORT);
    return count;
}

int main(void)
{
    long count;
    while (length < MOST && (count = read_input((char *)text + length, MOST - length)) > 0)
        length += count;
    for (long place = 0; place < length;) {
        long end = place + pack_at(place);
        for (; place < end; place++)
            if (place + SHORT <= length)
                keep(place);
    }
    return write_output((const char *)packed, written) != written;
}

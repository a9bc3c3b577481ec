/* Lamport's bakery: a hart takes a number above all that it sees, and waits for those with a lower one. It counts on one order
   of all loads and stores, which the machine of docs/MACHINE.md has; a memory with another order wants fences here. */
#include "lock.h"

static volatile int choosing[HARTS];
static volatile unsigned long ticket[HARTS];

static int goes_before(int other, int hart)
{
    unsigned long theirs = ticket[other], own = ticket[hart];
    return theirs && (theirs < own || (theirs == own && other < hart));
}

void lock(int hart)
{
    unsigned long last = 0;
    choosing[hart] = 1;
    for (int other = 0; other < HARTS; other++) {
        unsigned long theirs = ticket[other];
        if (theirs > last)
            last = theirs;
    }
    ticket[hart] = last + 1;
    choosing[hart] = 0;
    for (int other = 0; other < HARTS; other++) {
        while (choosing[other])
            continue;
        while (goes_before(other, hart))
            continue;
    }
}

void unlock(int hart) { ticket[hart] = 0; }

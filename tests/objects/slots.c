/* Code that is independent of its position: it takes addresses of what other objects see from the table of addresses, those of
   functions among them. Symbols have the order of their first uses, in which linkers make slots. */
long twice(long n);
long next(long n);
extern long (*chosen)(long);
extern long numbers[4];
extern long total;

long choose(long n)
{
    chosen = n & 1 ? twice : next;
    numbers[n & 3] = chosen(n);
    return total;
}

long twice(long n)
{
    total += n;
    return n + n;
}

long next(long n)
{
    total -= numbers[n & 3];
    return n + 1;
}

long (*chosen)(long);
long numbers[4];
long total;

/* Each function and each datum in a section of its own. */
long first_datum = 0x0123456789abcdef;
long second_datum;
extern long outside(long);

long increase(long n) { return first_datum += n; }
long decrease(long n) { return second_datum -= n; }
long both(long n) { return increase(n) + decrease(n) + outside(n); }

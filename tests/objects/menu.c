/* A loop over a switch that becomes a jump table of addresses, direct calls and tail calls. */
static long last;

__attribute__((noinline)) static long keep(long value) { last = value; return value; }

long choose(const char *steps, long value)
{
    for (; *steps; steps++)
        switch (*steps) {
        case 'a': value += 7; break;
        case 'b': value <<= 3; break;
        case 'c': value = keep(value); break;
        case 'd': value -= 1000; break;
        case 'e': value >>= 2; break;
        case 'f': return keep(~value);
        }
    return value + last;
}

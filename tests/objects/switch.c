/* A switch that becomes a jump table. */
long choose(long which, long value)
{
    switch (which) {
    case 0: return value + 7;
    case 1: return value << 3;
    case 2: return value ^ 0x55;
    case 3: return value - 1000;
    case 4: return value >> 2;
    case 5: return value | 0x700;
    case 6: return ~value;
    default: return 0;
    }
}

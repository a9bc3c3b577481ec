/* What a compiler calls to copy and to fill, also in a program that stands alone. */
typedef unsigned long size;

void *memcpy(void *to, const void *from, size count)
{
    char *next = to;
    for (const char *byte = from; count; count--)
        *next++ = *byte++;
    return to;
}

void *memset(void *to, int value, size count)
{
    for (char *next = to; count; count--)
        *next++ = (char)value;
    return to;
}

void *memmove(void *to, const void *from, size count)
{
    char *target = to;
    const char *source = from;
    if (target < source)
        for (size at = 0; at < count; at++)
            target[at] = source[at];
    else
        for (size at = count; at; at--)
            target[at - 1] = source[at - 1];
    return to;
}

int memcmp(const void *left, const void *right, size count)
{
    const unsigned char *a = left, *b = right;
    for (; count; count--, a++, b++)
        if (*a != *b)
            return *a < *b ? -1 : 1;
    return 0;
}

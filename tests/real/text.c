#include "text.h"

void put_text(const char *text)
{
    const char *end = text;
    while (*end)
        end++;
    write_output(text, end - text);
}

void put_number(long number)
{
    char digits[20], *first = digits + sizeof digits;
    unsigned long left = number < 0 ? 0 - (unsigned long)number : (unsigned long)number;
    if (number < 0)
        put_text("-");
    do
        *--first = (char)('0' + left % 10);
    while (left /= 10);
    write_output(first, digits + sizeof digits - first);
}

void put_hex(unsigned number)
{
    char digits[8];
    for (int at = 7; at >= 0; at--, number >>= 4)
        digits[at] = "0123456789abcdef"[number & 15];
    write_output(digits, sizeof digits);
}

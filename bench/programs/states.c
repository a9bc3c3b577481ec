/*
 * Reads a text letter by letter. Each state is a function that goes on to the next one by a tail call through a table; at the end of
 * a word or a number a function of another table is called; and a switch has a case for each sign.
 */
#include "text.h"

enum { BLANK, LETTER, DIGIT, SIGN, END };

typedef long (*state)(long sum);
typedef long (*judge)(long sum, long value);

static char text[8192];
static const char *at;
static long value, count;

static long in_blank(long sum), in_word(long sum), in_number(long sum), at_sign(long sum), at_end(long sum);

static const state states[] = { in_blank, in_word, in_number, at_sign, at_end };

static long added(long sum, long number) { return sum + number; }
static long turned(long sum, long number) { return (sum << 3 ^ number) & 0xFFFFFF; }
static long halved(long sum, long number) { return (sum >> 1) - number; }
static long kept(long sum, long number) { return number & 1 ? sum : sum + 1; }

static const judge judges[] = { added, turned, halved, kept };

static int kind_of(char letter)
{
    if (!letter)
        return END;
    if (letter == ' ' || letter == '\n')
        return BLANK;
    if (letter >= '0' && letter <= '9')
        return DIGIT;
    return (letter | 32) >= 'a' && (letter | 32) <= 'z' ? LETTER : SIGN;
}

static long judged(long sum)
{
    sum = judges[count++ & 3](sum, value);
    value = 0;
    return sum;
}

static long in_blank(long sum)
{
    at++;
    return states[kind_of(*at)](sum);
}

static long in_word(long sum)
{
    do
        value = (value << 1) + *at++;
    while (kind_of(*at) == LETTER);
    sum = judged(sum);
    return states[kind_of(*at)](sum);
}

static long in_number(long sum)
{
    do
        value = (value << 3) + (value << 1) + (*at++ - '0');
    while (kind_of(*at) == DIGIT);
    sum = judged(sum);
    return states[kind_of(*at)](sum);
}

static long at_sign(long sum)
{
    switch (*at++) {
    case '!': sum ^= 5; break;
    case '"': sum += 34; break;
    case '#': sum -= count; break;
    case '%': sum = sum << 1 & 0xFFFFFF; break;
    case '&': sum &= 0xFFFFF; break;
    case '\'': sum |= 1; break;
    case '(': sum += count << 2; break;
    case ')': sum -= count << 1; break;
    case '*': sum = (sum << 2) - count; break;
    case '+': sum++; break;
    case ',': sum = sum >> 1; break;
    case '-': sum = -sum; break;
    case '.': sum = ~sum; break;
    default: count++;
    }
    return states[kind_of(*at)](sum & 0xFFFFFF);
}

static long at_end(long sum)
{
    return sum;
}

int main(void)
{
    long length = 0, more;
    while (length < (long)sizeof text - 1 && (more = read_input(text + length, (long)sizeof text - 1 - length)) > 0)
        length += more;
    at = text;
    put_hex((unsigned)states[kind_of(*at)](0));
    put_text("\n");
    return 0;
}

/* Sums, products and parentheses, by functions that call each other again. */
#include "grammar.h"

struct reading {
    const char *next, *wrong;
};

static long sum(struct reading *text);

static char seen(struct reading *text)
{
    while (*text->next == ' ')
        text->next++;
    return *text->next;
}

static long failed(struct reading *text)
{
    if (!text->wrong)
        text->wrong = text->next;
    return 0;
}

static long number(struct reading *text)
{
    long value = 0;
    if (seen(text) < '0' || *text->next > '9')
        return failed(text);
    for (; *text->next >= '0' && *text->next <= '9'; text->next++)
        value = value * 10 + (*text->next - '0');
    return value;
}

static long factor(struct reading *text)
{
    long value;
    switch (seen(text)) {
    case '-':
        text->next++;
        return -factor(text);
    case '(':
        text->next++;
        value = sum(text);
        if (seen(text) != ')')
            return failed(text);
        text->next++;
        return value;
    default:
        return number(text);
    }
}

static long product(struct reading *text)
{
    long value = factor(text);
    for (;;) {
        char sign = seen(text);
        if (sign != '*' && sign != '/' && sign != '%')
            return value;
        text->next++;
        long other = factor(text);
        if (sign != '*' && other == 0)
            return failed(text);
        value = sign == '*' ? value * other : sign == '/' ? value / other : value % other;
    }
}

static long sum(struct reading *text)
{
    long value = product(text);
    for (;;) {
        char sign = seen(text);
        if (sign != '+' && sign != '-')
            return value;
        text->next++;
        long other = product(text);
        value = sign == '+' ? value + other : value - other;
    }
}

long value_of(const char *line, const char **wrong)
{
    struct reading text = { line, 0 };
    long value = sum(&text);
    if (seen(&text))
        failed(&text);
    *wrong = text.wrong;
    return value;
}

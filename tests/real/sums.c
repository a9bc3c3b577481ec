/* Sorts the numbers of its input, and tells them with their sum and its root: by a C library. */
#include <math.h>
#include <stdio.h>
#include <stdlib.h>

static int ascending(const void *left, const void *right)
{
    double a = *(const double *)left, b = *(const double *)right;
    return (a > b) - (a < b);
}

int main(void)
{
    size_t count = 0, room = 2;
    double *numbers = malloc(room * sizeof *numbers), sum = 0;
    char line[100], *end;
    while (numbers && fgets(line, sizeof line, stdin)) {
        double number = strtod(line, &end);
        if (end == line)
            continue;
        if (count == room)
            numbers = realloc(numbers, (room *= 2) * sizeof *numbers);
        numbers[count++] = number;
        sum += number;
    }
    qsort(numbers, count, sizeof *numbers, ascending);
    for (size_t at = 0; at < count; at++)
        printf("%2zu %12.5g %a\n", at + 1, numbers[at], numbers[at]);
    printf("sum %.15g %a root %.10f\n", sum, sum, sqrt(sum));
    free(numbers);
    return (int)count;
}

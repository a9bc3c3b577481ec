/* Prints the value of each line of the input, or the column at which it is no sum. */
#include "grammar.h"
#include "text.h"

/* Reads a line of at most size - 1 characters, and answers whether there was one. */
static int read_line(char *line, long size)
{
    long length = 0;
    char letter = 0;
    while (length < size - 1 && read_input(&letter, 1) == 1 && letter != '\n')
        line[length++] = letter;
    line[length] = 0;
    return length > 0 || letter == '\n';
}

int main(void)
{
    char line[96];
    int faults = 0;
    while (read_line(line, sizeof line)) {
        const char *wrong;
        long value = value_of(line, &wrong);
        put_text(wrong ? "wrong at column " : "= ");
        put_number(wrong ? wrong - line + 1 : value);
        put_text("\n");
        faults += wrong != 0;
    }
    return faults;
}

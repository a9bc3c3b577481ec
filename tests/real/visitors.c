/* Takes visitors at a door. The input is a list of commands, each a letter and a byte N:
       n N NAME       the visitor's name, of N bytes
       m N MESSAGE    a message, of N bytes
       g N            greets the visitor, N times
       o N WORD       opens the door, for who knows the word
   Two faults are planted: a name longer than its array overwrites the pointer to the function that greets, and a message
   longer than its array overwrites the address to which its function returns. */
#include "door.h"
#include "text.h"

static void greet_politely(const char *name)
{
    put_text("good evening, ");
    put_text(name);
    put_text("\n");
}

static void greet_briefly(const char *name)
{
    put_text("hi ");
    put_text(name);
    put_text("\n");
}

static struct {
    char name[24];
    void (*greet)(const char *);
} visitor = { "nobody", greet_politely };

/* The first fault: the length is not compared with 24. */
static void take_name(long length)
{
    long count = read_input(visitor.name, length);
    if (count < (long)sizeof visitor.name)
        visitor.name[count] = 0;
    if (count < 4)
        visitor.greet = greet_briefly;
}

/* The second fault: the length is not compared with 24. */
__attribute__((noinline)) static long take_message(long length)
{
    char message[24];
    long sum = 0, count = read_input(message, length);
    for (long at = 0; at < count && at < (long)sizeof message; at++)
        sum += message[at];
    return sum;
}

static int knows_word(long length)
{
    static const char word[] = "sesame";
    char said[8] = { 0 };
    if (length != sizeof word - 1 || read_input(said, length) != length)
        return 0;
    for (long at = 0; at < length; at++)
        if (said[at] != word[at])
            return 0;
    return 1;
}

static void tell(const long *sums, int count)
{
    for (int at = 0; at < count; at++) {
        put_text("message ");
        put_number(sums[at]);
        put_text("\n");
    }
}

int main(void)
{
    long sums[16];
    int messages = 0;
    unsigned char command[2];
    while (messages < 16 && read_input((char *)command, 2) == 2)
        switch (command[0]) {
        case 'n': take_name(command[1]); break;
        case 'm': sums[messages++] = take_message(command[1]); break;
        case 'g':
            for (int times = command[1]; times > 0; times--)
                visitor.greet(visitor.name);
            break;
        case 'o':
            if (knows_word(command[1]))
                open_door();
            break;
        default: put_text("what?\n");
        }
    tell(sums, messages);
    return messages;
}

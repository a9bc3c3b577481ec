/* Strings in read-only data, calls of functions that another object has, and unwind tables. */
extern long put(const char *text, long length);
extern void halt(int status);

static const char greeting[] = "greetings\n";
const char *const words[] = { "one", "two", "three" };

void say(int which)
{
    put(greeting, sizeof greeting - 1);
    put(words[which], 3);
    if (put("done\n", 5) != 5)
        halt(1);
}

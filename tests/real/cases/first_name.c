/* A function that is seen in this file alone, with the name of one of another file. */
static int begin(void) { return 11; }

int (*const kept)(void) = begin;

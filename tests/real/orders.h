/* Whether the first number comes before the second. */
typedef int (*order)(long, long);

/* The order that a letter names, or 0. */
order order_of(char letter);
/* What a letter makes of a sum and a number. */
long mixed(char letter, long sum, long number);

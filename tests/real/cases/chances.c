/* Two computed calls, by a table of three functions and by one of two of them: the tables share functions, so without a policy
   and with a policy for one of them all is one class. */
static int add(int n) { return n + 1; }
static int take(int n) { return n - 1; }
static int keep(int n) { return n; }

int (*const wide[])(int) = { add, take, keep };
int (*const narrow[])(int) = { add, take };

__attribute__((noinline)) int by_wide(int which) { return wide[which](20) + 1; }
__attribute__((noinline)) int by_narrow(int which) { return narrow[which](30) + 1; }

int main(void)
{
    return by_wide(2) + by_narrow(1);
}

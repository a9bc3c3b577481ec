/* Two functions whose starts are aligned. */
static volatile int number = 1;

__attribute__((noinline)) static int twice(int n) { return n * 2; }

int main(void)
{
    return twice(number) + twice(20) + number - 1;
}

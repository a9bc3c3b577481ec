/* Calls the compiler's library for products and sums of floating-point numbers. */
volatile double width = 3.25, height = 8.0;

int main(void)
{
    return (int)(width * height + 0.5);
}

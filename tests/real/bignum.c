/* Numbers of many digits, by libtommath: a factorial, a power and what it leaves, a root and a common divisor. */
#include <stdio.h>
#include <stdlib.h>
#include <tommath.h>

static void tell(const char *what, const mp_int *number)
{
    static char digits[4000];
    if (mp_to_radix(number, digits, sizeof digits, NULL, 10) != MP_OKAY)
        abort();
    printf("%s %s\n", what, digits);
}

int main(void)
{
    mp_int product, power, modulus, result;
    if (mp_init_multi(&product, &power, &modulus, &result, NULL) != MP_OKAY)
        return 1;
    mp_set(&product, 1);
    for (mp_digit factor = 2; factor <= 200; factor++)
        if (mp_mul_d(&product, factor, &product) != MP_OKAY)
            return 1;
    tell("200!", &product);
    mp_set(&power, 3);
    if (mp_expt_u32(&power, 500, &power) != MP_OKAY || mp_2expt(&modulus, 521) != MP_OKAY || mp_decr(&modulus) != MP_OKAY)
        return 1;
    if (mp_exptmod(&power, &product, &modulus, &result) != MP_OKAY)
        return 1;
    tell("power", &result);
    if (mp_sqrt(&product, &result) != MP_OKAY)
        return 1;
    tell("root", &result);
    if (mp_gcd(&product, &power, &result) != MP_OKAY)
        return 1;
    tell("divisor", &result);
    return mp_iszero(&result);
}

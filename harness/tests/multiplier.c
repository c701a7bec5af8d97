/* For the test that finds no multiplication in the library: functions that multiply, each in a way of
 * its own, and, with names in `not_`, some that do without. */

#include <stdint.h>

uint32_t __mulsi3(uint32_t a, uint32_t b);
/* Called through a table of addresses. */
__attribute__((noplt)) uint32_t __muldi3(uint32_t a, uint32_t b);

uint32_t product(uint32_t a, uint32_t b)
{
    return a * b;
}

uint64_t wide_product(uint64_t a, uint64_t b)
{
    return (uint64_t)((unsigned __int128)a * b >> 64);
}

uint8_t product_of_bytes(const uint8_t *a, const uint8_t *b)
{
    return (uint8_t)(*a * *b);
}

double real_product(double a, double b)
{
    return a * b;
}

void products(int16_t *restrict a, const int16_t *restrict b)
{
    for (int at = 0; at < 1024; at++)
        a[at] = (int16_t)(a[at] * b[at]);
}

/* A division by a constant is a multiplication. */
uint32_t tenth(uint32_t a)
{
    return a / 10;
}

uint32_t routine(uint32_t a, uint32_t b)
{
    return __mulsi3(a, b) + 1;
}

/* A jump in the place of a call. */
uint32_t last_routine(uint32_t a, uint32_t b)
{
    return __mulsi3(a, b);
}

uint32_t distant_routine(uint32_t a, uint32_t b)
{
    return __muldi3(a, b) + 1;
}

/* A routine that is here, and multiplies by shifts and adds itself. */
__attribute__((noinline)) uint16_t __mulhi3(uint16_t a, uint16_t b)
{
    uint16_t sum = 0;
    for (; b > 0; b >>= 1) {
        if (b & 1)
            sum += a;
        a <<= 1;
    }
    return sum;
}

uint16_t near_routine(uint16_t a, uint16_t b)
{
    return (uint16_t)(__mulhi3(a, b) + 1);
}

uint32_t not_eight_times(uint32_t a)
{
    return a * 8;
}

uint32_t not_five_times(uint32_t a)
{
    return a * 5;
}

uint16_t not_by_shifts_and_adds(uint16_t a, uint16_t b)
{
    uint16_t sum = 0;
    while (b > 0) {
        sum += b & 1 ? a : 0;
        a <<= 1;
        b >>= 1;
    }
    return sum;
}

/* The primes below 100,000 by the sieve of Eratosthenes: how many there are, their sum, and the last of them. */
#include <stdio.h>

#define LIMIT 100000

static unsigned char composite[LIMIT];

static void strike_out(unsigned prime)
{
    for (unsigned long at = (unsigned long)prime * prime; at < LIMIT; at += prime)
        composite[at] = 1;
}

static void sieve(void)
{
    composite[0] = composite[1] = 1;
    for (unsigned number = 2; number * number < LIMIT; number++)
        if (!composite[number])
            strike_out(number);
}

static unsigned long sum_of_primes(unsigned *count, unsigned *last)
{
    unsigned long sum = 0;
    *count = *last = 0;
    for (unsigned number = 0; number < LIMIT; number++)
        if (!composite[number]) {
            sum += number;
            *last = number;
            ++*count;
        }
    return sum;
}

int main(void)
{
    unsigned count, last;
    sieve();
    unsigned long sum = sum_of_primes(&count, &last);
    printf("%u primes, sum %lu, last %u\n", count, sum, last);
    return 0;
}

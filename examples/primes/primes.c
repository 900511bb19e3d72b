/* How many primes are below the number that the input begins with, by trial division. */
#include <unistd.h>

static int is_prime(unsigned number)
{
    for (unsigned divisor = 2; divisor * divisor <= number; divisor++)
        if (number % divisor == 0)
            return 0;
    return 1;
}

static unsigned primes_below(unsigned limit)
{
    unsigned count = 0;
    for (unsigned number = 2; number < limit; number++)
        count += is_prime(number);
    return count;
}

static unsigned input_number(void)
{
    char text[16];
    ssize_t length = read(0, text, sizeof text);
    unsigned number = 0;
    for (ssize_t i = 0; i < length && text[i] >= '0' && text[i] <= '9'; i++)
        number = number * 10 + (text[i] - '0');
    return number;
}

static void print(unsigned number)
{
    char text[10], *end = text + sizeof text, *start = end;
    do
        *--start = '0' + number % 10;
    while ((number /= 10) > 0);
    write(1, start, end - start);
}

int main(void)
{
    print(primes_below(input_number()));
    return 0;
}

/* Takes the numbers below the one that the input begins with ten by ten, and adds up how many of each ten take the most
   frequent number of Collatz steps. Most of the instructions are in the steps, and most of the stores in the histogram,
   which is cleared for each ten. */
#include <string.h>
#include <unistd.h>

enum { NUMBERS = 10, BINS = 128 };

static unsigned histogram[BINS];

static unsigned steps_from(unsigned number)
{
    unsigned steps = 0;
    for (; number > 1; steps++)
        number = number % 2 ? 3 * number + 1 : number / 2;
    return steps;
}

static unsigned most_frequent(unsigned first)
{
    unsigned most = 0;
    memset(histogram, 0, sizeof histogram);
    for (unsigned number = first; number < first + NUMBERS; number++) {
        unsigned count = ++histogram[steps_from(number) % BINS];
        if (count > most)
            most = count;
    }
    return most;
}

static unsigned input_number(void)
{
    char text[16];
    ssize_t length = read(0, text, sizeof text);
    unsigned number = 0;
    for (ssize_t i = 0; i < length && text[i] >= '0' && text[i] <= '9'; i++)
        number = number * 10 + (text[i] - '0');
    return number;
}

static void print(unsigned number)
{
    char text[10], *end = text + sizeof text, *start = end;
    do
        *--start = '0' + number % 10;
    while ((number /= 10) > 0);
    write(1, start, end - start);
}

int main(void)
{
    unsigned limit = input_number(), sum = 0;
    for (unsigned first = 0; first < limit; first += NUMBERS)
        sum += most_frequent(first);
    print(sum);
    return 0;
}

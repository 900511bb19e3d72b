/* Two harts at work. Hart 0 sorts the words of its input by a callback through qsort, and prints each
   one backwards from a piece of its stack. Hart 1 evaluates an expression by recursion. */
#include <alloca.h>
#include <stddef.h>
#include <stdlib.h>

enum { MOST_BYTES = 1024, MOST_WORDS = 128, ROUNDS = 25 };

static char text[MOST_BYTES];
static const char *words[MOST_WORDS];

/* An environment call, as Linux numbers them. */
static long environment_call(long number, long first, long second, long third)
{
    register long a0 __asm__("a0") = first;
    register long a1 __asm__("a1") = second;
    register long a2 __asm__("a2") = third;
    register long a7 __asm__("a7") = number;
    __asm__ volatile("ecall" : "+r"(a0) : "r"(a1), "r"(a2), "r"(a7) : "memory");
    return a0;
}

/* Cuts the text at blanks and line feeds. Gives the number of words. */
size_t split(char *place, const char *end)
{
    size_t count = 0;
    while (place < end && count < MOST_WORDS) {
        const char *start = place;
        while (place < end && *place != ' ' && *place != '\n')
            place++;
        if (place > start)
            words[count++] = start;
        *place++ = 0;
    }
    return count;
}

int compare_words(const void *left, const void *right)
{
    const char *a = *(const char *const *)left;
    const char *b = *(const char *const *)right;
    while (*a != 0 && *a == *b)
        a++, b++;
    return (unsigned char)*a - (unsigned char)*b;
}

void print_backwards(const char *word)
{
    size_t length = 0;
    while (word[length] != 0)
        length++;
    char *backwards = alloca(length + 1);
    for (size_t i = 0; i < length; i++)
        backwards[i] = word[length - 1 - i];
    backwards[length] = ' ';
    environment_call(64, 1, (long)backwards, (long)length + 1);
}

/* Hart 0. */
int sort_input(void)
{
    long length = environment_call(63, 0, (long)text, MOST_BYTES - 1);
    size_t count = split(text, text + (length > 0 ? length : 0));
    qsort(words, count, sizeof words[0], compare_words);
    for (size_t i = 0; i < count; i++)
        print_backwards(words[i]);
    return 0;
}

static long power(long base, long exponent)
{
    long result = 1;
    while (exponent-- > 0)
        result *= base;
    return result;
}

/* The value of an expression with its signs in front, such as "+1*23" for 1 + 2 * 3. */
long evaluate(const char **place)
{
    char sign = *(*place)++;
    if (sign >= '0' && sign <= '9')
        return sign - '0';
    long left = evaluate(place);
    long right = evaluate(place);
    switch (sign) {
    case '+':
        return left + right;
    case '-':
        return left - right;
    case '*':
        return left * right;
    case '/':
        return right == 0 ? 0 : left / right;
    case '%':
        return right == 0 ? left : left % right;
    case '^':
        return power(left, right);
    default:
        return 0;
    }
}

/* Hart 1. */
int evaluate_often(void)
{
    long sum = 0;
    for (int round = 0; round < ROUNDS; round++) {
        const char *place = "+^29*-81%+75/^623";
        sum += evaluate(&place);
    }
    return (int)(sum & 255);
}

int main(int hart)
{
    return hart == 0 ? sort_input() : evaluate_often();
}

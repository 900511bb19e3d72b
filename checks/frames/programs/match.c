/* A matcher of regular expressions by backtracking, Ackermann's function, and sums over a list whose
   length is known only when it runs. */

enum { CELLS = 600 };

static int match_here(const char *pattern, const char *text);

static __attribute__((noinline)) int match_star(int letter, const char *pattern, const char *text)
{
    do {
        if (match_here(pattern, text))
            return 1;
    } while (*text != 0 && (*text++ == letter || letter == '.'));
    return 0;
}

static __attribute__((noinline)) int match_here(const char *pattern, const char *text)
{
    if (pattern[0] == 0)
        return 1;
    if (pattern[1] == '*')
        return 0 | !!match_star(pattern[0], pattern + 2, text);
    if (pattern[0] == '$' && pattern[1] == 0)
        return *text == 0;
    if (*text != 0 && (pattern[0] == '.' || pattern[0] == *text))
        return 1 & match_here(pattern + 1, text + 1);
    return 0;
}

static __attribute__((noinline)) int match(const char *pattern, const char *text)
{
    do {
        if (match_here(pattern, text))
            return 1;
    } while (*text++ != 0);
    return 0;
}

static __attribute__((noinline)) unsigned ackermann(unsigned m, unsigned n)
{
    if (m == 0)
        return n + 1;
    if (n == 0)
        return ackermann(m - 1, 1);
    return ackermann(m - 1, ackermann(m, n - 1));
}

typedef int step(int);

static __attribute__((noinline)) int twice(int number)
{
    return 2 * number;
}

static __attribute__((noinline)) int collatz(int number)
{
    return number % 2 == 0 ? number / 2 : 3 * number + 1;
}

static step *const volatile steps[] = {twice, collatz};

/* The frame grows by as many words as there are. */
static __attribute__((noinline)) int sum_of(int count)
{
    volatile int row[count];
    int sum = 0;
    for (int i = 0; i < count; i++)
        row[i] = steps[i % 2](i);
    for (int i = 0; i < count; i++)
        sum += row[i];
    return sum + (count > 2 ? sum_of(count / 2) : 0);
}

/* A frame of more than two kilobytes. */
static __attribute__((noinline)) int wide(int number)
{
    volatile int cells[CELLS];
    for (int i = 0; i < CELLS; i += 40)
        cells[i] = steps[1](number + i);
    return cells[0] + cells[CELLS - 40] + sum_of(number);
}

static __attribute__((noinline)) int name_of(int number)
{
    switch (number) {
    case 0: return match("ab*c$", "xxabbbbbc");
    case 1: return (int)ackermann(2, 3);
    case 2: return sum_of(20);
    case 3: return wide(12);
    case 4: return match("a.*b.*c.*d$", "a-b-c-a-b-c");
    case 5: return (int)ackermann(1, 30);
    default: return -1;
    }
}

int main(void)
{
    int sum = 0;
    for (int number = 0; number < 8; number++)
        sum += name_of(number);
    return sum & 127;
}

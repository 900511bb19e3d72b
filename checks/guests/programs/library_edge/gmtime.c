// Each hart prints: gmtime 2000-02-29 12:34:56, Tue Feb 29 12:34:56 2000
#include <stdio.h>
#include <string.h>
#include <time.h>

int main(void)
{
    time_t seconds = 951827696;
    struct tm *parts = gmtime(&seconds);
    char text[32], *words = asctime(parts);
    strftime(text, sizeof text, "%Y-%m-%d %H:%M:%S", parts);
    words[strlen(words) - 1] = '\0';
    printf("gmtime %s, %s\n", text, words);
    return 0;
}

// Each hart prints: malloc none, 12, then some
#include <errno.h>
#include <stdio.h>
#include <stdlib.h>
#include <string.h>

int main(void)
{
    size_t bytes = (size_t)1 << 30;
    char *volatile place = malloc(bytes);
    int error = errno;
    char *some = malloc(100);
    memset(some, 1, 100);
    printf("malloc %s, %d, then %s\n", place == NULL ? "none" : "some", error, some == NULL ? "none" : "some");
    free(some);
    return 0;
}

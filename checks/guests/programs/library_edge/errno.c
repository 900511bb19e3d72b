// Each hart prints: errno 0 9 34 22 own
#include <errno.h>
#include <signal.h>
#include <stdio.h>
#include <stdlib.h>
#include <string.h>
#include <unistd.h>

int main(int hart)
{
    char byte;
    int first = errno;
    int bad_descriptor = read(7, &byte, 1) == -1 ? errno : 0;
    errno = 0;
    strtol("99999999999", NULL, 10);
    int range = errno;
    int invalid = signal(1000, SIG_DFL) == SIG_ERR ? errno : 0;
    int is_own = 1;
    errno = 1000 + hart;
    for (int turn = 0; turn < 20000; turn++)
        is_own &= errno == 1000 + hart;
    printf("errno %d %d %d %d %s\n", first, bad_descriptor, range, invalid, is_own ? "own" : "shared");
    return 0;
}

// Each hart prints: clock -1, time -1, gettimeofday -1 and 88, times -1, sleep 5
#include <errno.h>
#include <stdio.h>
#include <sys/time.h>
#include <sys/times.h>
#include <time.h>
#include <unistd.h>

int main(void)
{
    struct timeval now;
    struct tms used;
    int answer = gettimeofday(&now, NULL), error = errno;
    printf("clock %ld, time %ld, gettimeofday %d and %d, times %ld, sleep %u\n", (long)clock(), (long)time(NULL),
           answer, error, (long)times(&used), sleep(5));
    return 0;
}

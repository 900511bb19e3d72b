// Each hart prints: signal 2 calls, 15 was the last, the default is back
#include <signal.h>
#include <stdio.h>
#include <unistd.h>

static _Thread_local int calls, last;

static void count(int number)
{
    calls++;
    last = number;
}

int main(void)
{
    signal(SIGINT, SIG_IGN);
    raise(SIGINT);
    signal(SIGUSR1, count);
    raise(SIGUSR1);
    signal(SIGTERM, count);
    kill(getpid(), SIGTERM);
    const char *handler = signal(SIGTERM, SIG_IGN) == SIG_DFL ? "the default" : "a handler";
    printf("signal %d calls, %d was the last, %s is back\n", calls, last, handler);
    return 0;
}

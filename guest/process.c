/* The process, which is the program itself: its identity, its end by a signal, and its lack of a clock. */
#include <errno.h>
#include <signal.h>
#include <stdlib.h>
#include <sys/time.h>
#include <sys/times.h>
#include <sys/types.h>
#include <unistd.h>

#include "guest.h"

enum { OWN_PID = 1 };

static int fail(int error)
{
    errno = error;
    return -1;
}

LIBRARY pid_t getpid(void)
{
    return OWN_PID;
}

/* What POSIX has for a signal without a handler: to pass it over, or to end the program, here with a shell's status. */
static void act_by_default(int number)
{
    if (number != SIGCHLD && number != SIGCONT && number != SIGURG && number != SIGWINCH)
        _exit(128 + number);
}

/* Calls the signal's handler, which is the default from then on, as picolibc's raise has it. */
LIBRARY int kill(pid_t process, int signal_number)
{
    if (signal_number < 0 || signal_number >= NSIG)
        return fail(EINVAL);
    if (process != OWN_PID && process != 0 && process != -1 && process != -OWN_PID)
        return fail(ESRCH);
    if (signal_number == 0)
        return 0;
    void (*handler)(int) = signal(signal_number, SIG_DFL);
    if (handler == SIG_IGN)
        signal(signal_number, SIG_IGN);
    else if (handler != SIG_DFL)
        handler(signal_number);
    else
        act_by_default(signal_number);
    return 0;
}

/* The machine has no clock, so clock and time give -1 too. */
LIBRARY clock_t times(struct tms *used)
{
    (void)used;
    return (clock_t)fail(ENOSYS);
}

LIBRARY int gettimeofday(struct timeval *restrict time, void *restrict zone)
{
    (void)time, (void)zone;
    return fail(ENOSYS);
}

/* The seconds that were not slept. */
LIBRARY unsigned sleep(unsigned seconds)
{
    return seconds;
}

/* The machine has no source of chance either. */
LIBRARY int getentropy(void *place, size_t length)
{
    (void)place, (void)length;
    return fail(ENOSYS);
}

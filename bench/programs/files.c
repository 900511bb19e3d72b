/* A system without files, other processes and a clock, for libraries that ask for them. */
#include <errno.h>
#include <sys/stat.h>
#include <sys/time.h>
#include <sys/types.h>

static int none(void) { errno = ENOENT; return -1; }

int open(const char *name, int flags, ...) { (void)name, (void)flags; return none(); }
int close(int descriptor) { (void)descriptor; return 0; }
off_t lseek(int descriptor, off_t to, int from) { (void)descriptor, (void)to, (void)from; return none(); }
int fstat(int descriptor, struct stat *status) { (void)descriptor, (void)status; return none(); }
int unlink(const char *name) { (void)name; return none(); }
int rename(const char *from, const char *to) { (void)from, (void)to; return none(); }
int gettimeofday(struct timeval *time, void *zone) { (void)zone; time->tv_sec = time->tv_usec = 0; return 0; }
clock_t times(void *buffer) { (void)buffer; return 0; }
int getpid(void) { return 1; }
int kill(int process, int number) { (void)process, (void)number; return none(); }

// Each hart prints: calls fail as POSIX has it
#include <errno.h>
#include <fcntl.h>
#include <signal.h>
#include <stdio.h>
#include <stdlib.h>
#include <sys/stat.h>
#include <sys/wait.h>
#include <unistd.h>

static int failures;

#define FAILS(error, call)                                                            \
    do {                                                                              \
        errno = 0;                                                                    \
        if ((long)(call) != -1 || errno != (error)) {                                 \
            printf("%s: errno %d, and not %d\n", #call, errno, (error));              \
            failures++;                                                               \
        }                                                                             \
    } while (0)

int main(void)
{
    struct stat status;
    char text[8];
    FAILS(ENOENT, open("none", O_RDONLY));
    FAILS(EROFS, open("none", O_WRONLY | O_CREAT, 0600));
    FAILS(EBADF, close(3));
    FAILS(ESPIPE, lseek(0, 0, SEEK_SET));
    FAILS(EBADF, lseek(-1, 0, SEEK_SET));
    FAILS(EBADF, fstat(3, &status));
    FAILS(ENOENT, stat("none", &status));
    FAILS(ENOENT, unlink("none"));
    FAILS(ENOENT, link("none", "other"));
    FAILS(ENOENT, rename("none", "other"));
    FAILS(ENOENT, access("none", R_OK));
    FAILS(EROFS, mkdir("none", 0700));
    FAILS(EBADF, write(3, "text", 4));
    FAILS(EFAULT, write(1, (char *)16, 4));
    FAILS(ENOSYS, fork());
    FAILS(ENOSYS, wait(NULL));
    FAILS(ENOSYS, pipe((int[2]){0}));
    FAILS(ENOENT, execv("none", (char *[]){NULL}));
    FAILS(EINVAL, sysconf(1000));
    FAILS(ESRCH, kill(77, SIGTERM));
    FAILS(EINVAL, kill(getpid(), 1000));
    FAILS(ENOMEM, sbrk(1 << 30));
    if (isatty(1) || errno != ENOTTY || fstat(1, &status) != 0 || !S_ISFIFO(status.st_mode) || close(1) != 0)
        failures++;
    if (getcwd(text, sizeof text) != NULL || getpid() != 1 || getuid() != 0 || kill(getpid(), 0) != 0)
        failures++;
    puts(failures == 0 ? "calls fail as POSIX has it" : "calls fail otherwise");
    return 0;
}

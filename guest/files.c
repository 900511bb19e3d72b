/* Files: there are none but the input and the output, which are streams without a position. */
#include <errno.h>
#include <fcntl.h>
#include <stdio.h>
#include <string.h>
#include <sys/stat.h>
#include <unistd.h>

#include "guest.h"

static int fail(int error)
{
    errno = error;
    return -1;
}

/* What a call gives that none of the descriptors takes. */
static int refuse(int descriptor, int error)
{
    return fail(descriptor >= 0 && descriptor < DESCRIPTORS ? error : EBADF);
}

LIBRARY int open(const char *path, int flags, ...)
{
    (void)path;
    return fail(flags & O_CREAT ? EROFS : ENOENT);
}

/* Nothing is closed: who reads the input or writes the output after it still does. */
LIBRARY int close(int descriptor)
{
    return descriptor >= 0 && descriptor < DESCRIPTORS ? 0 : fail(EBADF);
}

LIBRARY off_t lseek(int descriptor, off_t offset, int whence)
{
    (void)offset, (void)whence;
    return refuse(descriptor, ESPIPE);
}

LIBRARY int fstat(int descriptor, struct stat *status)
{
    if (descriptor < 0 || descriptor >= DESCRIPTORS)
        return fail(EBADF);
    memset(status, 0, sizeof *status);
    status->st_mode = S_IFIFO | (descriptor == 0 ? S_IRUSR : S_IWUSR);
    status->st_nlink = 1;
    return 0;
}

LIBRARY int isatty(int descriptor)
{
    refuse(descriptor, ENOTTY);
    return 0;
}

LIBRARY int fsync(int descriptor)
{
    return refuse(descriptor, EINVAL);
}

LIBRARY int ftruncate(int descriptor, off_t length)
{
    (void)length;
    return refuse(descriptor, EINVAL);
}

/* As in the C standard, by what picolibc has of it. */
LIBRARY int fgetpos(FILE *stream, fpos_t *position)
{
    off_t found = ftello(stream);
    *position = found;
    return found < 0 ? -1 : 0;
}

LIBRARY int fsetpos(FILE *stream, fpos_t *position)
{
    return fseeko(stream, (off_t)*position, SEEK_SET);
}

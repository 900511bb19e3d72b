// Each hart prints: nothing that is looked at
#include <errno.h>
#include <stdio.h>

/* Ends by 0 where stdout says that the output of 1,048,576 bytes is full. */
int main(void)
{
    int length = 0, printed = 0;
    while (length < 2000000 && (printed = printf("%063d\n", 1)) == 64)
        length += printed;
    int error = errno;
    return printed < 0 && error == ENOSPC && length <= 1048576 && puts("more") == EOF ? 0 : 1;
}

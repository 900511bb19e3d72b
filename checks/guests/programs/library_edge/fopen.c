// Each hart prints: fopen none and 2, none and 30; fdopen 6 and 0
#include <errno.h>
#include <stdio.h>

int main(void)
{
    int reads = fopen("/etc/passwd", "r") != NULL, reading = errno;
    int writes = fopen("new", "w") != NULL, writing = errno;
    FILE *output = fdopen(1, "w");
    int length = output == NULL ? -1 : fprintf(output, "%s", "");
    length += fileno(output) == 1 ? 6 : 0;
    int closed = fclose(output);
    printf("fopen %s and %d, %s and %d; fdopen %d and %d\n", reads ? "some" : "none", reading,
           writes ? "some" : "none", writing, length, closed);
    return 0;
}

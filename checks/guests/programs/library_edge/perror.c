// Each hart prints: perror: Bad file number
#include <stdio.h>
#include <unistd.h>

int main(void)
{
    lseek(9, 0, SEEK_SET);
    perror("perror");
    return 0;
}

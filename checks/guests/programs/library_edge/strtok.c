// Each hart prints: strtok 2000 words, the last is z
#include <stdio.h>
#include <string.h>

static char texts[64][4001];

int main(int hart)
{
    char *text = texts[hart], *last = "";
    for (int word = 0; word < 2000; word++)
        strcpy(text + 2 * word, word % 2 == 0 ? "a," : "z;");
    int words = 0;
    for (char *word = strtok(text, ",;"); word != NULL; word = strtok(NULL, ",;"), words++)
        last = word;
    printf("strtok %d words, the last is %s\n", words, last);
    return 0;
}

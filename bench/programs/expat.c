/* Parses the input, an XML document, round and round, and counts its elements and its text. */
#include <stdio.h>
#include <unistd.h>
#include "expat.h"

struct counts {
    unsigned elements, attributes, characters;
};

static void XMLCALL start(void *data, const XML_Char *name, const XML_Char **attributes) {
    struct counts *counts = data;
    (void)name;
    counts->elements++;
    for (int i = 0; attributes[i]; i += 2)
        counts->attributes++;
}
static void XMLCALL characters(void *data, const XML_Char *text, int length) {
    struct counts *counts = data;
    (void)text;
    counts->characters += (unsigned)length;
}

int main(void) {
    static char text[1 << 20];
    size_t length = 0;
    ssize_t count;
    while ((count = read(0, text + length, sizeof text - length)) > 0)
        length += (size_t)count;
    for (int round = 0; round < 1000; round++) {
        struct counts counts = { 0, 0, 0 };
        XML_Parser parser = XML_ParserCreateNS(NULL, '|');
        if (!parser)
            return 1;
        XML_SetUserData(parser, &counts);
        XML_SetStartElementHandler(parser, start);
        XML_SetCharacterDataHandler(parser, characters);
        if (XML_Parse(parser, text, (int)length, 1) != XML_STATUS_OK) {
            puts(XML_ErrorString(XML_GetErrorCode(parser)));
            return 2;
        }
        XML_ParserFree(parser);
        printf("%u elements, %u attributes, %u characters\n", counts.elements, counts.attributes, counts.characters);
    }
    return 0;
}

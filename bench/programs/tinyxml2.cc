// Parses the input, an XML document, into a tree, counts its elements, adds to it and prints it again, round and round.
#include <stdio.h>
#include <unistd.h>
#include "tinyxml2.h"

using namespace tinyxml2;

class Counts : public XMLVisitor {
public:
    unsigned elements = 0, attributes = 0, characters = 0;

    bool VisitEnter(const XMLElement &, const XMLAttribute *first) override
    {
        elements++;
        for (const XMLAttribute *attribute = first; attribute; attribute = attribute->Next())
            attributes++;
        return true;
    }

    bool Visit(const XMLText &text) override
    {
        characters += static_cast<unsigned>(strlen(text.Value()));
        return true;
    }
};

static bool round_of(const char *text, size_t length, unsigned number)
{
    XMLDocument document;
    if (document.Parse(text, length) != XML_SUCCESS) {
        puts(document.ErrorStr());
        return false;
    }
    XMLElement *added = document.NewElement("round");
    added->SetAttribute("number", number);
    added->SetText(number * 1.5);
    document.RootElement()->InsertEndChild(added);
    Counts counts;
    document.Accept(&counts);
    XMLPrinter printer;
    document.Print(&printer);
    printf("%u elements, %u attributes, %u characters, %d printed\n", counts.elements, counts.attributes,
           counts.characters, printer.CStrSize());
    return true;
}

int main()
{
    static char text[1 << 20];
    size_t length = 0;
    ssize_t count;
    while ((count = read(0, text + length, sizeof text - length)) > 0)
        length += static_cast<size_t>(count);
    for (unsigned number = 0; number < 300; number++)
        if (!round_of(text, length, number))
            return 1;
    return 0;
}

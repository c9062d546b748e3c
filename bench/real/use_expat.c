/* Reads XML, and counts elements, attributes and text. */
#include "layer.h"
#include "expat.h"
#include <string.h>

static unsigned elements, attributes, letters, depth, deepest, names;

static void XMLCALL begin(void *data, const XML_Char *name, const XML_Char **values)
{
    (void)data;
    elements++;
    if (++depth > deepest)
        deepest = depth;
    while (*name)
        names = names * 31 + *name++;
    for (; *values; values += 2)
        attributes++;
}

static void XMLCALL end(void *data, const XML_Char *name)
{
    (void)data, (void)name;
    depth--;
}

static void XMLCALL text(void *data, const XML_Char *bytes, int count)
{
    (void)data;
    while (count--)
        letters += *bytes++ > ' ';
}

int main(void)
{
    unsigned count = read_input();
    XML_Parser parser = XML_ParserCreate("UTF-8");
    XML_SetHashSalt(parser, 1);
    XML_SetElementHandler(parser, begin, end);
    XML_SetCharacterDataHandler(parser, text);
    int status = XML_Parse(parser, input, count, 1);
    put_line("status", status);
    put_line("at", XML_GetCurrentByteIndex(parser));
    put_line("elements", elements);
    put_line("attributes", attributes);
    put_line("letters", letters);
    put_line("deepest", deepest);
    put_line("names", names);
    return 0;
}

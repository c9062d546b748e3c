/* Turns Markdown into HTML. */
#include "layer.h"
#include "md4c-html.h"

static char page[4 * ROOM];
static unsigned length;

static void add(const MD_CHAR *text, MD_SIZE count, void *data)
{
    (void)data;
    for (unsigned k = 0; k < count && length < sizeof page; k++)
        page[length++] = text[k];
}

int main(void)
{
    unsigned count = read_input();
    length = 0;
    int status = md_html(input, count, add, 0, MD_DIALECT_GITHUB, 0);
    put_bytes(page, length);
    return -status;
}

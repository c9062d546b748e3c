/* Reads JSON into tokens, and sums them up by type. */
#include "layer.h"
#define JSMN_PARENT_LINKS
#include "jsmn.h"

enum { TOKENS = 8192 };
static jsmntok_t tokens[TOKENS];
static jsmn_parser parser;
static unsigned sums[16];

static unsigned hash(const jsmntok_t *token)
{
    unsigned sum = 0;
    for (int at = token->start; at < token->end; at++)
        sum = sum * 33 ^ input[at];
    return sum;
}

int main(void)
{
    unsigned count = read_input();
    jsmn_init(&parser);
    int found = jsmn_parse(&parser, input, count, tokens, TOKENS);
    put_line("tokens", found);
    for (int k = 0; k < found; k++)
        sums[tokens[k].type & 15] += tokens[k].type & (JSMN_STRING | JSMN_PRIMITIVE) ? hash(&tokens[k]) : tokens[k].size;
    for (int k = 0; k < 16; k++)
        put_line("sum", sums[k]);
    return 0;
}

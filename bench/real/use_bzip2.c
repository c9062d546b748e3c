/* Compresses its input and decompresses what came of it. */
#include "layer.h"
#include "bzlib.h"
#include <string.h>

static char packed[ROOM + ROOM / 8 + 600], unpacked[ROOM];

void bz_internal_error(int code)
{
    put_line("error", code);
}

int main(void)
{
    unsigned count = read_input(), packed_count = sizeof packed, unpacked_count = ROOM;
    if (BZ2_bzBuffToBuffCompress(packed, &packed_count, input, count, 1, 0, 30) != BZ_OK)
        return 2;
    put_line("packed", packed_count);
    put_bytes(packed, packed_count);
    if (BZ2_bzBuffToBuffDecompress(unpacked, &unpacked_count, packed, packed_count, 0, 0) != BZ_OK)
        return 3;
    return unpacked_count == count && memcmp(input, unpacked, count) == 0 ? 0 : 1;
}

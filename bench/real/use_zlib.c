/* Compresses its input, decompresses what came of it, and sums both up. */
#include "layer.h"
#include "zlib.h"
#include <string.h>

static unsigned char packed[ROOM + ROOM / 8 + 64], unpacked[ROOM];

int main(void)
{
    unsigned long count = read_input(), packed_count = sizeof packed, unpacked_count = ROOM;
    if (compress2(packed, &packed_count, (const unsigned char *)input, count, 6) != Z_OK)
        return 2;
    put_line("packed", packed_count);
    put_bytes(packed, packed_count);
    put_line("crc", crc32(0, packed, packed_count));
    if (uncompress(unpacked, &unpacked_count, packed, packed_count) != Z_OK)
        return 3;
    put_line("crc", crc32(0, unpacked, unpacked_count));
    return unpacked_count == count && memcmp(input, unpacked, count) == 0 ? 0 : 1;
}

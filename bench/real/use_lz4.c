/* Compresses its input, in two ways, and decompresses what came of it. */
#include "layer.h"
#include "lz4.h"
#include "lz4hc.h"
#include <string.h>

static LZ4_stream_t fast;
static LZ4_streamHC_t slow;
static char packed[LZ4_COMPRESSBOUND(ROOM)], unpacked[ROOM];

static int same(int count, int packed_count)
{
    return LZ4_decompress_safe(packed, unpacked, packed_count, ROOM) == count && memcmp(input, unpacked, count) == 0;
}

int main(void)
{
    int count = read_input();
    int first = LZ4_compress_fast_extState(&fast, input, packed, count, sizeof packed, 1);
    put_line("fast", first);
    int right = same(count, first);
    int second = LZ4_compress_HC_extStateHC(&slow, input, packed, count, sizeof packed, 4);
    put_line("slow", second);
    put_bytes(packed, second);
    return right && same(count, second) ? 0 : 1;
}

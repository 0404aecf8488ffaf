/* Packs by four threads of xz, and unpacks by four. */
#include "round_trip.h"

#include <windows.h>

#include "lzma.h"

int main(void)
{
    unsigned char *bytes = bytes_to_pack(), *packed = malloc(BYTES * 2), *again = malloc(BYTES);
    lzma_stream stream = LZMA_STREAM_INIT;
    lzma_mt how = { .threads = 4, .block_size = 1 << 20, .preset = 0, .check = LZMA_CHECK_CRC32 };
    must(lzma_stream_encoder_mt(&stream, &how) == LZMA_OK, "lzma_stream_encoder_mt");
    stream.next_in = bytes;
    stream.avail_in = BYTES;
    stream.next_out = packed;
    stream.avail_out = BYTES * 2;
    must(lzma_code(&stream, LZMA_FINISH) == LZMA_STREAM_END, "packing");
    const size_t size = stream.total_out;
    lzma_end(&stream);
    how = (lzma_mt){ .threads = 4, .memlimit_threading = UINT64_MAX, .memlimit_stop = UINT64_MAX };
    must(lzma_stream_decoder_mt(&stream, &how) == LZMA_OK, "lzma_stream_decoder_mt");
    stream.next_in = packed;
    stream.avail_in = size;
    stream.next_out = again;
    stream.avail_out = BYTES;
    must(lzma_code(&stream, LZMA_FINISH) == LZMA_STREAM_END, "unpacking");
    must(stream.total_out == BYTES && memcmp(again, bytes, BYTES) == 0, "what is unpacked");
    lzma_end(&stream);
    puts("2 passed, 0 failed");
    return 0;
}

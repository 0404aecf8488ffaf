/* Packs by four of zstd's threads, and unpacks again. */
#include "round_trip.h"

#define ZSTD_STATIC_LINKING_ONLY
#include "zstd.h"

int main(void)
{
    unsigned char *bytes = bytes_to_pack(), *again = malloc(BYTES);
    const size_t room = ZSTD_compressBound(BYTES);
    void *packed = malloc(room);
    ZSTD_CCtx *context = ZSTD_createCCtx();
    must(!ZSTD_isError(ZSTD_CCtx_setParameter(context, ZSTD_c_nbWorkers, 4)), "ZSTD_c_nbWorkers");
    must(!ZSTD_isError(ZSTD_CCtx_setParameter(context, ZSTD_c_jobSize, 1 << 20)), "ZSTD_c_jobSize");
    for (int level = 1; level <= 5; level += 2) {
        ZSTD_CCtx_setParameter(context, ZSTD_c_compressionLevel, level);
        const size_t size = ZSTD_compress2(context, packed, room, bytes, BYTES);
        must(!ZSTD_isError(size), "ZSTD_compress2");
        memset(again, 0, BYTES);
        must(ZSTD_decompress(again, BYTES, packed, size) == BYTES && memcmp(again, bytes, BYTES) == 0, "ZSTD_decompress");
    }
    ZSTD_freeCCtx(context);
    puts("3 passed, 0 failed");
    return 0;
}

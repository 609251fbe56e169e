/* One number for a whole table, so that two tables can be compared by eye. */
#ifndef DIGEST_H
#define DIGEST_H

#include <stddef.h>
#include <stdint.h>

/* FNV-1a, 64 bits, over the bytes of links and points with the low byte first. */
static inline uint64_t digest(const uint16_t *links, size_t links_n, const int32_t *points, size_t points_n) {
    uint64_t d = 0xCBF29CE484222325u;
    for (size_t i = 0; i < 2 * links_n; i++) d = (d ^ ((links[i / 2] >> (8 * (i % 2))) & 0xFF)) * 0x100000001B3u;
    for (size_t i = 0; i < 4 * points_n; i++)
        d = (d ^ (((uint32_t)points[i / 4] >> (8 * (i % 4))) & 0xFF)) * 0x100000001B3u;
    return d;
}

#endif

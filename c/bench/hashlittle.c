/* The baseline of the checksum (rust/bench): Bob Jenkins' lookup3 `hashlittle` in plain C, written anew from his
 * published algorithm (lookup3.c, May 2006, public domain). Words of 32 bits are loaded by memcpy, which a
 * compiler turns into one load; the machine must be little-endian. The tail is his: a switch on the number of
 * bytes left that adds only bytes of the key. */
#include <stddef.h>
#include <stdint.h>
#include <string.h>

#define rot(x, k) (((x) << (k)) | ((x) >> (32 - (k))))

#define mix(a, b, c)                        \
    {                                       \
        a -= c; a ^= rot(c, 4);  c += b;    \
        b -= a; b ^= rot(a, 6);  a += c;    \
        c -= b; c ^= rot(b, 8);  b += a;    \
        a -= c; a ^= rot(c, 16); c += b;    \
        b -= a; b ^= rot(a, 19); a += c;    \
        c -= b; c ^= rot(b, 4);  b += a;    \
    }

#define final(a, b, c)            \
    {                             \
        c ^= b; c -= rot(b, 14);  \
        a ^= c; a -= rot(c, 11);  \
        b ^= a; b -= rot(a, 25);  \
        c ^= b; c -= rot(b, 16);  \
        a ^= c; a -= rot(c, 4);   \
        b ^= a; b -= rot(a, 14);  \
        c ^= b; c -= rot(b, 24);  \
    }

static inline uint32_t word(const uint8_t *k)
{
    uint32_t w;
    memcpy(&w, k, 4);
    return w;
}

uint32_t hashlittle(const uint8_t *k, size_t length, uint32_t initval)
{
    uint32_t a, b, c;
    a = b = c = 0xdeadbeef + (uint32_t)length + initval;

    while (length > 12) {
        a += word(k);
        b += word(k + 4);
        c += word(k + 8);
        mix(a, b, c);
        length -= 12;
        k += 12;
    }

    switch (length) { /* each case falls through to the next */
    case 12: c += word(k + 8); b += word(k + 4); a += word(k); break;
    case 11: c += (uint32_t)k[10] << 16; /* fall through */
    case 10: c += (uint32_t)k[9] << 8;   /* fall through */
    case 9:  c += k[8];                  /* fall through */
    case 8:  b += word(k + 4); a += word(k); break;
    case 7:  b += (uint32_t)k[6] << 16;  /* fall through */
    case 6:  b += (uint32_t)k[5] << 8;   /* fall through */
    case 5:  b += k[4];                  /* fall through */
    case 4:  a += word(k); break;
    case 3:  a += (uint32_t)k[2] << 16;  /* fall through */
    case 2:  a += (uint32_t)k[1] << 8;   /* fall through */
    case 1:  a += k[0]; break;
    case 0:  return c;
    }
    final(a, b, c);
    return c;
}

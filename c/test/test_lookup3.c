/* The checksum through the C boundary: the published vectors, and that a hash does not look past its slice. */
#include "ungletice.h"
#include <stdio.h>
#include <string.h>

static int passed, failed;

static void expect(const char *what, uint32_t got, uint32_t wanted)
{
    if (got == wanted) {
        passed++;
        return;
    }
    failed++;
    printf("%s: %08x, not %08x\n", what, (unsigned)got, (unsigned)wanted);
}

int main(void)
{
    const char *text = "Four score and seven years ago";
    const uint8_t *bytes = (const uint8_t *)text;
    uint8_t longer[64];

    expect("nothing, start 0", ungletice_lookup3(NULL, 0, 0), 0xdeadbeef);
    expect("nothing, start deadbeef", ungletice_lookup3(NULL, 0, 0xdeadbeef), 0xbd5b7dde);
    expect("30 bytes, start 0", ungletice_lookup3(bytes, 30, 0), 0x17770551);
    expect("30 bytes, start 1", ungletice_lookup3(bytes, 30, 1), 0xcd628161);

    memset(longer, 0xa5, sizeof longer);
    memcpy(longer + 1, text, 30);
    expect("30 bytes among others", ungletice_lookup3(longer + 1, 30, 0), 0x17770551);

    printf("%d passed, %d failed\n", passed, failed);
    return failed != 0;
}

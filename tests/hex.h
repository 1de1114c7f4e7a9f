/* Bytes of hexadecimal digits. */
#include <stddef.h>
#include <stdio.h>

static size_t bytes_of(const char *hex, char *out, size_t room) {
    size_t n = 0;
    unsigned b;
    while (n < room && sscanf(hex + 2 * n, "%2x", &b) == 1) out[n++] = (char)b;
    return n;
}

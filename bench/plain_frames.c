/* The same job as `waypipe frames` on streams without a fault, with ordinary means and no proof: what the proved
 * program is measured against. Reads frames from standard input and writes one line for each, then the rest. */
#include <stdint.h>
#include <stdio.h>
#include <stdlib.h>

static uint32_t word(const uint8_t *at) {
    return at[0] | at[1] << 8 | at[2] << 16 | (uint32_t)at[3] << 24;
}

static uint64_t wide(const uint8_t *at) { return word(at) | (uint64_t)word(at + 4) << 32; }

static void hex(const uint8_t *at, size_t n) {
    static const char digit[] = "0123456789abcdef";
    char text[4096];
    for (size_t i = 0; i < n;) {
        size_t k = 0;
        for (; k < sizeof text && i < n; i++) {
            text[k++] = digit[at[i] >> 4];
            text[k++] = digit[at[i] & 15];
        }
        fwrite(text, 1, k, stdout);
    }
}

static void line(size_t place, unsigned type, const uint8_t *body, size_t n) {
    static const char *const name[32] = {[0] = "PROTOCOL", [1] = "INJECT", [2] = "OPEN_FILE", [3] = "EXTEND_FILE",
        [5] = "FILL", [8] = "OPEN_PIPE", [10] = "PIPE_TRANSFER", [11] = "PIPE_SHUT_R", [12] = "PIPE_SHUT_W",
        [16] = "ACK", [17] = "RESTART", [18] = "CLOSE"};
    printf("%zu %s", place, name[type]);
    switch (type) {
    case 0: putchar(' '); hex(body, n); break;
    case 1: for (size_t i = 0; i < n; i += 4) printf(" %d", (int32_t)word(body + i)); break;
    case 2: case 3: printf(" %d %u", (int32_t)word(body), word(body + 4)); break;
    case 5: printf(" %d %u %u ", (int32_t)word(body), word(body + 4), word(body + 8)); hex(body + 12, n - 12); break;
    case 8: case 11: case 12: printf(" %d", (int32_t)word(body)); break;
    case 10: printf(" %d ", (int32_t)word(body)); hex(body + 4, n - 4); break;
    case 16: printf(" %llu", (unsigned long long)wide(body)); break;
    case 17: putchar(' '); hex(body, 16); printf(" %u %llu", word(body + 16), (unsigned long long)wide(body + 20)); break;
    case 18: printf(" %u", word(body)); break;
    }
    putchar('\n');
}

int main(void) {
    size_t room = 1 << 25, len = 0, n, at = 0;
    uint8_t *input = malloc(room);
    if (!input) return 1;
    while (len < room && (n = fread(input + len, 1, room - len, stdin)) > 0) len += n;
    while (len - at >= 4) {
        size_t size = word(input + at) / 32, padded = (size + 3) / 4 * 4;
        if (len - at < padded) break;
        line(at, word(input + at) % 32, input + at + 4, size - 4);
        at += padded;
    }
    printf("rest %zu\n", len - at);
    return 0;
}

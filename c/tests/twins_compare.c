/* Compares what the proved exports for C and those that cargo builds answer and write: by a fuzzer, or where CASES is defined for so
 * many inputs that are made up. tests/c.sh builds it with twins.c over each. */
#include <stddef.h>
#include <stdint.h>
#include <stdio.h>
#include <stdlib.h>
#include <string.h>

/* A chunk has at most 512 boundaries. */
enum { SOME_CHUNKS = 1100 };

static uint64_t most;

size_t answers_of_proved(const uint8_t *bytes, size_t size, uint8_t *out, size_t room);
size_t answers_of_plain(const uint8_t *bytes, size_t size, uint8_t *out, size_t room);
int LLVMFuzzerTestOneInput(const uint8_t *bytes, size_t size);

int LLVMFuzzerTestOneInput(const uint8_t *bytes, size_t size)
{
    static uint8_t one[1 << 20], other[1 << 20];
    const size_t len = answers_of_proved(bytes, size, one, sizeof one);
    const size_t other_len = answers_of_plain(bytes, size, other, sizeof other);
    uint64_t boundaries;
    size_t at = 0;
    while (at < len && at < other_len && one[at] == other[at]) at++;
    if (at != len || at != other_len) {
        fprintf(stderr, "twins: they differ from byte %zu on, of %zu and %zu\n", at, len, other_len);
        abort();
    }
    memcpy(&boundaries, one + len - sizeof boundaries, sizeof boundaries);
    if (boundaries > most) most = boundaries;
    return 0;
}

#ifdef CASES
int main(void)
{
    uint8_t bytes[256];
    uint64_t state = 0x9e3779b97f4a7c15u;
    for (long i = 0; i < CASES; i++) {
        for (size_t at = 0; at < sizeof bytes; at++) {
            state ^= state << 13;
            state ^= state >> 7;
            state ^= state << 17;
            bytes[at] = (uint8_t)(state >> 24);
        }
        LLVMFuzzerTestOneInput(bytes, sizeof bytes - (size_t)i % 97);
    }
    printf("twins: %d inputs, and sets in chunks of up to %d boundaries\n", (int)CASES, (int)most);
    return most < SOME_CHUNKS;
}
#endif

/* Vectors of xorshift64*, transcribed in C from the definition (crates/source/specs/Random.antt):
   "state = next state, and the number that it gives", 16 hex digits each. */
#include <inttypes.h>
#include <stdint.h>
#include <stdio.h>

static uint64_t x;

static uint64_t next(void) {
    x ^= x >> 12;
    x ^= x << 25;
    x ^= x >> 27;
    return x * UINT64_C(2685821657736338717);
}

static void line(void) {
    uint64_t before = x, drawn = next();
    printf("%016" PRIx64 " = %016" PRIx64 " %016" PRIx64 "\n", before, x, drawn);
}

int main(void) {
    x = 1;
    for (int i = 0; i < 1000; i++) line();
    for (int bit = 0; bit < 64; bit++) {
        x = UINT64_C(1) << bit;
        line();
        x = ~(UINT64_C(1) << bit);
        line();
    }
    return 0;
}

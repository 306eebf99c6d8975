// Times crc32 against a table of 256 entries in C that takes a byte at a time, and one scan for sections over data in which
// nearly every place looks like the start of one.
#include <stdint.h>
#include <stdio.h>
#include <stdlib.h>
#include <string.h>
#include <time.h>

uint32_t bench_crc32(const uint8_t *s, size_t n);
size_t bench_next_section(const uint8_t *s, size_t n, size_t at);

static uint32_t table[256];

static void fill_table(void) {
    for (uint32_t i = 0; i < 256; i++) {
        uint32_t z = i << 24;
        for (int k = 0; k < 8; k++) z = (z << 1) ^ ((z >> 31) ? 0x04C11DB7u : 0);
        table[i] = z;
    }
}

__attribute__((noinline)) static uint32_t c_crc32(const uint8_t *s, size_t n) {
    uint32_t z = 0xFFFFFFFFu;
    for (size_t i = 0; i < n; i++) z = (z << 8) ^ table[(z >> 24) ^ s[i]];
    return z;
}

static double now(void) {
    struct timespec t;
    clock_gettime(CLOCK_THREAD_CPUTIME_ID, &t);
    return t.tv_sec * 1e9 + t.tv_nsec;
}

// The best of 25 runs, in ns for each byte. Each call starts where the last one's result says, so that none is left out.
static double ns_per_byte(uint32_t (*crc)(const uint8_t *, size_t), const uint8_t *b, size_t n) {
    long calls = 2000000 / (long)n + 1;
    double best = 1e18;
    for (int run = 0; run < 25; run++) {
        uint32_t z = 0;
        double t = now();
        for (long i = 0; i < calls; i++) z = crc(b + (z & 7), n);
        t = (now() - t) / calls / n;
        if (t < best) best = t;
    }
    return best;
}

int main(void) {
    static uint8_t b[8192], fe[65535];
    static const size_t sizes[] = {16, 64, 256, 1024, 4096};
    fill_table();
    srand(1);
    for (size_t i = 0; i < sizeof b; i++) b[i] = rand() >> 7;

    for (size_t n = 0; n < 600; n++)
        if (bench_crc32(b + n % 7, n) != c_crc32(b + n % 7, n)) return printf("wrong at %zu bytes\n", n), 1;
    if (bench_crc32((const uint8_t *)"123456789", 9) != 0x0376E6E7u) return puts("wrong for 123456789"), 1;

    puts("bytes  crc32 ns/byte  C byte table ns/byte  times as fast");
    for (size_t k = 0; k < sizeof sizes / sizeof *sizes; k++) {
        double r = ns_per_byte(bench_crc32, b, sizes[k]), c = ns_per_byte(c_crc32, b, sizes[k]);
        printf("%5zu  %13.3f  %20.3f  %13.2f\n", sizes[k], r, c, c / r);
    }

    memset(fe, 0xFE, sizeof fe);
    double best = 1e18;
    for (int run = 0; run < 5; run++) {
        double t = now();
        for (size_t at = 0; at < sizeof fe;) at = bench_next_section(fe, sizeof fe, at);
        t = now() - t;
        if (t < best) best = t;
    }
    printf("scan of %zu bytes of FEh: %.1f ms\n", sizeof fe, best / 1e6);
    return 0;
}

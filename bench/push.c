// The time of a push on plain media packets: 1,400 bytes of data each, one whole unit, 8 ids in turn. Best of 25 rounds of 80,000
// packets, with no section kept and with 300; tests/oracle/push/src/bin/rate.rs has the same packets for the Rust. Then how much of its
// stack a push takes, by a thread whose stack is filled first: of a media packet, a control packet and a message of a table.
#include <pthread.h>
#include <stdint.h>
#include <stdio.h>
#include <stdlib.h>
#include <string.h>
#include <time.h>

uint8_t bench_open(uint64_t media, uint64_t controls, uint64_t sections, uint64_t mfu, uint64_t message, uint64_t table,
                   uint8_t *state, size_t state_len, uint64_t *others, const uint8_t *objects, size_t objects_len,
                   const uint8_t *messages, size_t messages_len, const uint8_t *tables, size_t tables_len);
uint64_t bench_push(uint8_t *state, size_t state_len, uint64_t *others, uint8_t *objects, size_t objects_len, uint8_t *messages,
                    size_t messages_len, uint8_t *tables, size_t tables_len, uint8_t kind, const uint8_t *b, size_t b_len,
                    uint8_t *rows, size_t rows_len, uint8_t *out, size_t out_len);

enum { STATE = 13144, USED = 57, SECTION = 8536, SECTION_SIZE = 9, OBJECTS = 64 * 65536, MESSAGES = 32 * 65536, TABLES = 546 * 4096 };
enum { N = 1400, ROWS = 36 * 64, OUT = 65536 };

static uint8_t state[STATE], rows[ROWS], out[OUT], data[N];
static uint64_t others[256];
static uint8_t *objects, *messages, *tables;

static void put(uint8_t *s, size_t at, int w, uint64_t v) {
    for (int k = w; k-- > 0; v >>= 8) s[at + k] = (uint8_t)v;
}

static double seconds(void) {
    struct timespec t;
    clock_gettime(CLOCK_MONOTONIC, &t);
    return t.tv_sec + t.tv_nsec / 1e9;
}

static void rounds(int sections) {
    if (bench_open(64, 32, 512, 65536, 65536, 4096, state, STATE, others, objects, OBJECTS, messages, MESSAGES, tables, TABLES)) exit(1);
    put(state, USED + 8, 4, sections);
    for (int i = 0; i < sections; i++) {
        put(state, SECTION + SECTION_SIZE * i, 4, 0x8B000000u + 0x100u * (i / 4) + i % 4);
        put(state, SECTION + SECTION_SIZE * i + 5, 4, 700);
    }
    double best = 1;
    uint64_t bytes = 0;
    uint32_t sequence = 0;
    for (int round = 0; round < 25; round++) {
        double start = seconds();
        for (int i = 0; i < 10000; i++) {
            put(data, 11, 4, ++sequence);
            for (int id = 0; id < 8; id++) {
                put(data, 5, 2, 0xF100 + id);
                uint64_t n = bench_push(state, STATE, others, objects, OBJECTS, messages, MESSAGES, tables, TABLES, 3, data, N, rows, ROWS, out, OUT);
                if (n > OUT) exit(2);
                bytes += n;
            }
        }
        double t = (seconds() - start) / 80000;
        if (t < best) best = t;
    }
    printf("push, %3d sections kept: %.1f ns a packet (%llu data bytes)\n", sections, best * 1e9, (unsigned long long)bytes);
}

enum { STACK = 1 << 20 };
static const uint8_t *packet;
static size_t packet_len;
static uint8_t packet_kind;

static void *nothing(void *x) { return x; }

static void *once(void *x) {
    bench_push(state, STATE, others, objects, OBJECTS, messages, MESSAGES, tables, TABLES, packet_kind, packet, packet_len, rows, ROWS, out, OUT);
    return x;
}

static size_t touched(void *(*f)(void *)) {
    static _Alignas(4096) uint8_t stack[STACK];
    pthread_attr_t a;
    pthread_t t;
    size_t i = 0;
    memset(stack, 0xA5, STACK);
    if (pthread_attr_init(&a) || pthread_attr_setstack(&a, stack, STACK) || pthread_create(&t, &a, f, 0) || pthread_join(t, 0)) exit(3);
    while (i < STACK && stack[i] == 0xA5) i++;
    return STACK - i;
}

static void stack_of(const char *what, uint8_t kind, const uint8_t *b, size_t n) {
    packet_kind = kind;
    packet = b;
    packet_len = n;
    printf("stack, %s: %zu bytes\n", what, touched(once) - touched(nothing));
}

// an MPT of no asset in a PA message, which is whole in its packet
static const uint8_t mpt[] = {0, 0x10, 0x61, 0, 2, 0x80, 1, 0, 0, 0, 0, 0, 0, 0, 1, 0, 0, 0, 0, 0, 0, 0, 0, 12,
                              0, 0x20, 3, 0, 7, 0xFD, 2, 0, 0x65, 0, 0, 0};
static const uint8_t signal[] = {0x40, 0xF0, 0x09, 0, 4, 0xC7, 0, 0, 1, 2, 3, 4};

int main(void) {
    objects = calloc(1, OBJECTS);
    messages = calloc(1, MESSAGES);
    tables = calloc(1, TABLES);
    data[1] = 0x10;
    data[2] = 0x61;
    put(data, 15, 2, N - 17);
    data[17] = 0x28;
    data[22] = 7;
    rounds(0);
    rounds(300);
    stack_of("media packet", 3, data, N);
    stack_of("control packet", 0xFE, signal, sizeof signal);
    stack_of("message", 3, mpt, sizeof mpt);
    return 0;
}

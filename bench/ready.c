// The time of question 5. Sessions are opened by the library; places in use are written here as docs/REFERENCE.md lays them out.
#include <stdint.h>
#include <stdio.h>
#include <stdlib.h>
#include <string.h>
#include <time.h>

uint8_t bench_open(uint64_t media, uint64_t controls, uint64_t sections, uint64_t mfu, uint64_t message, uint64_t table,
                   uint8_t *state, size_t state_len, uint64_t *others, const uint8_t *objects, size_t objects_len,
                   const uint8_t *messages, size_t messages_len, const uint8_t *tables, size_t tables_len);
uint8_t bench_ready(const uint8_t *state, size_t state_len, const uint64_t *others, size_t others_len, uint64_t objects,
                    uint64_t messages, uint64_t tables);

enum { STATE = 13144, USED = 57, MEDIA = 184, MEDIA_SIZE = 120, CONTROL = 7864, CONTROL_SIZE = 21, SECTION = 8536, SECTION_SIZE = 9 };
enum { OBJECTS = 64 * 65536, MESSAGES = 32 * 65536, TABLES = 546 * 4096 };

static uint8_t state[STATE];
static uint64_t others[256];
static uint8_t *areas;

static void put(size_t at, int w, uint64_t v) {
    for (int k = w; k-- > 0; v >>= 8) state[at + k] = (uint8_t)v;
}

static double seconds(void) {
    struct timespec t;
    clock_gettime(CLOCK_MONOTONIC, &t);
    return t.tv_sec + t.tv_nsec / 1e9;
}

static void open_session(void) {
    memset(state, 0xFF, sizeof state);
    if (bench_open(64, 32, 512, 65536, 65536, 4096, state, STATE, others, areas, OBJECTS, areas, MESSAGES, areas, TABLES)) exit(1);
    for (int i = 0; i < 12; i++) put(88 + 8 * i, 8, 1000003u * (i + 1));
    others[0x8B] = 123456;
}

static void use_media(int n) {
    put(USED, 4, n);
    for (int i = 0; i < n; i++) {
        size_t p = MEDIA + MEDIA_SIZE * i;
        put(p, 4, 0xF100 + 0x10 * (i / 4) + i % 4);
        put(p + 4, 1, 1);
        put(p + 5, 4, 77777 + i);
        put(p + 18, 1, i % 2);
        put(p + 44, 4, 1200 + 900 * i);
        for (int k = 0; k < 9; k++) put(p + 48 + 8 * k, 8, 314159u * (k + 1) + i);
    }
}

static void use_control(int n) {
    put(USED + 4, 4, n);
    for (int i = 0; i < n; i++) {
        size_t p = CONTROL + CONTROL_SIZE * i;
        put(p, 4, i == 0 ? 0 : 0x8000 + i);
        put(p + 4, 1, 1);
        put(p + 9, 1, i % 2);
        put(p + 12, 4, 3000);
        put(p + 16, 1, 1);
        put(p + 17, 4, 700 + i);
    }
}

// keys are table id, table id extension, section number
static void use_section(int i, uint32_t id, uint32_t extension, uint32_t number) {
    size_t p = SECTION + SECTION_SIZE * i;
    put(USED + 8, 4, i + 1);
    put(p, 4, id << 24 | extension << 8 | number);
    put(p + 4, 1, i % 32);
    put(p + 5, 4, 200 + 13 * i % 3800);
}

// an EIT family: table ids from 8Bh, services 101, 111 .., sections 0, 8, 16 ..
static void use_eit(int n, int services, int numbers) {
    for (int i = 0; i < n; i++)
        use_section(i, 0x8B + i / numbers / services, 101 + 10 * (i / numbers % services), 8 * (i % numbers));
}

// the best of many short rounds, so that what else runs on the machine counts little
static void run(const char *name) {
    double best = 1;
    for (int round = 0; round < 400; round++) {
        const int n = 1000;
        int yes = 0;
        double a = seconds();
        for (int i = 0; i < n; i++) {
            state[SECTION + 4] = (uint8_t)i;
            yes += bench_ready(state, STATE, others, 256, OBJECTS, MESSAGES, TABLES);
        }
        double b = (seconds() - a) / n;
        if (yes != n) { printf("%s: not a session\n", name); return; }
        if (b < best) best = b;
    }
    printf("%-45s %7.1f ns\n", name, best * 1e9);
}

int main(void) {
    areas = calloc(1, OBJECTS);
    open_session();
    run("nothing in use");
    use_media(8);
    use_control(4);
    run("8 media, 4 control ids");
    for (int i = 0; i < 300; i++) use_section(i, 0x8B + i % 4, 0x65 + i / 4 % 25, i / 100);
    run("and 300 sections");
    use_eit(512, 16, 8);
    run("and 512 sections of an EIT family");
    // four of these keys have the cell of an earlier one
    use_eit(512, 8, 16);
    run("and 512 of a family that meets marks");
    use_media(64);
    use_control(32);
    run("every place in use");
    return 0;
}

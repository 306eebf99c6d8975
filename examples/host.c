/* Lists the media ids of a recording of TLV packets on standard input, with their counts, as feedlist does. */
#include "isdb.h"

#include <inttypes.h>
#include <stdio.h>
#include <stdlib.h>

static const uint64_t limits[ISDB_LIMITS] = {16, 16, 128, 131072, 65536, 8192, 4294967295u, 0};

/* A session: its five buffers, and the outputs of a push. */
static uint8_t *state, *objects, *messages, *tables;
static size_t state_length, objects_length, messages_length, tables_length;
static uint64_t others[ISDB_OTHERS];
static uint8_t rows[ISDB_MOST_ROWS], out[131072];

/* The first nine arguments of every call on the session. */
#define SESSION state, state_length, others, objects, objects_length, messages, messages_length, tables, tables_length

static uint8_t *buffer(uint64_t needed, size_t *length) {
    uint8_t *p = calloc(1, needed);
    if (p == NULL) {
        fprintf(stderr, "no memory\n");
        exit(1);
    }
    *length = needed;
    return p;
}

static void open_session(void) {
    uint64_t v[ISDB_NUMBERS];
    uint8_t code = isdb_needed(limits, v);
    if (code == ISDB_OK) {
        state = buffer(v[0], &state_length);
        objects = buffer(v[1], &objects_length);
        messages = buffer(v[2], &messages_length);
        tables = buffer(v[3], &tables_length);
        code = isdb_open(limits, SESSION);
    }
    if (code != ISDB_OK) {
        fprintf(stderr, "opening is refused: %d\n", code);
        exit(1);
    }
}

/* Pushes all packets, and writes to end how reading ended. */
static void push_all(char *end, size_t end_length) {
    static uint8_t data[ISDB_MOST_DATA];
    uint64_t v[ISDB_NUMBERS], offset = 0;
    uint8_t header[4] = {0};
    size_t n;
    while ((n = fread(header, 1, 4, stdin)) > 0) {
        size_t length = (size_t)header[2] << 8 | header[3];
        if (header[0] != 0x7F || n < 4 || fread(data, 1, length, stdin) < length) {
            snprintf(end, end_length, "bad %" PRIu64, offset);
            return;
        }
        uint8_t code = isdb_push(SESSION, header[1], data, length, rows, sizeof rows, out, sizeof out, v);
        if (code != ISDB_OK) {
            snprintf(end, end_length, "refused %d", code);
            return;
        }
        /* Here a host would use the v[0] records in rows, and their v[1] bytes of data in out. */
        offset += 4 + length;
    }
    snprintf(end, end_length, "clean");
}

int main(void) {
    char end[32];
    uint64_t v[ISDB_NUMBERS];
    open_session();
    push_all(end, sizeof end);
    puts("id packets lost scrambled mfus dropped held malformed");
    for (uint32_t id = 0; isdb_next_media(SESSION, id, v) == ISDB_OK; id++) {
        id = (uint32_t)v[0];
        if (isdb_media(SESSION, id, v) == ISDB_OK)
            printf("%" PRIu32 " %" PRIu64 " %" PRIu64 " %" PRIu64 " %" PRIu64 " %" PRIu64 " %" PRIu64 " %" PRIu64 "\n", id, v[0],
                   v[1], v[2], v[3], v[5], v[14], v[8]);
    }
    if (isdb_counters(SESSION, v) == ISDB_OK)
        printf("tlv %" PRIu64 " ip %" PRIu64 " other %" PRIu64 " end %s\n", v[0], v[1], v[2], end);
    return 0;
}

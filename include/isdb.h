/* isdb.h: the calls of libisdb_host.a on a session, for C and C++.
 *
 * A feed of ISDB-S3 (4K satellite) is a row of TLV packets. A session takes them one by one, hands out the media units that a packet
 * completes, and keeps counts and service tables. It lies wholly in memory that the host lends: the library allocates nothing, keeps
 * nothing of its own, writes nothing but what is lent to it, and calls nothing but memcpy, memmove and memset. isdb_tables.h has the calls that
 * take apart a kept table.
 *
 *
 * 1. Every call
 *
 * A call returns a code. ISDB_OK, 0, says that it was done, and then all sixteen numbers of v are set: those that the call's text
 * lists, in this order, and 0 behind them. With any other code v is as it was, and so is every other lent byte. "x?" among the numbers
 * is 1 where x is there and 0 where it is not; what is absent is 0.
 *
 *     code                   by                     meaning
 *      0 ISDB_OK             all                    done
 *      1 ISDB_PLACES         isdb_needed, isdb_open media_ids, control_ids or sections is out of range
 *      2 ISDB_AREAS          isdb_needed, isdb_open mfu_area, message_area or table_area is out of range
 *      3 ISDB_BUFFERS        isdb_open              a buffer is shorter than the limits need
 *      4 ISDB_PACKETS        isdb_needed, isdb_open packets is out of range
 *      5 ISDB_NO_SESSION     all on a session       the lent bytes hold no session: they were never opened, were opened in longer
 *                                                   buffers, or something else wrote to them; of a kept table also: its bytes cannot be
 *                                                   read any more
 *      6 ISDB_TOO_LONG       isdb_push              more than 65,535 bytes of data
 *      7 ISDB_USED_UP        isdb_push              as many packets were taken as the limit says; open the session anew
 *      8 ISDB_NO_PLACE       isdb_push              no place is free for a media id, a control id or a section of the packet
 *      9 ISDB_NO_AREA        isdb_push              an object, a message or a table of the packet is longer than its area
 *     10 ISDB_NO_ROOM        isdb_push              rows or out is too short for what the packet hands out
 *     20 ISDB_NOTHING        readings               there is nothing: no such id, nothing kept, the end of a walk
 *     21 ISDB_NO_ID          isdb_held              there is no such media id (20: there is, and it holds no object)
 *     22 ISDB_MALFORMED      isdb_tables.h          what stands there cannot be read
 *     23 ISDB_TRUNCATED      isdb_tables.h          a section that is not whole
 *     24 ISDB_BAD_CRC        isdb_tables.h          a section whose CRC is not 0
 *
 * 1 to 10 are questions, asked in this order, and the first that is answered no is the code. Of a session that was opened, that lies in
 * the buffers it was opened in, and that only these calls wrote to, no call ever answers 5.
 *
 *
 * 2. What a host sees to
 *
 * - No pointer is null, also of a buffer with no bytes, and each leads to as many bytes as its length says, which stay there during the
 *   call. others leads to 256 numbers, limits to 8, v to 16; these three are aligned as uint64_t. Bytes need no alignment.
 * - Buffers of one call do not overlap.
 * - One call at a time for a session: a push beside any other call on the same buffers needs a lock around both. Readings may run
 *   beside each other, and calls on different sessions in any way: the library has no global data.
 * - Nothing but isdb_open, isdb_push and isdb_push_all writes to the five buffers. They may be moved or copied, all five, between two calls: nothing in
 *   them is an address. What else is written to them shows as code 5 or as wrong answers, never as an access outside the buffers.
 * - A call takes less than 256 KiB of stack.
 *
 *
 * 3. Limits and the five buffers
 *
 * limits has eight numbers, by the enum isdb_limit:
 *
 *     number                  from         to  meaning
 *     0 media_ids                1         64  places for packet ids of media
 *     1 control_ids              1         32  places for packet ids of control messages
 *     2 sections                 1        512  places for kept sections
 *     3 mfu_area                 1 16,777,216  bytes for the object that a media id holds until it is complete
 *     4 message_area             1  1,048,576  bytes for the message that a control id joins
 *     5 table_area               1     65,539  bytes for each kept table
 *     6 packets                  1 2^32 - 1    how many packets are taken
 *     7 pass_scrambled                         0: scrambled payloads are only counted; else they are handed out too
 *
 * A place that is taken stays taken. The session is five buffers, which every call gets in this order. A longer one is fine:
 *
 *     buffer                  at least
 *     state, bytes            13,144 (ISDB_STATE_LENGTH), whatever the limits
 *     others, numbers         256, always
 *     objects, bytes          media_ids * mfu_area
 *     messages, bytes         control_ids * message_area
 *     tables, bytes           (sections + control_ids + 2) * table_area
 *
 * isdb_needed works the lengths out. Before isdb_open the buffers may hold anything.
 *
 *
 * 4. Packets and records
 *
 * A TLV packet is the byte 7Fh, its kind, a length of 2 bytes (high byte first), and so many bytes of data; isdb_push takes the kind and
 * the data. It hands out a record for each media unit that the packet completes: 36 bytes each, one behind the other from the start of
 * rows; their data stand one behind the other from the start of out. Numbers have their high byte first:
 *
 *     at  bytes  field
 *      0      2  packet id
 *      2      1  flags: bit 0 random access point, bit 1 a scrambled payload passed on, bit 2 there is an MFU header, bit 3 there is
 *                an item id
 *      3      1  0
 *      4      4  MPU sequence number
 *      8      4  MFU header: movie fragment sequence number
 *     12      4  MFU header: sample number
 *     16      4  MFU header: offset
 *     20      1  MFU header: priority
 *     21      1  MFU header: dependency counter
 *     22      2  0
 *     24      4  item id
 *     28      4  where its data start in out
 *     32      4  how many bytes of data
 *
 * What is absent is 0. MPU number, header, item id and random access point are those of the unit that began the object.
 */
#ifndef ISDB_H
#define ISDB_H

#include <stddef.h>
#include <stdint.h>

#ifdef __cplusplus
extern "C" {
#endif

enum isdb_halt {
    ISDB_HALT_END = 0,
    ISDB_HALT_SHORT = 1,
    ISDB_HALT_BAD = 2,
    ISDB_HALT_FULL = 3,
    ISDB_HALT_REFUSED = 4
};

enum isdb_code {
    ISDB_OK = 0,
    ISDB_PLACES = 1,
    ISDB_AREAS = 2,
    ISDB_BUFFERS = 3,
    ISDB_PACKETS = 4,
    ISDB_NO_SESSION = 5,
    ISDB_TOO_LONG = 6,
    ISDB_USED_UP = 7,
    ISDB_NO_PLACE = 8,
    ISDB_NO_AREA = 9,
    ISDB_NO_ROOM = 10,
    ISDB_NOTHING = 20,
    ISDB_NO_ID = 21,
    ISDB_MALFORMED = 22,
    ISDB_TRUNCATED = 23,
    ISDB_BAD_CRC = 24
};

enum isdb_limit {
    ISDB_LIMIT_MEDIA_IDS = 0,
    ISDB_LIMIT_CONTROL_IDS = 1,
    ISDB_LIMIT_SECTIONS = 2,
    ISDB_LIMIT_MFU_AREA = 3,
    ISDB_LIMIT_MESSAGE_AREA = 4,
    ISDB_LIMIT_TABLE_AREA = 5,
    ISDB_LIMIT_PACKETS = 6,
    ISDB_LIMIT_PASS_SCRAMBLED = 7
};

/* Lengths of arrays, and of a record. */
enum {
    ISDB_LIMITS = 8,
    ISDB_NUMBERS = 16,
    ISDB_OTHERS = 256,
    ISDB_STATE_LENGTH = 13144,
    ISDB_RECORD_LENGTH = 36,
    ISDB_MOST_DATA = 65535,
    ISDB_MOST_ROWS = 393048
};

/* Flags of a record. */
enum isdb_flag {
    ISDB_RECORD_RAP = 1,
    ISDB_RECORD_SCRAMBLED = 2,
    ISDB_RECORD_HEADER = 4,
    ISDB_RECORD_ITEM = 8
};

/* The five buffers of a session as parameters, for a call that changes none of them. */
#define ISDB_SESSION                                                                                                                \
    const uint8_t *state, size_t state_length, const uint64_t others[ISDB_OTHERS], const uint8_t *objects, size_t objects_length,   \
        const uint8_t *messages, size_t messages_length, const uint8_t *tables, size_t tables_length

/* ---- Limits, opening, pushing ---- */

/* How long the buffers have to be for these limits. v: state, objects, messages, tables, in bytes.
 * Codes: 0, 1, 2, 4. With buffers at least so long isdb_open answers 0. */
uint8_t isdb_needed(const uint64_t limits[ISDB_LIMITS], uint64_t v[ISDB_NUMBERS]);

/* Opens a session with nothing in it: writes the first 13,144 bytes of state and all of others. Of the other three only the lengths are
 * looked at. Codes: 0, 1, 2, 3, 4. */
uint8_t isdb_open(const uint64_t limits[ISDB_LIMITS], uint8_t *state, size_t state_length, uint64_t others[ISDB_OTHERS],
                  const uint8_t *objects, size_t objects_length, const uint8_t *messages, size_t messages_length,
                  const uint8_t *tables, size_t tables_length);

/* Takes a packet: its kind and its data. v: records, bytes; so many records in rows, so many bytes of data in out (section 4). What
 * lies beyond them in rows and out keeps its bytes. Codes: 0, 5 to 10. With another code than 0 nothing is changed and nothing handed
 * out, so that the host can pass over the packet, or lend longer rows and out after a 10, and go on. A unit takes at least 6 bytes of a
 * packet, so 10,918 records are the most: with rows of ISDB_MOST_ROWS bytes, and an out of mfu_area or 65,535 bytes, whichever is more,
 * there is no 10 (which is reasoned and tried, and not proved, as all else here is). */
uint8_t isdb_push(uint8_t *state, size_t state_length, uint64_t others[ISDB_OTHERS], uint8_t *objects, size_t objects_length,
                  uint8_t *messages, size_t messages_length, uint8_t *tables, size_t tables_length, uint8_t kind,
                  const uint8_t *data, size_t data_length, uint8_t *rows, size_t rows_length, uint8_t *out, size_t out_length,
                  uint64_t v[ISDB_NUMBERS]);

/* Takes packets that lie one behind the other in input (7Fh, kind, length, data of at most most bytes), each as isdb_push does, into what the
 * earlier ones left of rows and out, until the call ends. v: at (so many bytes of input were taken), packets (so many packets), records,
 * bytes (handed out by all of them together), halt, number. halt says why the call ended, and what stands at at:
 *
 *     0 ISDB_HALT_END      nothing
 *     1 ISDB_HALT_SHORT    what may be the start of a packet, and is not a whole one
 *     2 ISDB_HALT_BAD      no packet: another first byte, or more than most bytes of data
 *     3 ISDB_HALT_FULL     a packet for which lines has no room
 *     4 ISDB_HALT_REFUSED  a packet that is turned down, with number 5 to 10; number is 0 else
 *
 * lines has 16 bytes for each packet that was taken: how many records and how many bytes of data it handed out, 8 bytes each, high byte first.
 * A record's data start counts from where the data of its packet begin. What lies beyond in rows, out and lines keeps its bytes; a packet that
 * is not taken changes nothing. After a 3, and after a 4 with number 10 where packets is not 0, the host uses what was handed out and calls
 * again from at. The session is looked at once for all packets where its counts have room for them. Code: 0. */
uint8_t isdb_push_all(uint8_t *state, size_t state_length, uint64_t others[ISDB_OTHERS], uint8_t *objects, size_t objects_length,
                      uint8_t *messages, size_t messages_length, uint8_t *tables, size_t tables_length, const uint8_t *input,
                      size_t input_length, size_t most, uint8_t *rows, size_t rows_length, uint8_t *out, size_t out_length,
                      uint8_t *lines, size_t lines_length, uint64_t v[ISDB_NUMBERS]);

/* ---- Readings: they change nothing but v, and answer 5 where the lent bytes hold no session ---- */

/* The counts of the feed. v: tlv_packets (packets taken), ip_errors (datagrams that cannot be read), non_mmtp (datagrams that hold no
 * MMTP), ntp (datagrams to port 123), tables (tables in messages), crc_errors (sections with a bad CRC), malformed (tables and sections
 * that cannot be read), version_changes (of kept tables); of messages orphan_fragments (a middle or last part without a first),
 * oversize (above 1,048,576 bytes), message_malformed (payloads, messages and tables whose lengths do not fit); split_errors
 * (descriptor loops that break). Codes: 0, 5. */
uint8_t isdb_counters(ISDB_SESSION, uint64_t v[ISDB_NUMBERS]);

/* The time. v: the last NTP timestamp (seconds since 1900 times 2^32). Codes: 0, 5, 20. */
uint8_t isdb_time(ISDB_SESSION, uint64_t v[ISDB_NUMBERS]);

/* How many tables came of an id that is only counted. v: count. Codes: 0, 5. */
uint8_t isdb_table_count(ISDB_SESSION, uint8_t id, uint64_t v[ISDB_NUMBERS]);

/* The least media id that is at least from. v: id. Codes: 0, 5, 20. All ids in ascending order: ask from 0, then from the answer + 1,
 * up to code 20. An id is below 65,536. */
uint8_t isdb_next_media(ISDB_SESSION, uint32_t from, uint64_t v[ISDB_NUMBERS]);

/* The same of control ids, the packet ids of control messages. */
uint8_t isdb_next_control(ISDB_SESSION, uint32_t from, uint64_t v[ISDB_NUMBERS]);

/* The least key of a kept section from first to last, both included. v: key. Codes: 0, 5, 20. A key is table id * 2^24 +
 * table id extension * 2^8 + section number; all of table id t: first t << 24, last (t << 24) + FFFFFFh. Kept are the table ids
 * 8Bh to 9Bh (EIT), 9Dh (BIT), 9Fh and A0h (SDT), 40h and 41h (NIT), FEh (AMT). */
uint8_t isdb_next_key(ISDB_SESSION, uint32_t first, uint32_t last, uint64_t v[ISDB_NUMBERS]);

/* What is known of a media id. Codes: 0, 5, 20. v: packets, packets_lost, scrambled_packets, mfus (objects handed out),
 * scrambled_mfus, mfus_dropped (objects that were begun and lost), mpus, mpu_sequence_jumps, malformed (payloads that cannot be read);
 * range?, first, last (MPU numbers seen); sequence?, sequence (the last packet's number); held?, length (the object that is held). */
uint8_t isdb_media(ISDB_SESSION, uint32_t id, uint64_t v[ISDB_NUMBERS]);

/* The object that a media id holds: begun and not yet complete. Codes: 0, 5, 20 (it holds none), 21 (no such id). v:
 * mpu_sequence_number, rap (0 or 1); header?, movie_fragment_sequence_number, sample_number, offset, priority, dependency_counter;
 * item?, item_id; start, length (its bytes so far, in objects). */
uint8_t isdb_held(ISDB_SESSION, uint32_t id, uint64_t v[ISDB_NUMBERS]);

/* What is known of a control id. Codes: 0, 5, 20. v: sequence?, sequence (the last packet's number); joined?, length (the message that is
 * being joined). */
uint8_t isdb_control(ISDB_SESSION, uint32_t id, uint64_t v[ISDB_NUMBERS]);

/* Kept tables: the section of a key, the MPT of a control id, the PLT, the TOT. v: start, length (its bytes, in tables). They stay as
 * they are up to the next push. A table is read once more before it is handed out. Codes: 0, 5, 20. */
uint8_t isdb_section(ISDB_SESSION, uint32_t key, uint64_t v[ISDB_NUMBERS]);
uint8_t isdb_mpt(ISDB_SESSION, uint32_t control_id, uint64_t v[ISDB_NUMBERS]);
uint8_t isdb_plt(ISDB_SESSION, uint64_t v[ISDB_NUMBERS]);
uint8_t isdb_tot(ISDB_SESSION, uint64_t v[ISDB_NUMBERS]);

/* The asset that a media id carries: the first, by ascending control id of the MPTs, whose first location with a packet id has this one.
 * Codes: 0, 5, 20. v: control_id, mpt_start, mpt_length (the MPT, in tables); service?, service; identifier_type, asset_id_scheme,
 * id_start, id_length, asset_type (four characters, the first one highest), clock_relation (0 or 1), locations, locations_start,
 * descriptors_start, descriptors_length. Starts of the asset's parts count from mpt_start. */
uint8_t isdb_asset_of(ISDB_SESSION, uint16_t packet_id, uint64_t v[ISDB_NUMBERS]);

#ifdef __cplusplus
}
#endif

#endif

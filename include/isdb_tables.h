/* isdb_tables.h: the calls of libisdb_host.a that take apart tables and descriptors, for C and C++.
 *
 * They need no session: each looks at the bytes that it is given, writes the sixteen numbers of v and nothing else, allocates nothing and
 * keeps nothing. The bytes are those that a reading of isdb.h says where to find (tables + start, so many), or any others: every byte,
 * length and place is taken, and what cannot be read is a code.
 *
 *
 * 1. Every call
 *
 * A call returns a code. With ISDB_OK, 0, all sixteen numbers of v are set: those that the call's text lists, in this order, and 0 behind
 * them. With any other code v is as it was. "x?" among the numbers is 1 where x is there and 0 where it is not; what is absent is 0.
 *
 *     code                   meaning
 *      0 ISDB_OK             read
 *     20 ISDB_NOTHING        the walk is at its end; of isdb_frequency_khz: there is no frequency
 *     22 ISDB_MALFORMED      what stands there cannot be read: bytes are missing, or a type is not known
 *     23 ISDB_TRUNCATED      a section with fewer bytes than its header or its length says
 *     24 ISDB_BAD_CRC        a section whose CRC does not match
 *
 * No pointer is null, also to no bytes; each leads to as many bytes as the length behind it says. v leads to sixteen numbers, aligned as
 * uint64_t, that do not overlap the bytes. The calls may run beside each other in any way.
 *
 *
 * 2. Parts and places
 *
 * A part is two numbers, start and length: it counts in the bytes that the call was given (of a section's header also: the section). It
 * lies within them where the call answered 0 and the place was one that an answer gave. "body" below are the bytes section + body_start,
 * body_length of them; "loop" is a part that holds descriptors.
 *
 * A walk takes bytes and a place, and answers what stands there, and next, the place to go on from:
 *
 *     of                                 walk                    on                             from                 up to
 *     MPT: assets                        isdb_asset_at           t                              start                assets times
 *     an asset's locations               isdb_location_at        t                              locations_start,     locations times
 *                                                                                               then + size
 *     PLT: packages                      isdb_package_at         t                              5                    packages times
 *     PLT: IP deliveries                 isdb_delivery_at        t                              deliveries_start     ip_deliveries times
 *     EIT: events                        isdb_event_at           body                           6                    20
 *     SDT: services                      isdb_service_at         body                           3                    20
 *     BIT: broadcasters                  isdb_broadcaster_at     body                           descriptors_start +  20
 *                                                                                               descriptors_length
 *     NIT: streams                       isdb_stream_at          body + loop_start, loop_length 0                    20
 *     AMT: services                      isdb_flow_at            body                           2                    services times
 *     descriptors of MPT, of an asset    isdb_descriptor_at      t + start, length              0                    20, 22
 *     descriptors of a TOT               isdb_descriptor_at      section + start, length        0                    20, 22
 *     descriptors of an event, a         isdb_descriptor_at      body + start, length           0                    20, 22
 *     service, a BIT, a broadcaster
 *     descriptors of a NIT               isdb_tlv_at             body + start, length           0                    20
 *     descriptors of a stream            isdb_tlv_at             the streams' loop + start,     0                    20
 *                                                                length
 *     descriptor 0001h                   isdb_timestamp_at       its body                       0                    20
 *     descriptor 8026h: MPUs             isdb_mpu_at             its body                       start                20, 22
 *     an MPU's access units              isdb_access_unit_at     that body + units_start,       0                    20
 *                                                                units_length
 *     descriptor 800Dh, TLV descriptor   isdb_listed_service_at  its body                       0                    20
 *     41h
 *     descriptor 8012h                   isdb_genre_at           its body                       0                    20
 *
 * Where a table was read with code 0, these walks from these places give its elements one by one, as many as it counts, and answer no 22;
 * only a descriptor loop may, at a descriptor that does not fit: those before it count, and the table stands. Such loops are counted by
 * "breaks".
 *
 * Texts are UTF-8 as they came, with no 0 behind them. Times of day are 40 bits in Japan standard time: a day number (modified Julian
 * date) in the high 16, then hours, minutes and seconds in two decimal digits each (BCD). A duration is 24 bits: the same without a day.
 * All ones in a time or a duration: not known. Both are handed out as their bits stand.
 *
 *
 * 3. An example: the packet ids of an MPT's assets
 *
 *     uint64_t mpt[ISDB_NUMBERS], asset[ISDB_NUMBERS];
 *     if (isdb_mpt_parse(t, length, mpt) == ISDB_OK) {
 *         size_t at = mpt[8];
 *         for (uint64_t i = 0; i < mpt[7] && isdb_asset_at(t, length, at, asset) == ISDB_OK; i++) {
 *             if (asset[10]) printf("%u\n", (unsigned)asset[11]);
 *             at = asset[12];
 *         }
 *     }
 */
#ifndef ISDB_TABLES_H
#define ISDB_TABLES_H

#include "isdb.h"

#ifdef __cplusplus
extern "C" {
#endif

/* What isdb_decode found, its first number. */
enum isdb_descriptor {
    ISDB_OTHER = 0,
    ISDB_MPU_TIMESTAMP = 1,
    ISDB_EXTENDED_TIMESTAMP = 2,
    ISDB_ACCESS_CONTROL = 3,
    ISDB_SCRAMBLER = 4,
    ISDB_STREAM_IDENTIFIER = 5,
    ISDB_SERVICE = 6,
    ISDB_SERVICE_LIST = 7,
    ISDB_SHORT_EVENT = 8,
    ISDB_CONTENT = 9,
    ISDB_HEVC = 10,
    ISDB_BROADCASTER_NAME = 11
};

/* The type of a location, its first number. */
enum isdb_location {
    ISDB_SAME_FLOW = 0,
    ISDB_IPV4 = 1,
    ISDB_IPV6 = 2,
    ISDB_MPEG2_TS = 3,
    ISDB_MPEG2_TS_IPV6 = 4,
    ISDB_URL = 5
};

/* ---- MPT: the assets of a package (ARIB STD-B60, Table 7-6) ---- */

/* t is the table, its table id first; bytes behind those that it declares are not looked at. Codes: 0, 22. v: table_id, version, mode,
 * package_start, package_length (the package id), descriptors_start, descriptors_length, assets (how many), start (of the first);
 * service?, service (the last two bytes of the package id); breaks. */
uint8_t isdb_mpt_parse(const uint8_t *t, size_t t_length, uint64_t v[ISDB_NUMBERS]);

/* An asset. Codes: 0, 22. v: identifier_type, asset_id_scheme, id_start, id_length, asset_type (four characters, the first one highest),
 * clock_relation (0 or 1), locations (how many), locations_start, descriptors_start, descriptors_length; packet_id?, packet_id (of its
 * first location that has one); next. */
uint8_t isdb_asset_at(const uint8_t *t, size_t t_length, size_t at, uint64_t v[ISDB_NUMBERS]);

/* A location (Table 7-9): of an asset, of a package, of an access control descriptor (in its body, at 2). Codes: 0, 22. v: type, src_high,
 * src_low, dst_high, dst_low, port (the destination's), packet_id, network_id, transport_stream_id, pid, url_start, url_length, size (how
 * many bytes it took). What a type does not have is 0:
 *
 *     type                   has
 *     0 ISDB_SAME_FLOW       packet_id, in the IP flow that the table came by
 *     1 ISDB_IPV4            src_low, dst_low (addresses of 32 bits), port, packet_id
 *     2 ISDB_IPV6            src_high, src_low, dst_high, dst_low, port, packet_id
 *     3 ISDB_MPEG2_TS        network_id, transport_stream_id, pid (all 16 bits of the field)
 *     4 ISDB_MPEG2_TS_IPV6   port, pid
 *     5 ISDB_URL             url_start, url_length; url_start counts from the location's own first byte, so that the text is
 *                            t + at + url_start */
uint8_t isdb_location_at(const uint8_t *t, size_t t_length, size_t at, uint64_t v[ISDB_NUMBERS]);

/* ---- PLT: where packages travel (Table 7-11) ---- */

/* t as of an MPT. Codes: 0, 22. v: version, packages (how many; the first stands at 5), ip_deliveries (how many), deliveries_start. */
uint8_t isdb_plt_parse(const uint8_t *t, size_t t_length, uint64_t v[ISDB_NUMBERS]);

/* A package. Codes: 0, 22. v: id_start, id_length, location_start (for isdb_location_at), next. */
uint8_t isdb_package_at(const uint8_t *t, size_t t_length, size_t at, uint64_t v[ISDB_NUMBERS]);

/* An IP delivery. Codes: 0, 22. v: transport_file_id, location_type, next. */
uint8_t isdb_delivery_at(const uint8_t *t, size_t t_length, size_t at, uint64_t v[ISDB_NUMBERS]);

/* ---- Sections ----
 *
 * Each call reads a whole section, its CRC included; bytes behind the section are not looked at. It does not ask for the table id.
 * Codes: 0, 22 (the body does not follow the table's structure), 23, 24. v of the first five begins with the header's eight numbers:
 * table_id, extension (service id of an EIT, TLV stream id of an SDT, network id of a BIT and a NIT), version, current (0 or 1),
 * section_number, last_section_number, body_start, body_length. */

/* MH-EIT, the events of a service (Table 7-18). v: header; tlv_stream_id, original_network_id, segment_last_section_number, last_table_id,
 * events (how many), breaks. */
uint8_t isdb_eit_parse(const uint8_t *section, size_t section_length, uint64_t v[ISDB_NUMBERS]);

/* MH-SDT, the services of a TLV stream (Table 7-23). v: header; original_network_id, services (how many), breaks. */
uint8_t isdb_sdt_parse(const uint8_t *section, size_t section_length, uint64_t v[ISDB_NUMBERS]);

/* MH-BIT, the broadcasters of a network (Table 7-21). v: header; broadcast_view_propriety (0 or 1), descriptors_start,
 * descriptors_length (in the body), broadcasters (how many), breaks. */
uint8_t isdb_bit_parse(const uint8_t *section, size_t section_length, uint64_t v[ISDB_NUMBERS]);

/* TLV-NIT, the TLV streams of a network (Table 5-1). v: header; descriptors_start, descriptors_length (the network's, in the body),
 * loop_start, loop_length (of the streams, in the body), streams (how many). */
uint8_t isdb_nit_parse(const uint8_t *section, size_t section_length, uint64_t v[ISDB_NUMBERS]);

/* AMT, the IP flows of services (Table 5-2). v: header; services (how many). */
uint8_t isdb_amt_parse(const uint8_t *section, size_t section_length, uint64_t v[ISDB_NUMBERS]);

/* MH-TOT, the time (Table 7-25): a short section, with no such header. v: jst (40 bits), descriptors_start, descriptors_length (in the
 * section), breaks. */
uint8_t isdb_tot_parse(const uint8_t *section, size_t section_length, uint64_t v[ISDB_NUMBERS]);

/* ---- Entries of a section's body ---- */

/* An event of an EIT. Codes: 0, 20, 22. v: event_id, start (40 bits), duration (24 bits), running_status, free_ca (0 or 1),
 * descriptors_start, descriptors_length, next. */
uint8_t isdb_event_at(const uint8_t *body, size_t body_length, size_t at, uint64_t v[ISDB_NUMBERS]);

/* A service of an SDT. Codes: 0, 20, 22. v: service_id, eit_user_defined_flags, eit_schedule (0 or 1), eit_present_following (0 or 1),
 * running_status, free_ca (0 or 1), descriptors_start, descriptors_length, next. */
uint8_t isdb_service_at(const uint8_t *body, size_t body_length, size_t at, uint64_t v[ISDB_NUMBERS]);

/* A broadcaster of a BIT. Codes: 0, 20, 22. v: broadcaster_id, descriptors_start, descriptors_length, next. */
uint8_t isdb_broadcaster_at(const uint8_t *body, size_t body_length, size_t at, uint64_t v[ISDB_NUMBERS]);

/* A stream of a NIT's loop of streams. Codes: 0, 20, 22. v: tlv_stream_id, original_network_id, descriptors_start, descriptors_length (in
 * that loop), next. */
uint8_t isdb_stream_at(const uint8_t *streams, size_t streams_length, size_t at, uint64_t v[ISDB_NUMBERS]);

/* A service of an AMT: its IP flow. Codes: 0, 22. v: service_id, ipv6 (0 or 1, of both addresses), src_high, src_low, src_mask, dst_high,
 * dst_low, dst_mask, next. An IPv4 address is the low number; a mask is a length in bits. */
uint8_t isdb_flow_at(const uint8_t *body, size_t body_length, size_t at, uint64_t v[ISDB_NUMBERS]);

/* ---- Descriptors ---- */

/* A descriptor of a loop. Codes: 0, 20, 22 (it does not fit). v: tag (16 bits), body_start, body_length, next. */
uint8_t isdb_descriptor_at(const uint8_t *loop, size_t loop_length, size_t at, uint64_t v[ISDB_NUMBERS]);

/* A descriptor of a NIT's loop. Codes: 0, 20 (the end, or it does not fit). v: tag (8 bits), body_start, body_length, next. By tag: 40h,
 * the network's name: the whole body; 41h, a service list: isdb_listed_service_at; 43h: isdb_frequency_khz. */
uint8_t isdb_tlv_at(const uint8_t *loop, size_t loop_length, size_t at, uint64_t v[ISDB_NUMBERS]);

/* The frequency of a satellite delivery system descriptor, tag 43h of a NIT's loop. Codes: 0, 20 (another tag, too short, or a digit above
 * 9). v: kHz. */
uint8_t isdb_frequency_khz(uint8_t tag, const uint8_t *body, size_t body_length, uint64_t v[ISDB_NUMBERS]);

/* What a descriptor of a tag is. Code: 0. Parts count in the body. v, by the first number:
 *
 *     kind                          tag    then
 *      0 ISDB_OTHER                        nothing: another tag, or a body too short for its tag
 *      1 ISDB_MPU_TIMESTAMP         0001h  entries by isdb_timestamp_at
 *      2 ISDB_EXTENDED_TIMESTAMP    8026h  timescale?, timescale (units per second); default?, default_pts_offset (of every access unit);
 *                                          own (1: each access unit has a PTS offset of its own); start (of the MPUs, for isdb_mpu_at)
 *      3 ISDB_ACCESS_CONTROL        8004h  ca_system_id, location (1: one stands at 2, for isdb_location_at)
 *      4 ISDB_SCRAMBLER             8005h  layer_type (1 MMTP packets, 2 IP packets), system_id (1 AES, 2 Camellia)
 *      5 ISDB_STREAM_IDENTIFIER     8011h  component_tag
 *      6 ISDB_SERVICE               8019h  service_type, provider_start, provider_length, name_start, name_length
 *      7 ISDB_SERVICE_LIST          800Dh  entries by isdb_listed_service_at
 *      8 ISDB_SHORT_EVENT           F001h  three characters of the language (ISO 639), name_start, name_length, text_start, text_length
 *      9 ISDB_CONTENT               8012h  genres by isdb_genre_at
 *     10 ISDB_HEVC                  800Ah  profile_idc, tier (0 or 1), level_idc
 *     11 ISDB_BROADCASTER_NAME      8018h  name_start, name_length */
uint8_t isdb_decode(uint16_t tag, const uint8_t *body, size_t body_length, uint64_t v[ISDB_NUMBERS]);

/* An entry of descriptor 0001h: when an MPU is presented. Codes: 0, 20. v: mpu_sequence_number, presentation_time (an NTP timestamp),
 * next. */
uint8_t isdb_timestamp_at(const uint8_t *body, size_t body_length, size_t at, uint64_t v[ISDB_NUMBERS]);

/* An MPU of descriptor 8026h; own as isdb_decode gave it (0 no, any other yes). Codes: 0, 20, 22. v: mpu_sequence_number, leap_indicator,
 * decoding_time_offset, access_units (how many), units_start, units_length (in the body), next. */
uint8_t isdb_mpu_at(const uint8_t *body, size_t body_length, uint8_t own, size_t at, uint64_t v[ISDB_NUMBERS]);

/* An access unit of an MPU's units, in decoding order; default_given, default_pts_offset and own as isdb_decode gave them. Codes: 0, 20. v:
 * dts_pts_offset; pts?, pts_offset (its own, or the default); next. */
uint8_t isdb_access_unit_at(const uint8_t *units, size_t units_length, uint8_t default_given, uint16_t default_pts_offset, uint8_t own,
                            size_t at, uint64_t v[ISDB_NUMBERS]);

/* A service of a service list: descriptor 800Dh, or 41h of a NIT's loop. Codes: 0, 20. v: service_id, service_type, next. */
uint8_t isdb_listed_service_at(const uint8_t *body, size_t body_length, size_t at, uint64_t v[ISDB_NUMBERS]);

/* A genre of descriptor 8012h. Codes: 0, 20. v: level_1, level_2, user (the broadcaster's own byte), next. */
uint8_t isdb_genre_at(const uint8_t *body, size_t body_length, size_t at, uint64_t v[ISDB_NUMBERS]);

/* ---- Beside them ---- */

/* The CRC of ISO/IEC 13818-1, Annex A: 0 over a whole section, its own CRC included. */
uint32_t isdb_crc32(const uint8_t *bytes, size_t length);

/* The seconds since 1970 of an NTP timestamp: exact where its low 11 bits are 0, else rounded. */
double isdb_ntp_to_unix(uint64_t timestamp);

#ifdef __cplusplus
}
#endif

#endif

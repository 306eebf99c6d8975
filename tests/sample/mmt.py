"""Writers for the parts of a TLV stream: TLV, IP and MMTP packets (ARIB STD-B32 Part 3), payloads, messages, tables and descriptors
(ARIB STD-B60)."""
import hashlib
import ipaddress
import pathlib
import sys

sys.path.insert(0, str(pathlib.Path(__file__).resolve().parents[1] / "oracle"))
from wire import crc, number

COMPLETE, HEAD, MIDDLE, LAST = range(4)
MPU, GENERIC_OBJECT, MESSAGES, FEC_REPAIR = range(4)
IPV4, IPV6, COMPRESSED, CONTROL, NULL = 1, 2, 3, 0xFE, 0xFF


def coded(label, n):
    """Bytes as of a coded picture or sound, the same for the same label."""
    return hashlib.shake_128(label.encode()).digest(n)


def counted(data, width):
    return number(len(data), width) + data


def counted12(data, high=0xF):
    """Data behind a length of 12 bits; `high` are the four bits before it."""
    return number(high << 12 | len(data), 2) + data


def address(text):
    return ipaddress.ip_address(text).packed


# Locations (STD-B60 Table 7-9)


def same_flow(packet_id):
    return b"\0" + number(packet_id, 2)


def at_ip(src, dst, port, packet_id):
    """01 or 02, as the addresses are."""
    src, dst = address(src), address(dst)
    return bytes([1 if len(src) == 4 else 2]) + src + dst + number(port, 2) + number(packet_id, 2)


def at_ts(network_id, ts_id, pid):
    return b"\3" + number(network_id, 2) + number(ts_id, 2) + number(0xE000 | pid, 2)


def at_ts_ipv6(src, dst, port, pid):
    return b"\4" + address(src) + address(dst) + number(port, 2) + number(0xE000 | pid, 2)


def at_url(text):
    return b"\5" + counted(text.encode(), 1)


# Descriptors (STD-B60 7.4.3)


def descriptor(tag, body):
    wide = tag == 2 or 0x4000 <= tag < 0x7000 or tag >= 0xF000
    return number(tag, 2) + counted(body, 2 if wide else 4 if 0x7000 <= tag < 0x8000 else 1)


def mpu_timestamp(entries):
    return descriptor(0x0001, b"".join(number(mpu, 4) + number(time, 8) for mpu, time in entries))


def extended_timestamp(timescale, default, mpus):
    """MPUs are (number, leap, offset, access units); a unit is (DTS-PTS offset, PTS offset or none)."""
    each = any(pts is not None for m in mpus for _, pts in m[3])
    kind = 1 if default is not None else 2 if each else 0
    body = bytes([0xF8 | kind << 1 | (timescale is not None)])
    body += number(timescale, 4) if timescale is not None else b""
    body += number(default, 2) if default is not None else b""
    for mpu, leap, offset, units in mpus:
        body += number(mpu, 4) + bytes([leap << 6 | 0x3F]) + number(offset, 2) + bytes([len(units)])
        body += b"".join(number(dts, 2) + (number(pts, 2) if kind == 2 else b"") for dts, pts in units)
    return descriptor(0x8026, body)


def dependency(asset_ids):
    return descriptor(0x0002, bytes([len(asset_ids)]) + b"".join(bytes(4) + counted(i, 1) for i in asset_ids))


def access_control(ca_system_id, location, private=b""):
    return descriptor(0x8004, number(ca_system_id, 2) + location + private)


def scrambler(layer_type, system_id, private=b""):
    return descriptor(0x8005, bytes([layer_type << 6 | 0x3F, system_id]) + private)


def hevc(profile_idc, tier, level_idc):
    flags_and_copied = bytes([0xB0]) + bytes(5)
    return descriptor(0x800A, bytes([tier << 5 | profile_idc]) + number(0x20000000, 4) + flags_and_copied + bytes([level_idc, 0x3F, 0xFC]))


def service_list(services):
    return descriptor(0x800D, services_of(services))


def services_of(services):
    return b"".join(number(service_id, 2) + bytes([kind]) for service_id, kind in services)


def stream_identifier(component_tag):
    return descriptor(0x8011, number(component_tag, 2))


def content(genres):
    return descriptor(0x8012, b"".join(bytes([a << 4 | b, user]) for a, b, user in genres))


def broadcaster_name(name):
    return descriptor(0x8018, name.encode())


def service(kind, provider, name):
    return descriptor(0x8019, bytes([kind]) + counted(provider.encode(), 1) + counted(name.encode(), 1))


def short_event(language, name, text):
    return descriptor(0xF001, language.encode() + counted(name.encode(), 1) + counted(text.encode(), 2))


def extended_event(at, last, language, items, text):
    loop = b"".join(counted(a.encode(), 1) + counted(b.encode(), 2) for a, b in items)
    return descriptor(0xF002, bytes([at << 4 | last]) + language.encode() + counted(loop, 2) + counted(text.encode(), 2))


# Tables of PA messages (STD-B60 Tables 7-6, 7-11)


def table(table_id, version, body):
    return bytes([table_id, version % 256]) + counted(body, 2)


def asset(asset_id, asset_type, locations, descriptors=b"", clock_relation=0, scheme=0, identifier_type=0):
    head = bytes([identifier_type]) + number(scheme, 4) + counted(asset_id, 1) + asset_type + bytes([0xFE | clock_relation])
    return head + bytes([len(locations)]) + b"".join(locations) + counted(descriptors, 2)


def mpt(version, package_id, descriptors, assets, table_id=0x20, mode=0):
    body = bytes([0xFC | mode]) + counted(package_id, 1) + counted(descriptors, 2) + bytes([len(assets)])
    return table(table_id, version, body + b"".join(assets))


def plt(version, packages, deliveries):
    """Packages are (id, location); deliveries (transport file id, location without a packet id, descriptors)."""
    body = bytes([len(packages)]) + b"".join(counted(i, 1) + location for i, location in packages)
    body += bytes([len(deliveries)])
    return table(0x80, version, body + b"".join(number(i, 4) + location + counted(d, 2) for i, location, d in deliveries))


# Sections (STD-B60 7.2.3.2; Tables 7-18, 7-21, 7-23, 7-25, 5-1, 5-2)


def checked(data):
    return data + number(crc(data), 4)


def section(table_id, extension, version, body, at=0, last=0, current=1):
    inner = number(extension, 2) + bytes([0xC0 | version << 1 | current, at, last]) + body
    return checked(bytes([table_id]) + number(0xF000 | len(inner) + 4, 2) + inner)


def bcd(value, digits):
    return bytes.fromhex(f"{value:0{digits}d}")


def jst(time):
    """Modified Julian date and six digits."""
    return number(time.toordinal() - 678576, 2) + bcd(int(f"{time:%H%M%S}"), 6)


def event(event_id, start, minutes, running_status, free_ca, descriptors):
    duration = bcd(minutes // 60, 2) + bcd(minutes % 60, 2) + b"\0"
    return number(event_id, 2) + jst(start) + duration + counted12(descriptors, running_status << 1 | free_ca)


def eit(service_id, version, stream, events, table_id=0x8B, at=0, last=0, segment_last=0):
    """A stream is (TLV stream id, original network id)."""
    body = number(stream[0], 2) + number(stream[1], 2) + bytes([segment_last, table_id]) + b"".join(events)
    return section(table_id, service_id, version, body, at, last)


def sdt_service(service_id, flags, running_status, free_ca, descriptors):
    """Flags are (user defined, schedule, present and following)."""
    user, schedule, present = flags
    head = number(service_id, 2) + bytes([0xE0 | user << 2 | schedule << 1 | present])
    return head + counted12(descriptors, running_status << 1 | free_ca)


def sdt(stream, version, services, table_id=0x9F):
    return section(table_id, stream[0], version, number(stream[1], 2) + b"\xff" + b"".join(services))


def bit(network_id, version, propriety, descriptors, broadcasters):
    body = counted12(descriptors, 0xE | propriety)
    return section(0x9D, network_id, version, body + b"".join(bytes([i]) + counted12(d) for i, d in broadcasters))


def tlv_descriptor(tag, body):
    return bytes([tag]) + counted(body, 1)


def satellite_delivery(frequency, orbit=b"\x11\x00", system=b"\xe9", rate=b"\x03\x37\x56\x11"):
    """The frequency as its eight digits, in units of 10 kHz."""
    return tlv_descriptor(0x43, bytes.fromhex(frequency) + orbit + system + rate)


def nit(network_id, version, descriptors, streams, table_id=0x40, current=1):
    loop = b"".join(number(i, 2) + number(network, 2) + counted12(d) for (i, network), d in streams)
    return section(table_id, network_id, version, counted12(descriptors) + counted12(loop), current=current)


def amt(version, services):
    """Services are (id, source, mask, destination, mask, private bytes)."""
    body = number(len(services) << 6 | 0x3F, 2)
    for service_id, src, src_mask, dst, dst_mask, private in services:
        src, dst = address(src), address(dst)
        loop = src + bytes([src_mask]) + dst + bytes([dst_mask]) + private
        body += number(service_id, 2) + number((len(src) == 16) << 15 | 0x7C00 | len(loop), 2) + loop
    return section(0xFE, 0, version, body)


def tot(time, descriptors):
    inner = jst(time) + counted12(descriptors)
    return checked(b"\xa1" + number(0x7000 | len(inner) + 4, 2) + inner)


# Messages (STD-B60 Tables 7-1 to 7-4) and payloads (Table 6-1)


def pa_message(tables, listed=True):
    """A PA message with the list of its tables, or with an empty list."""
    names = b"".join(t[:4] for t in tables) if listed else b""
    return bytes(3) + counted(bytes([len(names) // 4]) + names + b"".join(tables), 4)


def message(message_id, data, version=0):
    """An M2 section (0x8000), CA (0x8001) or M2 short section message (0x8002)."""
    return number(message_id, 2) + bytes([version]) + counted(data, 2)


def message_payload(data, part=COMPLETE, long=0, aggregated=0):
    return bytes([part << 6 | long << 1 | aggregated, 0]) + data


def divided(data, size):
    """Parts of at most `size` bytes, each with its place among them and how many follow."""
    parts = [data[at : at + size] for at in range(0, len(data), size)]
    places = [HEAD] + [MIDDLE] * (len(parts) - 2) + [LAST]
    return [(COMPLETE, data, 0)] if len(parts) < 2 else [(p, d, len(parts) - 1 - i) for i, (p, d) in enumerate(zip(places, parts))]


def timed(fragment, sample, offset, data, priority=0, dependencies=0):
    """A unit of timed data: the MFU header and the data."""
    return number(fragment, 4) + number(sample, 4) + number(offset, 4) + bytes([priority, dependencies]) + data


def item(item_id, data):
    """A unit of non-timed data."""
    return number(item_id, 4) + data


def mpu_payload(mpu, units, is_timed=1, part=COMPLETE, follow=0, fragment_type=2):
    """Several units go as an aggregate."""
    together = len(units) > 1
    data = b"".join(counted(u, 2) if together else u for u in units)
    flags = fragment_type << 4 | is_timed << 3 | part << 1 | together
    return counted(bytes([flags, follow % 256]) + number(mpu, 4) + data, 2)


# MMTP and IP packets


def scramble_extension(control, before=b""):
    """The header extension of several types with the scramble information as its last entry."""
    return number(0, 2) + counted(before + number(0x8001, 2) + counted(bytes([0xE0 | control << 3]), 2), 2)


def mmtp(kind, packet_id, time, sequence, payload, rap=0, extension=b"", counter=None):
    flags = (counter is not None) << 5 | bool(extension) << 1 | rap
    head = bytes([flags, kind]) + number(packet_id, 2) + number(time, 4) + number(sequence, 4)
    return head + (number(counter, 4) if counter is not None else b"") + extension + payload


def checksum(data):
    """RFC 1071."""
    data += bytes(len(data) % 2)
    total = sum(int.from_bytes(data[at : at + 2], "big") for at in range(0, len(data), 2))
    while total > 0xFFFF:
        total = (total & 0xFFFF) + (total >> 16)
    return number(0xFFFF - total, 2)


def ipv4(src, dst, ports, payload, identification=0, protocol=17):
    src, dst = address(src), address(dst)
    head = b"\x45\0" + number(28 + len(payload), 2) + number(identification, 2) + b"\x40\0\x40" + bytes([protocol])
    udp = number(ports[0], 2) + number(ports[1], 2) + number(8 + len(payload), 2) + bytes(2)
    return head + checksum(head + bytes(2) + src + dst) + src + dst + udp + payload


def ipv6(src, dst, ports, payload):
    src, dst, n = address(src), address(dst), 8 + len(payload)
    udp = number(ports[0], 2) + number(ports[1], 2) + number(n, 2)
    check = checksum(src + dst + number(n, 4) + bytes([0, 0, 0, 17]) + udp + bytes(2) + payload)
    return number(0x60000000, 4) + number(n, 2) + b"\x11\x40" + src + dst + udp + check + payload


def compressed(context, count, header_type, header, payload):
    return number(context << 4 | count % 16, 2) + bytes([header_type]) + header + payload


def partial_ipv4(src, dst, ports, identification=0):
    head = b"\x45\0" + number(identification, 2) + b"\x40\0\x40\x11"
    return head + address(src) + address(dst) + number(ports[0], 2) + number(ports[1], 2)


def partial_ipv6(src, dst, ports):
    return number(0x60000000, 4) + b"\x11\x40" + address(src) + address(dst) + number(ports[0], 2) + number(ports[1], 2)


def ntp(time, reference):
    """STD-B60 Table 3-1: a broadcast server's packet."""
    head = b"\x25\x01\x00\xec" + bytes(4) + number(0x12, 4) + b"GPS\0"
    return head + number(reference, 8) + bytes(16) + number(time, 8)


def tlv(kind, data):
    return b"\x7f" + bytes([kind]) + counted(data, 2)

"""What the scripts here share."""
import pathlib
import random

TOP = pathlib.Path(__file__).resolve().parents[2]


def crc(data):
    """CRC-32 of ISO/IEC 13818-1."""
    z = 0xFFFFFFFF
    for byte in data:
        z ^= byte << 24
        for _ in range(8):
            z = ((z << 1) ^ 0x04C11DB7 if z >> 31 else z << 1) & 0xFFFFFFFF
    return z


def number(value, width):
    return (value % 256**width).to_bytes(width, "big")


def some_bytes(n):
    return bytes(random.randrange(256) for _ in range(n))


def cases():
    """The stored cases, each its word and its bytes; lines that are not answered, since something is wrong with them, are none."""
    answers = (TOP / "crates/cases/stdout").read_text().splitlines()
    answered = [line for line in answers if " ->" in line and line[0] not in "# " and " -> error:" not in line]
    found = [line.split(" ->", 1)[0].split(" ", 1) for line in answered]
    return [(word, bytes.fromhex(hexes)) for word, hexes in found]

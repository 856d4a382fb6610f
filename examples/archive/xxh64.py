"""XXH64, the digest that soxchain-job puts into a record, in plain Python: for where there is no xxhsum, which is much faster."""
import struct

MASK = (1 << 64) - 1
PRIME_1, PRIME_2, PRIME_3 = 0x9E3779B185EBCA87, 0xC2B2AE3D27D4EB4F, 0x165667B19E3779F9
PRIME_4, PRIME_5 = 0x85EBCA77C2B2AE63, 0x27D4EB2F165667C5
STRIPE = 32


def rotated(value, count):
    return (value << count | value >> 64 - count) & MASK


def mixed(lane, word):
    """A lane once it has taken a word of 64 bits."""
    return rotated(lane + word * PRIME_2 & MASK, 31) * PRIME_1 & MASK


class Xxh64:
    """A digest that takes its bytes piece by piece, with the seed 0."""

    def __init__(self):
        self.lanes = [PRIME_1 + PRIME_2 & MASK, PRIME_2, 0, -PRIME_1 & MASK]
        self.size, self.rest = 0, b''

    def update(self, piece):
        """Takes the next bytes."""
        self.size += len(piece)
        data = self.rest + piece
        end = len(data) // STRIPE * STRIPE
        one, two, three, four = self.lanes
        for first, second, third, fourth in struct.iter_unpack('<4Q', data[:end]):
            one, two, three, four = mixed(one, first), mixed(two, second), mixed(three, third), mixed(four, fourth)
        self.lanes, self.rest = [one, two, three, four], data[end:]

    def merged(self):
        """The lanes in one word."""
        if self.size < STRIPE:
            return PRIME_5
        value = sum(rotated(lane, count) for lane, count in zip(self.lanes, (1, 7, 12, 18))) & MASK
        for lane in self.lanes:
            value = (value ^ mixed(0, lane)) * PRIME_1 + PRIME_4 & MASK
        return value

    def hexdigest(self):
        """The digest of all bytes so far, as 16 hexadecimal digits."""
        value, rest = self.merged() + self.size & MASK, self.rest
        for (word,) in struct.iter_unpack('<Q', rest[:len(rest) // 8 * 8]):
            value = rotated(value ^ mixed(0, word), 27) * PRIME_1 + PRIME_4 & MASK
        rest = rest[len(rest) // 8 * 8:]
        if len(rest) >= 4:
            value = rotated(value ^ int.from_bytes(rest[:4], 'little') * PRIME_1 & MASK, 23) * PRIME_2 + PRIME_3 & MASK
            rest = rest[4:]
        for byte in rest:
            value = rotated(value ^ byte * PRIME_5 & MASK, 11) * PRIME_1 & MASK
        value = (value ^ value >> 33) * PRIME_2 & MASK
        value = (value ^ value >> 29) * PRIME_3 & MASK
        return f'{value ^ value >> 32:016x}'

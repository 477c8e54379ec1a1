"""The checksums, bit by bit, low bit first.

01: CRC-16 with reflected polynomial A001, start FFFF, no final change; sent low byte first.
001, 2.3.2: CRC-32-IEEE 802.3: reflected polynomial EDB88320, start FFFFFFFF, all bits turned at last.
"""


def divided(message, remainder, polynomial):
    """The remainder after the message's bits."""
    for byte in message:
        for bit in range(8):
            sent = byte >> bit & 1
            remainder = remainder >> 1 ^ (polynomial if remainder & 1 != sent else 0)
    return remainder


def crc16(message, start=0xFFFF):
    return divided(message, start, 0xA001)


def crc32(message, start=0):
    """The start is the CRC-32 of the bytes before, 0 for none, so that a message in several stretches is summed one after the other."""
    return divided(message, start ^ 0xFFFFFFFF, 0xEDB88320) ^ 0xFFFFFFFF


def low_byte_first(checksum):
    return bytes([checksum % 256, checksum // 256])

"""Upper-case hexadecimal characters, two a byte, the high half first."""
DIGITS = b"0123456789ABCDEF"


def digit(number):
    """0 for a number above 15."""
    return DIGITS[number] if number < 16 else 0


def digit_of(character):
    """16 for a character that is no digit."""
    return DIGITS.index(character) if character in DIGITS else 16


def characters(message):
    return bytes(digit(half) for byte in message for half in (byte // 16, byte % 16))


def message_of(characters):
    return bytes(16 * digit_of(high) + digit_of(low) for high, low in zip(characters[0::2], characters[1::2]))

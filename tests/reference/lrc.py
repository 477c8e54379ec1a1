"""W-201, LRC: the sum of all earlier bytes and it is 0 modulo 256."""


def summed(message, start=0):
    return (start + sum(message)) % 256


def lrc(message):
    return next(byte for byte in range(256) if summed(message + bytes([byte])) == 0)

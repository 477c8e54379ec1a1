"""01, the line collector: a frame buffer of 255 zero bytes and count 0. 02, W-205: at silence, how many bytes lack."""
from pulsar_frame import len_field
from refusals import read

ROOM = 255


def fresh():
    return bytes(ROOM), 0


def unfit(count):
    return [(20, lambda: count > ROOM)]


def push(state, byte):
    """Each byte is added; bytes after the 255th are dropped."""
    buffer, count = state

    def added():
        if count == ROOM:
            return state
        return buffer[:count] + bytes([byte]) + buffer[count + 1:], count + 1
    return read(unfit(count), added)


def missing(held):
    """Whatever the address: the collector judges nothing else."""
    if len(held) >= 10 and len_field(held) > len(held):
        return len_field(held) - len(held)
    return 0


def silence(state):
    """Hands over the collected bytes, and tells how many lack; the collector starts afresh."""
    buffer, count = state
    return read(unfit(count), lambda: (buffer[:count], missing(buffer[:count]), fresh()))

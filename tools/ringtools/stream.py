"""A customer's stream: any byte of it by its position, from the port's text, trace and offset."""

from functools import lru_cache

CHUNK = 2349  # bytes of a VC-4: 9 rows of 261
COLUMNS = 261
TEXT_BYTES = 2340


def text_parity(text, number):
    """BIP-8 of the text bytes of one VC-4."""
    rounds, rest = divmod(TEXT_BYTES, len(text))
    begin = TEXT_BYTES * number % len(text)
    result = 0
    for i, byte in enumerate(text):
        if (rounds + ((i - begin) % len(text) < rest)) % 2:
            result ^= byte
    return result


def trace_byte(port, number):
    place = number % 64
    return port.trace[place] if place < len(port.trace) else 0x20


def parity(port, number):
    """B3 of a VC-4: BIP-8 over the whole of the one before, 0 in the first."""
    length = len(port.text)
    of_start = {TEXT_BYTES * v % length: text_parity(port.text, v) for v in range(length)}
    result = 0
    for v in range(number):
        result ^= of_start[TEXT_BYTES * v % length] ^ trace_byte(port, v) ^ 0x01
    return result


def vc_byte(port, number, index):
    row, column = divmod(index, COLUMNS)
    if column > 0:
        return port.text[(TEXT_BYTES * number + (COLUMNS - 1) * row + column - 1) % len(port.text)]
    if row == 0:
        return trace_byte(port, number)
    if row == 1:
        return parity(port, number)
    return 0x01 if row == 2 else 0x00


@lru_cache(maxsize=65536)
def stream_bytes(port, position, count):
    """`count` bytes of a port's stream from `position` on."""
    phase = (783 + 3 * port.offset) % CHUNK
    begin = position + (CHUNK - phase) % CHUNK
    return bytes(vc_byte(port, *divmod(begin + i, CHUNK)) for i in range(count))

"""Reads a PNG picture of 8 bits a channel, without interlacing."""
import struct, zlib

CHANNELS = {2: 3, 6: 4}


def chunks(data):
    """The type and the bytes of each chunk."""
    at = 8
    while at < len(data):
        (length,) = struct.unpack(">I", data[at : at + 4])
        yield data[at + 4 : at + 8], data[at + 8 : at + 8 + length]
        at += 12 + length


def paeth(left, up, corner):
    """The neighbour that is nearest to left + up - corner."""
    guess = left + up - corner
    return min((abs(guess - left), 0, left), (abs(guess - up), 1, up), (abs(guess - corner), 2, corner))[2]


def unfilter(kind, row, above, step):
    """A row's bytes from its filtered ones."""
    if kind == 0:
        return row
    if kind == 2:
        return bytearray((byte + up) & 255 for byte, up in zip(row, above))
    for at in range(len(row)):
        left = row[at - step] if at >= step else 0
        corner = above[at - step] if at >= step else 0
        guess = {1: left, 3: (left + above[at]) // 2}.get(kind)
        row[at] = (row[at] + (paeth(left, above[at], corner) if guess is None else guess)) & 255
    return row


def read(path):
    """The rows of a picture, each a list of (red, green, blue)."""
    with open(path, "rb") as file:
        parts = list(chunks(file.read()))
    width, height, depth, kind, _, _, interlaced = struct.unpack(">IIBBBBB", parts[0][1])
    assert depth == 8 and kind in CHANNELS and interlaced == 0, (depth, kind, interlaced)
    data = zlib.decompress(b"".join(part for name, part in parts if name == b"IDAT"))
    step = CHANNELS[kind]
    length = width * step
    rows, above = [], bytearray(length)
    for y in range(height):
        start = y * (length + 1)
        above = unfilter(data[start], bytearray(data[start + 1 : start + 1 + length]), above, step)
        rows.append([tuple(above[x : x + 3]) for x in range(0, length, step)])
    return rows

"""The colours of a picture: a PNG of 8 bits a channel without interlacing, as browsers draw them."""
import struct
import zlib

SIGNATURE = b"\x89PNG\r\n\x1a\n"
# channels by the type of colour: RGB, and RGB with transparency
CHANNELS = {2: 3, 6: 4}


class Picture:
    """The lines of a picture, each as the bytes of its channels."""

    def __init__(self, png):
        assert png.startswith(SIGNATURE)
        chunks = list(chunks_of(png))
        self.width, self.height, depth, colour, _, _, interlaced = struct.unpack(">IIBBBBB", chunks[0][1])
        assert (depth, interlaced) == (8, 0) and colour in CHANNELS
        self.channels = CHANNELS[colour]
        data = zlib.decompress(b"".join(content for name, content in chunks if name == b"IDAT"))
        size = self.width * self.channels
        self.lines, before = [], bytes(size)
        for at in range(0, len(data), size + 1):
            before = unfiltered(data[at], data[at + 1:at + 1 + size], before, self.channels)
            self.lines.append(before)

    def colour(self, x, y):
        """The red, green and blue of a point."""
        at = int(x) * self.channels
        return tuple(self.lines[int(y)][at:at + 3])


def chunks_of(png):
    """The name and the content of each chunk."""
    at = len(SIGNATURE)
    while at < len(png):
        size, name = struct.unpack(">I4s", png[at:at + 8])
        yield name, png[at + 8:at + 8 + size]
        at += size + 12


def unfiltered(kind, line, above, channels):
    """A line as it was before its filter took the difference to what stands to the left, above, or both."""
    line = bytearray(line)
    for at in range(len(line)):
        left, up = line[at - channels] if at >= channels else 0, above[at]
        corner = above[at - channels] if at >= channels else 0
        line[at] = (line[at] + (0, left, up, (left + up) // 2, nearest(left, up, corner))[kind]) & 255
    return bytes(line)


def nearest(left, up, corner):
    """Of the three the one that is nearest to left + up - corner."""
    guess = left + up - corner
    return min((left, up, corner), key=lambda value: abs(guess - value))

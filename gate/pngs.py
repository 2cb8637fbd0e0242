"""PNG files made by hand, for tests and pictures."""
import struct
import zlib


def chunk(name, data):
    return struct.pack('>I', len(data)) + name + data + struct.pack('>I', zlib.crc32(name + data))


def png(wide, high, depth, kind, rows, more=()):
    """A file of these sides: `rows` are the bytes of its lines; `more` are chunks before the pixels."""
    head = chunk(b'IHDR', struct.pack('>IIBBBBB', wide, high, depth, kind, 0, 0, 0))
    lines = zlib.compress(b''.join(b'\0' + row for row in rows), 9)
    return b'\x89PNG\r\n\x1a\n' + head + b''.join(chunk(*each) for each in more) + chunk(b'IDAT', lines) + chunk(b'IEND', b'')

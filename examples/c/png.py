"""Pictures for the documents: png.py PICTURE.ppm PICTURE.png halves a PPM file and writes it as PNG; png.py --check PICTURE.ppm
PICTURE.png says whether the PNG file, which this program has written, holds that picture."""
import struct
import sys
import zlib


def halved(path):
    """The rows of a PPM file as grey, each pixel the mean of four."""
    with open(path, 'rb') as file:
        kind, size, most = file.readline(), file.readline(), file.readline()
        assert kind == b'P6\n' and most == b'255\n'
        wide, high = map(int, size.split())
        pixels = file.read()
    assert len(pixels) == 3 * wide * high
    rows = []
    for y in range(0, high, 2):
        above, below = (pixels[3 * wide * k:3 * wide * (k + 1)] for k in (y, y + 1))
        rows.append(bytes((above[i + c] + above[i + 3 + c] + below[i + c] + below[i + 3 + c]) // 4
                          for i in range(0, 3 * wide, 6) for c in range(3)))
    return wide // 2, rows


def chunk(kind, body):
    return struct.pack('>I', len(body)) + kind + body + struct.pack('>I', zlib.crc32(kind + body))


def png(wide, rows):
    head = struct.pack('>IIBBBBB', wide, len(rows), 8, 2, 0, 0, 0)
    body = zlib.compress(b''.join(b'\0' + row for row in rows), 9)
    return b'\x89PNG\r\n\x1a\n' + chunk(b'IHDR', head) + chunk(b'IDAT', body) + chunk(b'IEND', b'')


def rows_of(data, wide):
    """The rows of a PNG file that png has made."""
    at, body = 8, b''
    while at < len(data):
        length, kind = struct.unpack('>I4s', data[at:at + 8])
        body += data[at + 8:at + 8 + length] if kind == b'IDAT' else b''
        at += 12 + length
    lines = zlib.decompress(body)
    return [lines[k + 1:k + 1 + 3 * wide] for k in range(0, len(lines), 3 * wide + 1)]


source, target = sys.argv[-2:]
wide, rows = halved(source)
if sys.argv[1] == '--check':
    sys.exit(0 if rows_of(open(target, 'rb').read(), wide) == rows else f'png: {target} is another picture')
open(target, 'wb').write(png(wide, rows))

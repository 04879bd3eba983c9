"""Reads binary little-endian PLY as `hoardmagpie` writes it."""
import struct


def read_ply(path):
    """The rows of floats of the vertices, and the faces if there are any."""
    with open(path, 'rb') as file:
        data = file.read()
    end = data.index(b'end_header\n') + 11
    counts, width, element = {}, 0, ''
    for words in (line.split() for line in data[:end].decode().splitlines()):
        if words[0] == 'element':
            element = words[1]
            counts[element] = int(words[2])
        elif words[:2] == ['property', 'float'] and element == 'vertex':
            width += 1
    rows = list(struct.iter_unpack('<%df' % width, data[end:end + 4 * width * counts['vertex']]))
    start = end + 4 * width * counts['vertex']
    faces = struct.iter_unpack('<B3I', data[start:start + 13 * counts.get('face', 0)])
    return rows, [face[1:] for face in faces]

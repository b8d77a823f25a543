"""exports.py ARCHIVE NAME..: fails unless the archive defines exactly these symbols for others to link.

An archive begins with an index of them (System V format): a count, as many offsets of four bytes, and the names.
"""

import sys


def exported(path):
    with open(path, 'rb') as archive:
        data = archive.read()
    if data[:8] != b'!<arch>\n' or data[8:10] != b'/ ':
        sys.exit('exports.py: %s is not an archive with an index' % path)
    size = int(data[56:66])
    index = data[68:68 + size]
    count = int.from_bytes(index[:4], 'big')
    return sorted(name.decode() for name in index[4 + 4 * count:].split(b'\0')[:count])


def main():
    if len(sys.argv) < 2:
        sys.exit('exports.py: give the archive and the names that it is to export')
    try:
        names = exported(sys.argv[1])
    except OSError as error:
        sys.exit('exports.py: %s: %s' % (sys.argv[1], error.strerror))
    except ValueError:
        sys.exit('exports.py: the index of %s cannot be read' % sys.argv[1])
    if names != sorted(sys.argv[2:]):
        sys.exit('exports.py: %s exports %s' % (sys.argv[1], ', '.join(names) or 'nothing'))


main()

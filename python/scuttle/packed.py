"""Files as packed bytes, to be sent to another machine and back. Of a large file only the packed bytes are in memory."""
import zlib

# Quick packing makes a log a fifth of its size; a better one costs more time than it saves on the way.
LEVEL = 1
# How many bytes are packed or unpacked at once.
PIECE = 1 << 20


def pack_text(text: bytes) -> bytes:
    """The packed bytes of a text.

    >>> unpack(pack_text(b'min: 3 x1 ;'))
    b'min: 3 x1 ;'
    """
    return zlib.compress(text, LEVEL)


def unpack(packed: bytes) -> bytes:
    """The text of packed bytes."""
    return zlib.decompress(packed)


def pack_file(path: str) -> bytes:
    """The packed bytes of a file.

    >>> with open('a.log', 'wb') as out:
    ...     _ = out.write(b'scuttle proof version 1')
    >>> unpack(pack_file('a.log'))
    b'scuttle proof version 1'
    """
    packer, pieces = zlib.compressobj(LEVEL), []
    with open(path, 'rb') as file:
        piece = file.read(PIECE)
        while piece:
            pieces.append(packer.compress(piece))
            piece = file.read(PIECE)
    return b''.join(pieces + [packer.flush()])


def unpack_to(path: str, packed: bytes) -> None:
    """Writes the file of packed bytes.

    >>> unpack_to('a.log', pack_text(b'one'))
    >>> unpack(pack_file('a.log'))
    b'one'
    """
    unpacker = zlib.decompressobj()
    with open(path, 'wb') as out:
        while packed:
            out.write(unpacker.decompress(packed, PIECE))
            packed = unpacker.unconsumed_tail
        out.write(unpacker.flush())

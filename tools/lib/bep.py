"""Messages of the Block Exchange Protocol v1 as bytes, and from bytes, for the scripts that play a peer. Written from the protocol's tables and the
Protocol Buffers encoding, and not by the library."""
import hashlib

HELLO = b"\x2E\xA7\xD9\x0B\x00\x03\x0A\x01\x61"
TYPES = ("ClusterConfig", "Index", "IndexUpdate", "Request", "Response", "DownloadProgress", "Ping", "Close")
# The block size of a file whose record names none.
BLOCK = 131_072
BYTES = [bytes([it]) for it in range(128)]


def varint(number):
    if 0 <= number < 128:
        return BYTES[number]
    number &= 2**64 - 1
    out = b""
    while number > 127:
        out += bytes([number & 127 | 128])
        number >>= 7
    return out + bytes([number])


def field(number, value):
    """A field of a number, of bytes or a text; nothing where it is 0 or empty."""
    if isinstance(value, str):
        value = value.encode()
    if isinstance(value, bytes):
        return varint(number << 3 | 2) + varint(len(value)) + value if value else b""
    return varint(number << 3) + varint(value) if value else b""


def rep(number, value):
    """An element of a repeated field, also an empty one."""
    return varint(number << 3 | 2) + varint(len(value)) + value


def frame(kind, body):
    header = field(1, kind)
    return len(header).to_bytes(2, "big") + header + len(body).to_bytes(4, "big") + body


PING = frame(6, b"")


def config(*folders):
    """A ClusterConfig of (id, (device, index_id, max_sequence)..); the last may be left out."""
    body = b""
    for name, *devices in folders:
        inner = field(1, name)
        for device, index_id, *sequence in devices:
            inner += rep(16, field(1, device) + (field(6, sequence[0]) if sequence else b"") + field(8, index_id))
        body += rep(1, inner)
    return frame(0, body)


def info(name, *counters, deleted=0, seconds=0, size=0, blocks=(), by=0):
    version = b"".join(rep(1, field(1, it) + field(2, value)) for it, value in counters)
    made = field(1, name) + field(3, size) + field(5, seconds) + field(6, deleted) + (rep(9, version) if version else b"")
    return made + field(12, by) + b"".join(rep(16, field(1, at) + field(2, length) + field(3, digest)) for at, length, digest in blocks)


def index(folder, *infos):
    return frame(1, field(1, folder) + b"".join(rep(2, it) for it in infos))


def update(folder, *infos):
    return frame(2, field(1, folder) + b"".join(rep(2, it) for it in infos))


def request(number, folder, name, offset=0, size=3, digest=b""):
    return frame(3, field(1, number) + field(2, folder) + field(3, name) + field(4, offset) + field(5, size) + field(6, digest))


def response(number, data=b"abc", code=0):
    return frame(4, field(1, number) + field(2, data) + field(3, code))


def close(reason):
    return frame(7, field(1, reason))


def fields(body):
    """The fields of a message, by number: a list of numbers and of bytes each."""
    found, at = {}, 0

    def number():
        nonlocal at
        value = shift = 0
        while True:
            byte = body[at]
            at += 1
            if byte < 128 and not shift:
                return byte
            value |= (byte & 127) << shift
            shift += 7
            if byte < 128:
                return value

    while at < len(body):
        tag = number()
        if tag & 7 == 0:
            value = number()
        elif tag & 7 == 2:
            length = number()
            value = body[at:at + length]
            at += length
        else:
            raise ValueError(f"wire type {tag & 7}")
        found.setdefault(tag >> 3, []).append(value)
    return found


def first(found, number, default=0):
    return found[number][0] if number in found else default


def blocks_of(data, size=BLOCK):
    return [(at, len(data[at:at + size]), hashlib.sha256(data[at:at + size]).digest()) for at in range(0, len(data), size)] or [(0, 0, hashlib.sha256(b"").digest())]


def file_of(name, data, *counters, size=BLOCK):
    """A file of blocks of this size."""
    return info(name, *counters, size=len(data), blocks=blocks_of(data, size)) + field(13, 0 if size == BLOCK else size)


def told_files(found):
    """Of each FileInfo of a message the name, type, size, whether it is deleted, the sequence, and the blocks."""
    rows = []
    for it in map(fields, found.get(2, [])):
        blocks = [(first(block, 1), first(block, 2), first(block, 3, b"")) for block in map(fields, it.get(16, []))]
        rows.append((first(it, 1).decode(), first(it, 2), first(it, 3), first(it, 6), first(it, 10), blocks))
    return rows


class Messages:
    """The messages that come by a socket, after the Hello."""

    def __init__(self, sock):
        self.sock = sock
        self.hello = None

    def take(self, count):
        data = bytearray()
        while len(data) < count:
            piece = self.sock.recv(min(count - len(data), 1 << 20))
            if not piece:
                raise EOFError
            data += piece
        return bytes(data)

    def hear_hello(self):
        """Waits for the Hello."""
        magic = self.take(4)
        if magic != HELLO[:4]:
            raise ValueError("no Hello")
        self.hello = fields(self.take(int.from_bytes(self.take(2), "big")))

    def next(self):
        """The type and the fields of the next message."""
        if self.hello is None:
            self.hear_hello()
        header = fields(self.take(int.from_bytes(self.take(2), "big")))
        body = self.take(int.from_bytes(self.take(4), "big"))
        return TYPES[first(header, 1)], fields(body)

    def next_of(self, *kinds):
        """The next message of one of these types; others are passed over."""
        while True:
            kind, found = self.next()
            if kind in kinds:
                return kind, found

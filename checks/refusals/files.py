"""Files of LevelDB whose parts are given one by one, so that they may be wrong."""


def _crc_table():
    rows = []
    for byte in range(256):
        for _ in range(8):
            byte = byte >> 1 ^ (0x82F63B78 if byte & 1 else 0)
        rows.append(byte)
    return rows


_CRC = _crc_table()
MAGIC = 0xDB4775248B80FB57


def masked_crc(data):
    """The masked CRC-32C of these bytes, as fixed32."""
    crc = 0xFFFFFFFF
    for byte in data:
        crc = crc >> 8 ^ _CRC[(crc ^ byte) & 255]
    crc ^= 0xFFFFFFFF
    return ((crc >> 15 | crc << 17) + 0xA282EAD8 & 0xFFFFFFFF).to_bytes(4, "little")


def varint(number):
    made = b""
    while number >= 128:
        made += bytes([number & 127 | 128])
        number >>= 7
    return made + bytes([number])


def internal_key(text):
    """A key that is written `USER@SEQ+`, or with `-` for a deletion."""
    user, tag = text.rsplit("@", 1)
    kind = {"+": 1, "-": 0}[tag[-1]]
    return user.encode() + (int(tag[:-1]) << 8 | kind).to_bytes(8, "little")


def with_length(data):
    return varint(len(data)) + data


# ---- a manifest


def field(text):
    """A field of an edit: NAME=NUMBER, `add=LEVEL,NUMBER,SIZE,SMALLEST,LARGEST`, `comparator=NAME`,
    or `hex=BYTES` as they are."""
    name, value = text.split("=", 1)
    if name == "hex":
        return bytes.fromhex(value)
    if name == "comparator":
        return b"\x01" + with_length(value.encode())
    if name == "add":
        level, number, size, smallest, largest = value.split(",")
        numbers = b"".join(varint(int(it)) for it in (level, number, size))
        return b"\x07" + numbers + b"".join(with_length(internal_key(it)) for it in (smallest, largest))
    tag = {"log": 2, "next": 3, "last": 4, "prev": 9}[name]
    return varint(tag) + varint(int(value))


def record(data, kind=1):
    """A record of a log as one fragment, FULL if not said otherwise."""
    typed = bytes([kind]) + data
    return masked_crc(typed) + len(data).to_bytes(2, "little") + typed


def manifest(edits, kind=1):
    """A manifest of these edits, each a list of fields."""
    return b"".join(record(b"".join(field(it) for it in edit), kind) for edit in edits)


# ---- a table


def block(entries, restarts=(0,)):
    """A block of these entries, of which none shares bytes with the one before."""
    data = b"".join(varint(0) + varint(len(key)) + varint(len(value)) + key + value for key, value in entries)
    offsets = b"".join(it.to_bytes(4, "little") for it in restarts)
    return data + offsets + len(restarts).to_bytes(4, "little")


def handle(offset, size):
    return varint(offset) + varint(size)


def table(data, kind=0, index=None):
    """A table of one data block, of these bytes and this type. INDEX is the value of its entry in
    the index, where it is not the block's handle."""
    made = b""

    def put(content, type_of_it=0):
        nonlocal made
        at = handle(len(made), len(content))
        typed = bytes([type_of_it])
        made += content + typed + masked_crc(content + typed)
        return at

    at = put(data, kind)
    meta = put(block([]))
    last = internal_key("zz@1+")
    top = put(block([(last, at if index is None else index)]))
    return made + (meta + top).ljust(40, b"\0") + MAGIC.to_bytes(8, "little")

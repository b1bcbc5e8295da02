"""BLAKE3 as section 2 of its specification of 2020 describes it: slow, for values to compare with."""

from functools import cache
from struct import pack, unpack

IV = (0x6A09E667, 0xBB67AE85, 0x3C6EF372, 0xA54FF53A, 0x510E527F, 0x9B05688C, 0x1F83D9AB, 0x5BE0CD19)
PERMUTATION = (2, 6, 3, 10, 7, 0, 4, 13, 1, 11, 12, 5, 9, 14, 15, 8)
CHUNK_START, CHUNK_END, PARENT, ROOT = 1, 2, 4, 8
KEYED_HASH, DERIVE_KEY_CONTEXT, DERIVE_KEY_MATERIAL = 16, 32, 64
CHUNK_LEN, BLOCK_LEN = 1024, 64


def rotate(word, places):
    return (word >> places | word << 32 - places) & 0xFFFFFFFF


def mix(v, a, b, c, d, x, y):
    v[a] = (v[a] + v[b] + x) & 0xFFFFFFFF
    v[d] = rotate(v[d] ^ v[a], 16)
    v[c] = (v[c] + v[d]) & 0xFFFFFFFF
    v[b] = rotate(v[b] ^ v[c], 12)
    v[a] = (v[a] + v[b] + y) & 0xFFFFFFFF
    v[d] = rotate(v[d] ^ v[a], 8)
    v[c] = (v[c] + v[d]) & 0xFFFFFFFF
    v[b] = rotate(v[b] ^ v[c], 7)


def compress(h, block, counter, flags):
    """The sixteen output words of one compression (2.2). Its first eight are a chaining value."""
    m = unpack("<16I", block.ljust(BLOCK_LEN, b"\0"))
    v = [*h, *IV[:4], counter & 0xFFFFFFFF, counter >> 32, len(block), flags]
    for _ in range(7):
        for i in range(4):
            mix(v, i, 4 + i, 8 + i, 12 + i, m[2 * i], m[2 * i + 1])
        for i in range(4):
            mix(v, i, 4 + (i + 1) % 4, 8 + (i + 2) % 4, 12 + (i + 3) % 4, m[8 + 2 * i], m[9 + 2 * i])
        m = [m[i] for i in PERMUTATION]
    return [v[i] ^ v[i + 8] for i in range(8)] + [v[i + 8] ^ h[i] for i in range(8)]


class Tree:
    """The hash tree over bytes, in the mode of these key words and this flag. Results are kept for all prefixes."""

    def __init__(self, data, key=IV, mode=0):
        self.data, self.key, self.mode = data, key, mode
        self.chaining = cache(self.chaining)

    def digest(self, length):
        """The digest of the first bytes, in hexadecimal digits."""
        return self.output(length, 0, 32).hex()

    def output(self, length, seek, count):
        """Output bytes of a prefix, from an offset on (2.6)."""
        h, block, _, flags = self.top(0, length)
        numbers = range(seek // BLOCK_LEN, (seek + count) // BLOCK_LEN + 1)
        blocks = b"".join(pack("<16I", *compress(h, block, number, flags | ROOT)) for number in numbers)
        return blocks[seek % BLOCK_LEN :][:count]

    def chaining(self, start, end):
        """The chaining value of the tree over these bytes."""
        return compress(*self.top(start, end))[:8]

    def top(self, start, end):
        """What the last compression of the tree over these bytes takes (2.1)."""
        last = (end - start - 1) // CHUNK_LEN
        if last <= 0:
            return self.chunk(start, end)
        middle = start + (CHUNK_LEN << last.bit_length() - 1)
        return self.key, pack("<16I", *self.chaining(start, middle), *self.chaining(middle, end)), 0, PARENT | self.mode

    def chunk(self, start, end):
        """What the last compression of a chunk takes (2.4)."""
        h, last = self.key, max(0, end - start - 1) // BLOCK_LEN
        for i in range(last + 1):
            block = self.data[start + i * BLOCK_LEN : min(end, start + (i + 1) * BLOCK_LEN)]
            flags = (CHUNK_START if i == 0 else 0) | (CHUNK_END if i == last else 0) | self.mode
            if i == last:
                return h, block, start // CHUNK_LEN, flags
            h = compress(h, block, start // CHUNK_LEN, flags)[:8]


def digest(data):
    return Tree(data).digest(len(data))


def keyed(key, data):
    """The tree over bytes in the keyed mode (2.3)."""
    return Tree(data, unpack("<8I", key), KEYED_HASH)


def derived(context, data):
    """The tree over key material under a context (2.3)."""
    key = Tree(context, mode=DERIVE_KEY_CONTEXT).output(len(context), 0, 32)
    return Tree(data, unpack("<8I", key), DERIVE_KEY_MATERIAL)

"""Images for the bench, laid word by word as docs/FORMAT.md says, by no code of the program or of its twin.

They are written a block at a time, so that this process stays small: a child's peak memory counts what its parent had when it
began.
"""
import random
import struct
from array import array

MAGIC = int.from_bytes(b"MADFSIM1", "little")
LOG = 1 << 62
SNAPSHOT = 2 << 62
LIMIT = 65_535
FIRST_SLOT = 3


def spare_blocks(data, block_bytes):
    """Blocks of the spare area."""
    return 2 * (-(-data // (block_bytes // 8 - FIRST_SLOT)) + 1) + 16


def total_blocks(data, log, block_bytes):
    """Blocks of the image."""
    return 1 + data + log + spare_blocks(data, block_bytes)


def log_for(entries, block_bytes):
    """The log blocks that so many entries need."""
    return -(-entries // (block_bytes // 8 - FIRST_SLOT))


def largest(block_bytes):
    """The data blocks of the largest image whose log has a slot for each of them, and no block more than that needs."""
    data = LIMIT
    while total_blocks(data, log_for(data, block_bytes), block_bytes) > LIMIT:
        data -= 1
    return data


def to_bytes(words):
    """Words, each as eight bytes, lowest first."""
    laid = array("Q", words)
    if struct.pack("=H", 1) != struct.pack("<H", 1):
        laid.byteswap()
    return laid.tobytes()


def block_of(words, block_bytes):
    """A block that begins with these words, and has 0 in the others."""
    return to_bytes(words).ljust(block_bytes, b"\0")


def header_words(data, log, block_bytes, generation, head):
    """The four words of a header."""
    power = block_bytes.bit_length() - 1
    return [MAGIC, 1 | power << 16, data | log << 32, head | generation << 32]


def direct(virt, block, count=1, leftover=0):
    """The word of a direct entry."""
    return 1 | virt << 2 | block << 18 | count - 1 << 34 | leftover << 42


class Full:
    """An image with filled data blocks, whose log has direct entries of one block each, in as many log blocks as they need.

    Each entry names a data block and a virtual block of its own, both in no order; the virtual blocks are the first ones.
    """

    def __init__(self, path, data, entries, block_bytes=4096):
        self.path, self.data, self.entries, self.block_bytes = path, data, entries, block_bytes
        self.log = log_for(data, block_bytes)
        self.slots = block_bytes // 8 - FIRST_SLOT
        draw = random.Random(3)
        self.blocks, self.places = array("H", range(1, data + 1)), array("H", range(entries))
        draw.shuffle(self.blocks)
        draw.shuffle(self.places)
        self.write(draw)

    def write(self, draw):
        """Writes the image."""
        used = log_for(self.entries, self.block_bytes)
        with open(self.path, "wb") as out:
            out.write(block_of(header_words(self.data, self.log, self.block_bytes, 1, self.data + 1), self.block_bytes))
            for _ in range(self.data):
                out.write(draw.randbytes(self.block_bytes))
            for turn in range(used):
                base = turn * self.slots
                link = self.data + turn + 2 if turn + 1 < used else 0
                own = range(base, min(base + self.slots, self.entries))
                out.write(block_of([link, LOG | base, 0, *(direct(self.places[at], self.blocks[at]) for at in own)], self.block_bytes))
            for _ in range(total_blocks(self.data, self.log, self.block_bytes) - 1 - self.data - used):
                out.write(bytes(self.block_bytes))

    def dump(self):
        """The dump that is due, line by line."""
        spare = spare_blocks(self.data, self.block_bytes)
        yield f"image data {self.data} log {self.log} spare {spare} block {self.block_bytes}\n".encode()
        yield f"head generation 1 block {self.data + 1}\n".encode()
        for at in range(self.entries):
            if at % self.slots == 0:
                yield f"log {self.data + 1 + at // self.slots} base {at}\n".encode()
            slot = FIRST_SLOT + at % self.slots
            yield f"slot {slot} direct virt {self.places[at]} block {self.blocks[at]} count 1 leftover 0\n".encode()
        yield f"end {self.entries} {self.entries * self.block_bytes}\n".encode()

    def file(self):
        """The file that is due, block by block."""
        held = dict(zip(self.places, self.blocks))
        with open(self.path, "rb") as image:
            for place in range(self.entries):
                image.seek(held[place] * self.block_bytes)
                yield image.read(self.block_bytes)


def write_past_end(path, data, block_bytes=4096):
    """An image whose data blocks are all mapped and all 0, by a snapshot of a file of no bytes, so that all lie past its end."""
    runs = [direct(first, first + 1, min(256, data - first)) for first in range(0, data, 256)]
    first_log = data + 1
    with open(path, "wb") as out:
        out.write(block_of(header_words(data, 1, block_bytes, 2, first_log + 1), block_bytes))
        for _ in range(data):
            out.write(bytes(block_bytes))
        out.write(block_of([0, LOG | len(runs)], block_bytes))
        out.write(block_of([first_log, SNAPSHOT | len(runs), len(runs) << 48, *runs], block_bytes))
        for _ in range(spare_blocks(data, block_bytes) - 1):
            out.write(bytes(block_bytes))


def write_fresh(path, data, log, block_bytes=4096):
    """A just-made image."""
    with open(path, "wb") as out:
        out.write(block_of(header_words(data, log, block_bytes, 1, data + 1), block_bytes))
        for _ in range(data):
            out.write(bytes(block_bytes))
        out.write(block_of([0, LOG], block_bytes))
        for _ in range(total_blocks(data, log, block_bytes) - data - 2):
            out.write(bytes(block_bytes))


def image_of(total, block_bytes, laid):
    """The bytes of an image with these words, by their places, and 0 in all others."""
    words = array("Q", bytes(total * block_bytes))
    for place, word in laid.items():
        words[place] = word
    return to_bytes(words)


def made_by_hand():
    """Small images whose words, dumps and files are written by hand: (name, bytes, dump, file)."""
    collected = {
        0: MAGIC, 1: 393_217, 2: 4_294_967_298, 3: 8_589_934_597, 8: 0xCC, 16: 0xBB,
        33: 4_611_686_018_427_387_906, 35: 277_076_930_461_697,
        40: 4, 41: 9_223_372_036_854_775_810, 42: 281_474_976_710_657, 43: 524_289,
    }
    spread = {
        0: MAGIC, 1: 393_217, 2: 7 | 2 << 32, 3: 8 | 1 << 32,
        8: 5 | 3 << 16 | 2 << 32 | 60 << 48, 9: 2 | 1 << 16, 10: 4 | 2 << 16, 16: 0x1111, 39: 0x2222 << 48, 40: 0x3333,
        64: 9, 65: 4_611_686_018_427_387_904, 67: 6, 68: 3, 70: 5, 72: 0, 73: 4_611_686_018_427_387_905, 75: 0, 76: 99, 77: 3,
    }
    return [
        ("just made", image_of(24, 64, {0: MAGIC, 1: 393_217, 2: 4_294_967_298, 3: 4_294_967_299, 25: 4_611_686_018_427_387_904}),
         "image data 2 log 1 spare 20 block 64\nhead generation 1 block 3\nlog 3 base 0\nend 0 0\n", b""),
        ("after a collection", image_of(24, 64, collected),
         "image data 2 log 1 spare 20 block 64\nhead generation 2 block 5\nsnapshot 5 base 2 count 1 size 1\n"
         "slot 3 direct virt 0 block 2 count 1 leftover 0\nlog 4 base 2\nslot 3 direct virt 0 block 1 count 1 leftover 63\nend 3 1\n",
         b"\xcc"),
        ("with runs and a seal", image_of(32, 64, spread),
         "image data 7 log 2 spare 22 block 64\nhead generation 1 block 8\nlog 8 base 0\n"
         "slot 3 indirect 1 virt 5 count 3 leftover 60 run 2 1 run 4 2\nslot 4 seal\nlog 9 base 1\nend 1 452\n",
         bytes(5 * 64) + b"\x11\x11" + bytes(62 + 62) + b"\x22\x22" + b"\x33\x33\0\0"),
    ]


def replayed_by_hand():
    """Small images, a trace, and the report and the image that are due, written by hand: (name, bytes, trace, report, bytes after)."""
    fresh = {0: MAGIC, 1: 393_217, 2: 4_294_967_298, 3: 4_294_967_299, 25: LOG}
    seven = {0: MAGIC, 1: 393_217, 2: 7 | 2 << 32, 3: 8 | 1 << 32, 65: LOG}
    grown = {8 * block: block for block in range(1, 8)} | {66 + block: direct(0, block, leftover=63) for block in range(1, 6)}
    grown |= {64: 9, 73: LOG | 5, 75: direct(0, 6, leftover=63), 76: direct(0, 7, leftover=63)}
    laid = {24: 0xFF, 48: 0x1111, 55: 0x04030201 << 32, 56: 0x08070605, 63: 0x2222 << 48}
    laid |= {75: direct(0, 3, leftover=63), 76: direct(5, 6, 2, 60), 77: 0}
    spread = made_by_hand()[2][1]
    after = array("Q", spread)
    for place, word in laid.items():
        after[place] = word
    return [
        ("just made, with bytes in a free block", image_of(24, 64, fresh | {8: 99 << 56, 9: 99}), "0 pwrite 0 616263\n0 pread 0 10\n",
         "1 0 1 pwrite 0 3 = 3\n1 0 2 pread 0 10 = 616263\nend 1 3\n",
         image_of(24, 64, fresh | {8: 0x636261, 27: direct(0, 1, leftover=61)})),
        ("whose log grows", image_of(32, 64, seven), "".join(f"0 pwrite 0 0{block}\n" for block in range(1, 9)),
         "".join(f"{block} 0 {block} pwrite 0 1 = 1\n" for block in range(1, 8)) + "7 0 8 pwrite 0 1 = NoSpace data\nend 7 1\n",
         image_of(32, 64, seven | grown)),
        ("with runs and a seal", spread,
         "0 pwrite 0 ff\n0 pread 0 2\n0 pwrite 380 0102030405060708\n0 pread 379 10\n0 pread 448 10\n0 pwrite 4194304 00\n0 pwrite 9 -\n",
         "2 0 1 pwrite 0 1 = 1\n2 0 2 pread 0 2 = ff00\n3 0 3 pwrite 380 8 = 8\n3 0 4 pread 379 10 = 00010203040506070800\n"
         "3 0 5 pread 448 10 = 33330000\n3 0 6 pwrite 4194304 1 = TooLarge 4194305\n3 0 7 pwrite 9 0 = 0\nend 3 452\n",
         to_bytes(after)),
    ]


def faulty():
    """Small images with a fault, and the refusal that is due: (bytes, text)."""
    sound = {0: MAGIC, 1: 393_217, 2: 40 | 4 << 32, 3: 41 | 1 << 32, 329: LOG, 331: 277_076_930_461_697}
    entry = sound[331]
    made = {
        "BadMagic": {0: MAGIC + 1}, "BadVersion 2": {1: 393_218}, "BadGeometry": {1: 458_753},
        "BadHead 41": {3: 41}, "BadBase 41 4611686018427387905": {329: LOG + 1}, "BadBase 41 7": {330: 7},
        "BadLink 41 41": {332: 3, 328: 41}, "BadShare 1": {332: entry}, "BadSlack 1": {8: 256}, "BadEntry 41 3 3": {331: 3},
        "BadEntry 41 4 162": {332: 162}, "BadEntry 41 4 4": {332: 4}, "BadEntry 41 5 3": {332: 3, 333: 3},
    }
    cases = [(image_of(79, 64, sound | changed), text) for text, changed in made.items()]
    whole = image_of(79, 64, sound)
    return cases + [(whole[:31], "Short 31"), (whole[:-1], "Short 5055"), (whole + b"\0", "Long 5057")]

"""Words of both formats as thread ids, words as message tags and times, and the ErrorCodes. An id is one value in both formats: here its word of 64 bits."""

import dataclasses
import enum

WORD_BITS = 64
WORD_MASK = (1 << WORD_BITS) - 1
# A global id has its thread number above so many bits, and its version in them.
VERSION_BITS = 32
VERSION_MASK = (1 << VERSION_BITS) - 1
# An id with these bits zero is no global one.
LOCAL_MASK = 0x3F

NIL = 0
ANY = WORD_MASK
ANY_LOCAL = WORD_MASK ^ LOCAL_MASK

# The parts of a tag.
COUNT_MASK = 0x3F
TYPED_MASK = 0xFC0
PROPAGATED = 0x1000
REDIRECTED = 0x2000
ACROSS = 0x4000
ERROR = 0x8000
LABEL_SHIFT = 16

# The parts of a time.
MANTISSA_BITS = 10
MANTISSA_MASK = (1 << MANTISSA_BITS) - 1


@dataclasses.dataclass(frozen=True)
class Format:
    """How many bits a word has, and how many of these the version of a global id has."""

    bits: int
    version_bits: int

    @property
    def mask(self):
        return (1 << self.bits) - 1

    @property
    def digits(self):
        """How many hexadecimal digits a word has where an id is spelled by it."""
        return self.bits // 4

    @property
    def label_bits(self):
        return self.bits - LABEL_SHIFT

    @property
    def number_mask(self):
        return (1 << self.bits - self.version_bits) - 1

    @property
    def version_mask(self):
        return (1 << self.version_bits) - 1

    @property
    def any_local(self):
        return self.mask ^ LOCAL_MASK

    def identifier(self, word):
        """The id that a word of this format stands for. A local one has the same word in both."""
        if word == self.mask:
            return ANY
        if word == self.any_local:
            return ANY_LOCAL
        return word if not word & LOCAL_MASK else global_id(word >> self.version_bits, word & self.version_mask)

    def word(self, identifier):
        """The word of this format for an id that has one."""
        if identifier == ANY:
            return self.mask
        if identifier == ANY_LOCAL:
            return self.any_local
        if not is_global(identifier):
            return identifier
        return identifier >> VERSION_BITS << self.version_bits | identifier & VERSION_MASK


FORMATS = {64: Format(64, VERSION_BITS), 32: Format(32, 14)}


class ErrorCode(enum.IntEnum):
    NONE = 0
    SEND_TIMEOUT = 2
    RECEIVE_TIMEOUT = 3
    SEND_NOBODY = 4
    RECEIVE_NOBODY = 5
    SEND_CANCELLED = 6
    RECEIVE_CANCELLED = 7
    # An order that is not admitted has the code of a send timeout.
    ORDER_REFUSED = 2


def global_id(number, version):
    return number << VERSION_BITS | version


def is_local(word):
    return word not in (NIL, ANY, ANY_LOCAL) and not word & LOCAL_MASK


def is_global(word):
    return word != ANY and bool(word & LOCAL_MASK)


def spelled(word):
    """An id as traces and reports have it."""
    names = {NIL: "nil", ANY: "any", ANY_LOCAL: "anylocal"}
    if word in names:
        return names[word]
    return f"{word >> VERSION_BITS}.{word & VERSION_MASK}" if is_global(word) else f"#{word:x}"


def period(time):
    """How long a time of 16 bits is: nothing for never, or a number of ticks."""
    return (time & MANTISSA_MASK) << (time >> MANTISSA_BITS) if time else None

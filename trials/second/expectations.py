"""What a report is expected to say: a text of expectations, and which of them a report does not meet."""

import dataclasses

from second import words

ANY_WORD, ANY_WORDS, NEVER = "*", "..", "never "
ANY_SEND = "#*"
STATES = ("ready", "sending", "receiving", "ordering", "ended", "deleted")
ENDINGS = ("quiet", "spent")
CODES = ("0", "2", "3", "4", "5", "6", "7")
PRINTABLE = range(0x20, 0x7F)
DIGITS = "0123456789abcdef"


class Fault(Exception):
    """The first faulty line of a text, counted from 1, and its kind."""

    def __init__(self, number, kind):
        super().__init__(f"expectation line {number}: {kind}")


@dataclasses.dataclass
class Expectation:
    """A line of a text: its number, whether there must be no such line, and the words of that line."""

    number: int
    never: bool
    asked: list

    def is_met(self, report):
        return any(fits(self.asked, words) for words in split_lines(report)) != self.never

    def found(self, report):
        """The line that stands where another was wanted: the one that there must not be, or the first of the same thread, send or ending."""
        is_it = fits if self.never else is_of_the_same
        return next((" ".join(words) for words in split_lines(report) if is_it(self.asked, words)), "nothing")

    def told(self, report):
        return f"line {self.number}: {'never' if self.never else 'wanted'}: {' '.join(self.asked)}; found: {self.found(report)}\n"


def split_lines(report):
    return [line.split(" ") for line in report.splitlines()]


def fits(asked, words):
    """Whether the words of a line are those that are asked for."""
    if asked == [ANY_WORDS]:
        return True
    if not asked or not words:
        return asked == words
    return fits_word(asked[0], words[0]) and fits(asked[1:], words[1:])


def fits_word(asked, word):
    """Whether a word is the one that is asked for, or a send of the thread of which any send is."""
    if asked.endswith(ANY_SEND) and is_name(word):
        return asked.removesuffix(ANY_SEND) == word.partition("#")[0]
    return asked in (ANY_WORD, word)


def is_of_the_same(asked, words):
    """Whether the first two words fit; of an ending the first."""
    if not fits_word(asked[0], words[0]):
        return False
    return words[0] == "ending" or (len(asked) > 1 and fits_word(asked[1], words[1]))


def is_number(word, digits):
    return word == "0" or (word != "" and word[0] != "0" and set(word) <= set(digits))


def is_small(word, radix, limit):
    return is_number(word, DIGITS[:radix]) and int(word, radix) < limit


def is_thread(word):
    number, dot, version = word.partition(".")
    if not dot or not is_small(number, 10, 2**32) or not is_small(version, 10, 2**32):
        return False
    return int(version) % 64 != 0 and (number, version) != (str(2**32 - 1), str(2**32 - 1))


def is_name(word):
    thread, hash_, count = word.partition("#")
    return bool(hash_) and is_thread(thread) and count != "0" and is_small(count, 10, 2**64)


def is_send(word):
    return is_name(word) or word.endswith(ANY_SEND) and is_thread(word.removesuffix(ANY_SEND))


def is_register(word):
    return is_small(word, 16, 2**64)


def is_tag(word):
    return is_register(word) and int(word, 16) & words.TYPED_MASK == 0


def is_local(word):
    """Whether a word is `#` and the word of a local id: no other word has its low six bits zero but that of nilthread and of anylocalthread."""
    if not word.startswith("#") or not is_register(word[1:]):
        return False
    local = int(word[1:], 16)
    return local & words.LOCAL_MASK == 0 and local not in (words.NIL, words.ANY_LOCAL)


def is_sender(word):
    return word == "nil" or is_thread(word)


def is_destination(word):
    return word in ("any", "anylocal") or is_local(word) or is_thread(word)


def is_id(word):
    return word == "nil" or is_destination(word)


# What stands behind the first word of a line. In that of a thread may follow registers.
COLUMNS = {
    "thread": [is_thread, STATES.__contains__, CODES.__contains__, is_sender, is_id, is_tag],
    "waiting": [is_send, is_destination],
    "ending": [ENDINGS.__contains__],
}
REGISTERS = {"thread": [is_register] * 63, "waiting": [], "ending": []}


def are_in_columns(first, asked):
    """Whether a line may have these words behind its first. Registers are told up to the last that is not 0."""
    columns, registers = COLUMNS[first], REGISTERS[first]
    is_open = asked[-1:] == [ANY_WORDS]
    told = asked[:-1] if is_open else asked
    if len(told) > len(columns) + len(registers):
        return False
    if not is_open and (len(told) < len(columns) or len(told) > len(columns) and told[-1] == "0"):
        return False
    return all(word == ANY_WORD or may_stand(word) for word, may_stand in zip(told, columns + registers))


def kind_of(asked, of_endings):
    """The kind of the fault of a line that is asked for, or None."""
    first, *others = asked
    if "" in asked or ANY_WORDS in asked[:-1]:
        return "BadLine"
    if first not in (*COLUMNS, ANY_WORD):
        return "Unknown"
    if not any(are_in_columns(kind, others) for kind in COLUMNS if first in (kind, ANY_WORD)):
        return "BadWord"
    may_be_deleted = first in ("thread", ANY_WORD) and len(others) > 1 and others[1] in ("deleted", ANY_WORD)
    if of_endings and may_be_deleted and others[2:] != [ANY_WORDS]:
        return "Deleted"
    if of_endings and first in ("waiting", ANY_WORD) and others and is_name(others[0]):
        return "Number"
    return None


def read(text, of_endings=False):
    """The expectations of a text, given as bytes."""
    *lines, last = text.split(b"\n")
    expectations = []
    for number, line in enumerate(lines, 1):
        if any(byte not in PRINTABLE for byte in line):
            raise Fault(number, "BadLine")
        line = line.decode("ascii")
        if not line or line.startswith(";"):
            continue
        if "" in line.split(" "):
            raise Fault(number, "BadLine")
        never = line.startswith(NEVER)
        asked = line.removeprefix(NEVER).split(" ")
        if kind := kind_of(asked, of_endings):
            raise Fault(number, kind)
        expectations.append(Expectation(number, never, asked))
    if last:
        raise Fault(len(lines) + 1, "BadLine")
    return expectations


def unmet_text(expectations, report):
    """A line for each expectation that a report does not meet."""
    return "".join(expectation.told(report) for expectation in expectations if not expectation.is_met(report))

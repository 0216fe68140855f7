"""Story files of version 3 as docs/MACHINE.md and The Z-Machine Standards Document 1.1 (named Z) have them: which are loaded, and the
texts, words of the dictionary, tokens, objects and properties of one. It is a model: it shares nothing with the program."""

HEADER = 64
LARGEST = 131072
READABLE = 65536
GLOBALS_SIZE, DEFAULTS_SIZE, ENTRY_SIZE = 480, 62, 9
MARKS = "\n0123456789.,!?_#'\"/\\-:()"  # what A2 has from 7 on (Z 3.5.3)


class Refused(Exception):
    """A story, a certificate, a save or a listing that is refused: the code, and the address where there is one."""

    def __init__(self, code, place=None):
        super().__init__(code)
        self.code, self.place = code, place


class NoText(Exception):
    """A text that can't be decoded (E1, E2)."""


def word_at(data, place):
    return data[place] * 256 + data[place + 1]


def signed(value):
    return value - 65536 if value >= 32768 else value


# ---- loading (Z 1.1, 11.1; L1 to L11)


def stated_length(data):
    return 2 * word_at(data, 0x1A)


def loading_fault(data):
    """The first refusal of a file, or None."""
    if len(data) < HEADER:
        return "L1"
    if len(data) > LARGEST:
        return "L2"
    if data[0] != 3:
        return "L3"
    stated = stated_length(data)
    if stated and (stated < HEADER or stated > len(data)):
        return "L4"
    return table_fault(data[: stated or len(data)])


def table_fault(data):
    """What is wrong with the places that the header names: L5 to L7 and L11, and with the dictionary."""
    static = word_at(data, 0x0E)
    if static < HEADER or static > len(data):
        return "L5"
    for code, place, size in (("L6", word_at(data, 0x0C), GLOBALS_SIZE), ("L7", word_at(data, 0x0A), DEFAULTS_SIZE)):
        if place < HEADER or place + size > static:
            return code
    fault = dictionary_fault(data, static)
    if fault:
        return fault
    first = word_at(data, 0x06)
    return "L11" if first < HEADER or first >= len(data) else None


def dictionary_fault(data, static):
    """L8 to L10 (Z 13)."""
    at, readable = word_at(data, 0x08), min(len(data), READABLE)
    if at < static or at >= readable or at + data[at] + 4 > readable:
        return "L8"
    begin = at + data[at] + 4
    length, count = data[begin - 3], word_at(data, begin - 2)
    if begin + length * count > readable:
        return "L8"
    if length < 4:
        return "L9"
    keys = [bytes(data[it : it + 4]) for it in range(begin, begin + length * count, length)]
    return "L10" if any(b < a for a, b in zip(keys, keys[1:])) else None


class Story:
    """A loaded story: its bytes as play begins, and where its tables are."""

    def __init__(self, file):
        fault = loading_fault(file)
        if fault:
            raise Refused(fault)
        data = bytearray(file[: stated_length(file) or len(file)])
        data[1] &= 0x8F
        self.memory = bytes(data)
        self.length = len(data)
        self.readable = min(self.length, READABLE)
        self.first, self.dictionary = word_at(data, 0x06), word_at(data, 0x08)
        self.objects, self.globals = word_at(data, 0x0A), word_at(data, 0x0C)
        self.static, self.abbreviations = word_at(data, 0x0E), word_at(data, 0x18)
        self.sum = sum(data[HEADER:]) % 65536
        self.stated_sum = word_at(data, 0x1C)
        self.count = self.object_count()

    def object_count(self):
        """How many objects there are (Z 12.3; own)."""
        lowest = 65536
        for number in range(1, 256):
            end = self.entry(number) + ENTRY_SIZE
            if end > self.static:
                return number - 1
            lowest = min(lowest, word_at(self.memory, end - 2))
            if end > lowest:
                return number - 1
        return 255

    def entry(self, number):
        return self.objects + DEFAULTS_SIZE + ENTRY_SIZE * (number - 1)

    def may_write(self, place):
        """Whether a byte may be written (Z 11.1)."""
        return HEADER <= place < self.static or place in (0x10, 0x11)

    def head_of(self, memory, place):
        """The count of locals of the routine at a place, or None where no whole head stands there (Z 5.2)."""
        if not 0 <= place < self.length or memory[place] > 15 or place + 1 + 2 * memory[place] > self.length:
            return None
        return memory[place]

    # ---- texts (Z 3)

    def text_end(self, memory, place):
        """Where the text at a place ends, or None where memory ends before it."""
        while 0 <= place and place + 2 <= self.length:
            if memory[place] & 0x80:
                return place + 2
            place += 2
        return None

    def characters(self, memory, place):
        """The Z-characters of the text at a place (Z 3.2)."""
        end = self.text_end(memory, place)
        if end is None:
            raise NoText("E1")
        values = (word_at(memory, it) for it in range(place, end, 2))
        return [it >> shift & 31 for it in values for shift in (10, 5, 0)]

    def abbreviation_place(self, memory, number):
        at = self.abbreviations + 2 * number
        if at + 2 > self.readable:
            raise NoText("E1")
        return 2 * word_at(memory, at)

    def text(self, memory, place):
        """What the text at a place prints, or NoText."""
        pieces = pieces_of(self.characters(memory, place))
        used = {it: pieces_of(self.characters(memory, self.abbreviation_place(memory, it))) for kind, it in pieces if kind == "use"}
        if any(kind == "use" for it in used.values() for kind, _ in it):
            raise NoText("E2")
        codes = [code for kind, it in pieces for code in ([code for _, code in used[it]] if kind == "use" else [it])]
        return b"".join(printed(it) for it in codes)

    # ---- objects (Z 12)

    def is_object(self, number):
        return 1 <= number <= self.count

    def link(self, memory, number, which):
        """The parent (4), sibling (5) or child (6) of an object."""
        return memory[self.entry(number) + which]

    def table_of(self, memory, number):
        return word_at(memory, self.entry(number) + 7)

    def properties(self, memory, number):
        """The properties of an object in the order of its list: number, place of the data, length (Z 12.4)."""
        table, found = self.table_of(memory, number), []
        if table >= self.readable:
            return found
        at = table + 1 + 2 * memory[table]
        while at < self.readable and memory[at]:
            size = (memory[at] >> 5) + 1
            if at + 1 + size > self.readable:
                break
            found.append((memory[at] & 31, at + 1, size))
            at += 1 + size
        return found

    def property(self, memory, number, which):
        """The place and length of an object's first property of a number, or None."""
        return next(((place, size) for it, place, size in self.properties(memory, number) if it == which), None)

    def default(self, memory, which):
        return word_at(memory, self.objects + 2 * (which - 1))

    def name(self, memory, number):
        """What the short name of an object prints, or NoText."""
        table = self.table_of(memory, number)
        if table >= self.length:
            raise NoText("E1")
        return self.text(memory, table + 1) if memory[table] else b""

    # ---- words of a line (Z 13)

    def separators(self):
        return bytes(it for it in self.memory[self.dictionary + 1 : self.dictionary + 1 + self.memory[self.dictionary]] if it != 32)

    def find_word(self, typed):
        """The address of a word's entry, 0 where the dictionary hasn't got it."""
        begin = self.dictionary + self.memory[self.dictionary] + 4
        length, count, key = self.memory[begin - 3], word_at(self.memory, begin - 2), encoded(typed)
        for at in range(begin, begin + length * count, length):
            if self.memory[at : at + 4] == key:
                return at
        return 0

    def tokens(self, text):
        """The words of a text: where each begins, and its bytes (Z 13.6.1)."""
        found, run, separators = [], None, self.separators()
        for at, it in enumerate(text + b" "):
            if it == 32 or it in separators:
                if run is not None:
                    found.append((run, text[run:at]))
                run = None
                if it != 32:
                    found.append((at, bytes([it])))
            elif run is None:
                run = at
        return found


def pieces_of(characters):
    """What Z-characters are, in order: ("code", what is printed) or ("use", number of an abbreviation). Constructs cut off are left out."""
    found, at = [], 0
    while at < len(characters):
        taken, piece = front_of(characters[at : at + 4])
        if taken is None:
            break
        if piece is not None:
            found.append(piece)
        at += taken
    return found


def front_of(front):
    """How many Z-characters the construct at the front takes, None where it is cut off, and what it is (Z 3.2 to 3.6)."""
    first = front[0]
    if first == 0:
        return 1, ("code", 32)
    if first >= 6:
        return 1, ("code", 97 + first - 6)
    if len(front) < 2:
        return None, None
    second = front[1]
    if first <= 3:
        return 2, ("use", 32 * (first - 1) + second)
    if second < 6:
        return 1, None
    if first == 4:
        return 2, ("code", 65 + second - 6)
    if second > 6:
        return 2, ("code", 13 if second == 7 else ord(MARKS[second - 7]))
    return (4, ("code", 32 * front[2] + front[3])) if len(front) == 4 else (None, None)


def printed(code):
    """What a code prints (Z 3.8)."""
    if code == 0:
        return b""
    if code == 13:
        return b"\n"
    return bytes([code]) if 32 <= code <= 126 else b"?"


def spelled(character):
    """The Z-characters of a typed character (Z 3.7)."""
    if character == 32:
        return [0]
    if 97 <= character <= 122:
        return [character - 97 + 6]
    mark = MARKS.find(chr(character))
    return [5, 7 + mark] if mark > 0 else [5, 6, character >> 5, character & 31]


def encoded(typed):
    """The four bytes by which a typed word is looked for (Z 3.7, 13.3)."""
    found = ([it for character in typed for it in spelled(character)] + [5] * 6)[:6]
    first, second = (found[it] << 10 | found[it + 1] << 5 | found[it + 2] for it in (0, 3))
    return bytes([first >> 8, first & 255, second >> 8 | 0x80, second & 255])

"""Random stories over a small world of objects, tables, texts and routines, whose code decodes and mostly means something. One in so many
operands is any word, as often as the hazard of the story says."""
import struct

from instructions import BRANCHES, MORE, NONE, ONE, STORES, TWO
from stories import encoded

GLOBALS, OBJECTS = 0x40, 0x220
FAR = 66000  # where a large story has a routine and texts that no byte address reaches
SCRATCH = 64  # bytes of an array in dynamic memory
ODD_WORDS = [0, 1, 2, 3, 5, 31, 32, 63, 64, 255, 256, 257, 0x7FFF, 0x8000, 0x8001, 0xFFFE, 0xFFFF]
WORDS_KNOWN = [b"go", b"look", b"take", b"lamp", b"at", b"north"]

# What the operands of an opcode are: w a word, v the number of a variable, o an object, a an attribute, p a property, P one that can be put,
# A an array, i an index, t a text's byte address, T a packed one, d a divisor, q the data of a property, c a character, R a routine
ROLES = {
    "jl": "ww", "jg": "ww", "dec_chk": "vw", "inc_chk": "vw", "jin": "oo", "test": "ww", "or": "ww", "and": "ww", "test_attr": "oa",
    "set_attr": "oa", "clear_attr": "oa", "store": "vw", "insert_obj": "oo", "loadw": "Ai", "loadb": "Ai", "get_prop": "op", "get_prop_addr": "op",
    "get_next_prop": "op", "add": "ww", "sub": "ww", "mul": "ww", "div": "wd", "mod": "wd", "jz": "w", "get_sibling": "o", "get_child": "o",
    "get_parent": "o", "get_prop_len": "q", "inc": "v", "dec": "v", "print_addr": "t", "remove_obj": "o", "print_obj": "o", "ret": "w",
    "print_paddr": "T", "load": "v", "not": "w", "storew": "Aiw", "storeb": "Aiw", "put_prop": "oPw", "print_char": "c",
    "print_num": "w", "jump": "w", "random": "w", "push": "w", "pull": "v",
}  # fmt: skip
OFTEN = ["print", "print_num", "new_line", "call", "push", "add", "sub", "je", "jl", "inc_chk", "loadw", "storeb", "get_prop", "insert_obj", "print_obj"]
SELDOM = ["sread", "show_status", "save", "restore", "restart", "quit", "ret", "rtrue", "rfalse", "print_ret", "ret_popped", "pop"]


def word(number):
    return struct.pack(">H", number % 65536)


def text(draw, uses=True, most=5):
    """The words of a text: letters, shifts, escapes, and abbreviations where it uses them."""
    found = [it for it in (draw.randint(0, 31) for _ in range(draw.choice([0, 0, 0, most]))) if uses or not 1 <= it <= 3]
    for _ in range(draw.randint(1, most)):
        found += draw.choice([[draw.randint(6, 31), draw.randint(6, 31)], [0], [4, draw.randint(6, 31)], [5, draw.randint(7, 31)], [draw.randint(6, 31)]])
        if draw.random() < 0.15:
            found += [5, 6, draw.randint(0, 5), draw.randint(0, 31)]
        if uses and draw.random() < 0.25:
            found += [draw.randint(1, 3), draw.randint(0, 31)]
    if draw.random() < 0.2:
        found.append(draw.randint(0, 5) if uses else draw.choice([4, 5]))
    found += [5] * (-len(found) % 3)
    words = [found[it] << 10 | found[it + 1] << 5 | found[it + 2] for it in range(0, len(found), 3)]
    words[-1] |= 0x8000
    return b"".join(word(it) for it in words)


class World:
    """Where things are in a story that is drawn, and its bytes as they come."""

    def __init__(self, draw, hazard, crossing, returns):
        self.returns = returns  # whether the main code may return
        self.draw, self.hazard, self.saves = draw, hazard, draw.random() < 0.3
        self.count = draw.randint(1, 5) if draw.random() < 0.96 else draw.choice([40, 255])
        self.static_texts, self.far_texts, self.routines, self.elsewhere = [], [], [], []
        self.crossing = crossing
        self.large, self.far = draw.random() < 0.03, b""
        self.soft = not self.large and draw.random() < 0.08  # dynamic memory goes up to the dictionary, which is behind all code
        self.tables()
        self.buffers()
        self.abbreviations_and_words()

    def tables(self):
        """Globals, defaults, entries of objects and their property tables."""
        draw, count = self.draw, self.count
        self.property_data, entries, tables = [], b"", b""
        begin = OBJECTS + 62 + 9 * count
        parents = [0] + [draw.randint(0, number - 1) for number in range(2, count + 1)]
        for number in range(1, count + 1):
            elder = [it for it in range(1, number) if parents[it - 1] == parents[number - 1] and parents[number - 1]]
            child = [it for it in range(1, count + 1) if parents[it - 1] == number]
            links = bytes([parents[number - 1], elder[-1] if elder else 0, child[-1] if child else 0])
            shared = number > 1 and draw.random() < 0.08
            entries += bytes(draw.choice([0, 255, 0x11]) for _ in range(4)) + links
            entries += entries[7:9] if shared else word(begin + len(tables))
            tables += b"" if shared else self.property_table(number, begin + len(tables))
        self.front = bytes(draw.randint(0, 255) for _ in range(62)) + entries + tables

    def property_table(self, owner, at):
        draw = self.draw
        name = b"" if draw.random() < 0.2 else text(draw)
        made = bytes([len(name) // 2]) + name
        for number in sorted(draw.sample(range(1, 32), draw.randint(0, 4)), reverse=True):
            size = draw.choice([1, 2, 2, 2, 3, 8])
            self.property_data.append((number, at + len(made) + 1, size, owner))
            made += bytes([(size - 1) << 5 | number]) + bytes(draw.randint(0, 255) for _ in range(size))
        return made + b"\0"

    def buffers(self):
        """An array and the two buffers of `sread`, behind which static memory begins."""
        draw = self.draw
        self.array = OBJECTS + len(self.front)
        room = draw.choice([0, 33000, 58000]) if self.large and self.count <= 5 else 0
        self.text_buffer = self.array + SCRATCH + room
        letters, words = draw.choice([2, 10, 20, 20, int(9 * self.hazard)]), draw.choice([1, 3, 4, 4])
        self.parse = self.text_buffer + letters + 2
        over = self.hazard > 0 and draw.random() < 0.2
        self.front += bytes(draw.randint(0, 255) for _ in range(SCRATCH)) + bytes(room) + bytes([letters]) + bytes(letters + 1)
        self.front += bytes([words + over]) + bytes(1 + 4 * words + draw.choice([0, 0, 0, 2, 3]))
        self.static = OBJECTS + len(self.front)

    def abbreviations_and_words(self):
        """Abbreviations and their texts, some other texts, and the dictionary."""
        draw = self.draw
        places, texts = [], b""
        begin = self.static + 192
        begin += begin % 2
        for _ in range(4):
            places.append(begin + len(texts))
            texts += text(draw, uses=draw.random() < self.hazard, most=2)
        table = b"".join(word(draw.choice(places) // 2) for _ in range(96))
        self.back = table + b"\0" * (begin - self.static - 192) + texts
        for _ in range(3):
            self.static_texts.append(self.static + len(self.back))
            self.back += text(draw)
        self.dictionary = self.static + len(self.back)
        self.back += self.dictionary_bytes()
        self.back += b"\0" * ((self.static + len(self.back)) % 2)

    def dictionary_bytes(self):
        draw = self.draw
        separators, length = draw.choice([b"", b",", b",.\"", b" ,o", b"A?"]), draw.choice([4, 7])
        keys = sorted(encoded(draw.choice(WORDS_KNOWN)) for _ in range(draw.randint(0, 8)))
        entries = b"".join(it + bytes(length - 4) for it in keys)
        return bytes([len(separators)]) + separators + bytes([length]) + word(len(keys)) + entries

    def finished(self, code, first):
        """The story with this code behind its static tables, where its first instruction is at a place."""
        draw = self.draw
        values = [draw.randint(0, self.count), draw.randint(0, 99), draw.randint(0, 99), draw.randint(1, self.count), self.array, draw.randint(0, 5)]
        values += [draw.choice(ODD_WORDS) for _ in range(240 - len(values))]
        rest = b"".join(word(it) for it in values) + self.front + self.back + code
        rest = rest.ljust(FAR - 64, b"\0") + self.far if self.far else even(rest)
        static, dictionary = self.static, self.dictionary
        if self.soft:
            static = dictionary = 64 + len(rest)
            rest = even(rest + self.dictionary_bytes())
        stated = (64 + len(rest)) // 2 if draw.random() < 0.9 else 0
        total = sum(rest) % 65536 if draw.random() < 0.7 else draw.choice([0, 1])
        head = struct.pack(
            ">BBHHHHHHHH6sHHH", 3, draw.choice([0, 2, 0x70]), draw.randint(0, 9), self.static, first, dictionary, OBJECTS, GLOBALS, static,
            draw.choice([0, 0, 1, 2, 3]), b"260101", self.static, stated, total,
        )  # fmt: skip
        return head.ljust(64, b"\0") + rest


def even(made):
    return made + b"\0" * (len(made) % 2)


class Code:
    """Draws instructions and puts them together: branches and jumps lead to where instructions begin, as soon as that is known."""

    def __init__(self, world, locals_known, is_main):
        self.world, self.draw, self.locals, self.is_main, self.height = world, world.draw, locals_known, is_main, 0

    def role_word(self, role):
        world, draw = self.world, self.draw
        if draw.random() < world.hazard * (3 if role in "dap" else 1):
            return draw.choice(self.mistakes(role))
        data = draw.choice(world.property_data or [(1, 0, 1, 1)])
        return {
            "w": lambda: draw.choice(ODD_WORDS + [draw.randint(0, 9)] * 8),
            "v": lambda: self.variable_to(False),
            "o": lambda: draw.randint(1, world.count),
            "a": lambda: draw.randint(0, 31),
            "p": lambda: data[0] if data[2] <= 2 else draw.randint(1, 31),
            "P": lambda: data[0],
            "A": lambda: world.static if self.reads and draw.random() < 0.3 else world.array,
            "i": lambda: draw.randint(0, 1500 if world.soft and draw.random() < 0.3 else SCRATCH // 2 - 1),
            "t": lambda: draw.choice(world.static_texts),
            "T": lambda: draw.choice([it for it in world.static_texts + world.far_texts if it % 2 == 0] or [0]) // 2,
            "d": lambda: draw.choice([1, 2, 3, 7, 0xFFFF, 0xFFFD, 0x8000]),
            "q": lambda: draw.choice([0, data[1]]),
            "c": lambda: draw.choice([0, 13, 32, 65, 97, 126, 127, 200, 300]),
        }[role]()

    def mistakes(self, role):
        """Words that are no such thing, or just are one, and any."""
        world, end = self.world, self.world.static
        some = {
            "o": [0, world.count, world.count + 1, 256 + world.count],
            "a": [31, 32, 0xFFFF],
            "p": [0, 31, 32, 0xFFE0],
            "P": [0, 1, 31],
            "A": [0x10, 0x11, 0x3F, end - 1, end - 2, end, 0xFFFF, 0xFFFE],
            "t": [0xFFFE, 0xFFFF, 0x40],
            "d": [0, 0],
            "v": [0, 15, 16, 255, 256],
        }.get(role, [])
        return some * 3 + [self.draw.choice(ODD_WORDS), self.draw.randint(0, 65535)]

    def role_variable(self, role):
        """A variable that may have such a word, or None."""
        draw = self.draw
        if self.height > 0 and draw.random() < 0.3 and role in "w":
            self.height -= 1
            return 0
        fit = {"o": [19], "A": [20], "i": [21], "w": [17, 18, 21, 22, 23] + list(range(1, self.locals + 1)) * 2}.get(role)
        return draw.choice(fit) if fit else None

    def operand(self, role):
        """An operand as (kind, value)."""
        draw = self.draw
        variable = self.role_variable(role) if draw.random() < 0.4 else None
        if draw.random() < self.world.hazard:
            variable = draw.randint(0, 255)
        if variable is not None:
            return 2, variable
        value = self.role_word(role)
        return (1, value) if value < 256 and draw.random() < 0.9 else (0, value)

    def variable_to(self, pushes=True):
        """The number of a variable that a result may go to; `pushes` says whether variable 0 grows the stack."""
        draw = self.draw
        if draw.random() < self.world.hazard:
            return draw.randint(0, 255)
        if draw.random() < 0.2 and (pushes or self.height):
            self.height += pushes
            return 0
        return draw.choice([17, 18, 22, 23, 24] + list(range(1, self.locals + 1)))

    def operands(self, name):
        draw, world = self.draw, self.world
        self.reads = name in ("loadw", "loadb")
        if name == "je":
            return [self.operand("w") for _ in range(draw.randint(2, 4))]
        if name == "call":
            head = draw.choice(world.routines + [0]) // 2 if draw.random() >= world.hazard else draw.randint(0, 65535)
            return [(0, head)] + [self.operand("w") for _ in range(draw.randint(0, 3))]
        if name == "sread":
            return [(0, world.text_buffer if draw.random() >= world.hazard else draw.randint(0, 2000)), (0, world.parse)]
        if name in ("put_prop", "get_next_prop", "get_prop") and draw.random() >= world.hazard and world.property_data:
            return self.of_property(name)
        if name in ("storeb", "storew") and draw.random() < 0.06:
            return [(1, 0x11 if name == "storeb" else 0x10), (1, 0), self.operand("w")]
        roles = ROLES.get(name, "")
        found = [self.operand(it) for it in roles]
        fit = [at for at, it in enumerate(roles) if it in "oaipdw" and self.locals]
        if fit and draw.random() < 0.3:
            at, local = draw.choice(fit), draw.randint(1, self.locals)
            most = {"o": self.world.count, "a": 31, "i": 30, "p": 31, "d": 9, "w": draw.randint(1, 300)}[roles[at]]
            if found[at] != (2, 0):
                self.before.append((b"\xe7\x3f" + word(most) + bytes([local]), None))
                found[at] = (2, local)
        return found

    def of_property(self, name):
        """Operands that name an object and a property that it has, for `put_prop` and `get_prop` one of a word or a byte."""
        draw = self.draw
        data = [it for it in self.world.property_data if it[2] <= 2 or name == "get_next_prop"]
        if not data:
            return [(1, 1), (1, draw.randint(1, 31))] + [(1, 7)] * (name == "put_prop")
        number, _, _, owner = draw.choice(data)
        asked = draw.choice([0, number]) if name == "get_next_prop" else number
        return [(1, owner), (1, asked)] + ([self.operand("w")] if name == "put_prop" else [])

    def name(self):
        draw = self.draw
        kind = draw.random()
        if draw.random() < self.world.crossing / 3:
            return "jump"
        if self.world.saves and draw.random() < 0.12:
            return draw.choice(["save", "save", "restore", "sread"])
        if kind < 0.35:
            return draw.choice(OFTEN)
        if kind < 0.40:
            name = draw.choice(SELDOM)
            if self.is_main and not self.world.returns and name in ("ret", "rtrue", "rfalse", "print_ret", "ret_popped") and draw.random() > self.world.hazard:
                return "nop"
            return name
        return draw.choice([it for it in [*TWO, *ONE, *NONE, *MORE] if it not in ("-", *SELDOM)])

    def instruction(self):
        """Bytes of an instruction, and what is to be put at their end: None, "branch", or "jump" in their operand."""
        if self.world.windows and self.draw.random() < self.world.windows:
            return self.passed_over(), None
        name = self.name()
        if name in ("pull", "pop", "ret_popped"):
            if self.height < 1 and self.draw.random() >= self.world.hazard:
                name = "nop"
            else:
                self.height -= 1
        if name == "jump" and self.draw.random() >= max(self.world.hazard, self.world.crossing):
            return b"\x8c", "jump"
        made = spelled(self.draw, name, self.operands(name))
        self.height += name == "push"
        if name in STORES:
            made += bytes([self.variable_to()])
        if name in ("print", "print_ret"):
            made += text(self.draw)
        return made, "branch" if name in BRANCHES else None

    def passed_over(self):
        """Bytes of an opcode that is out of the profile, with operands that mean something there or don't (Z 15)."""
        draw, number = self.draw, self.draw.choice([10, 11, 11, 19, 19, 20, 21])
        told = {11: [0, 0, 1], 19: [1, 1, 2, 0xFFFF]}.get(number)
        operands = [(0, draw.choice(told))] if told and draw.random() < 0.8 else [self.operand("w") for _ in range(draw.randint(0, 3))]
        types = 0
        for kind, _ in (operands + [(3, 0)] * 4)[:4]:
            types = types << 2 | kind
        return bytes([0xE0 + number, types]) + b"".join(word(value) if kind == 0 else bytes([value]) for kind, value in operands)

    def drawn(self, count, at, last):
        """So many instructions from a place on, and a last one."""
        parts, heights = [], [0]
        for _ in range(count):
            self.before, height = [], self.height
            made = self.instruction()
            parts += [*self.before, made]
            heights += [height] * len(self.before) + [self.height]
        parts.append((last, None))
        starts, places = at, []
        for made, kind in parts:
            places.append(starts)
            starts += len(made) + (2 if kind else 0)
        self.targets = list(zip(places, heights))
        return b"".join(made + self.patch(kind, number, len(made)) for number, (made, kind) in enumerate(parts))

    def patch(self, kind, number, size):
        """The branch data or the operand of a jump, which leads to where the stack is as high, mostly ahead."""
        if kind is None:
            return b""
        draw, end = self.draw, self.targets[number][0] + size + 2
        targets = self.targets[number + 1 if draw.random() < 0.9 else 0 :]
        height = self.targets[number + 1][1]
        fit = [it for it, high in targets if high == height or draw.random() < self.world.hazard]
        target = draw.choice(fit) if draw.random() >= self.world.hazard else draw.randint(0, 3000)
        if self.world.elsewhere and draw.random() < self.world.crossing:
            target = draw.choice(self.world.elsewhere)
        offset = target - end + 2
        if kind == "jump":
            return word(offset)
        if draw.random() < (0.02 if self.is_main else 0.1):
            offset = draw.randint(0, 1)
        sense = draw.choice([0, 0x8000])
        return word(sense | offset & 0x3FFF)


def spelled(draw, name, operands):
    """The bytes of an instruction up to its operands, in one of its forms."""
    values = b"".join(word(value) if kind == 0 else bytes([value]) for kind, value in operands)
    if name in NONE:
        return bytes([0xB0 + NONE.index(name)])
    if name in ONE:
        return bytes([0x80 + 16 * operands[0][0] + ONE.index(name)]) + values
    if name in TWO and len(operands) == 2 and all(kind for kind, _ in operands) and draw.random() < 0.9:
        kinds = [kind == 2 for kind, _ in operands]
        return bytes([0x40 * kinds[0] + 0x20 * kinds[1] + TWO.index(name) + 1]) + values
    types = 0
    rest = [(3, 0)] + [(draw.choice([0, 1, 2, 3, 3, 3]), 0) for _ in range(3)]
    for kind, _ in (operands + rest)[:4]:
        types = types << 2 | kind
    first = 0xC0 + TWO.index(name) + 1 if name in TWO else 0xE0 + MORE.index(name)
    return bytes([first, types]) + values


def story(draw, hazard=None, restores=False, crossing=0, windows=0):
    """A story: some routines, of which each calls those before it and maybe itself, and the main code, which may begin with a `restore` and a `save`. As often as
    `crossing` says code leads into other code, and jumps by variables; as often as `windows` says opcodes stand that are out of the profile."""
    world = World(draw, draw.choice([0, 0, 1 / 100, 1 / 100, 1 / 20]) if hazard is None else hazard, crossing, restores and draw.random() < 0.3)
    world.windows = windows
    code, begin = b"", world.static + len(world.back)
    if world.large:
        add_far(world)
    for _ in range(draw.randint(0, 4)):
        code += b"\0" * ((begin + len(code)) % 2)
        head, count = begin + len(code), draw.randint(0, 3)
        code += bytes([count]) + b"".join(word(draw.randint(0, 3)) for _ in range(count))
        recursive = draw.random() < 0.15
        if recursive:
            world.routines.append(head)
            code += draw.choice([b"", b"\xe0\x3f" + word(head // 2) + b"\x16"])
        part = Code(world, count, False)
        code += part.drawn(draw.randint(1, 12), begin + len(code), draw.choice([b"\xb0", b"\xb1", b"\x9b\x07", b"\xab\x11"]))
        if not recursive:
            world.routines.append(head)
        world.elsewhere += [it for it, _ in part.targets]
    first = begin + len(code)
    code += b"\xb6\x42\xb5\x42" if restores else b""
    pushes = draw.choice([63, 64, 64, 65]) if draw.random() < 0.03 else 2 * (restores and draw.random() < 0.3)
    code += b"\xe8\x7f\x05" * pushes
    first_drawn = begin + len(code)
    code += Code(world, 0, True).drawn(draw.randint(3, 50), first_drawn, b"\xba")
    return world.finished(code, first)


def add_far(world):
    """A routine and texts behind the first 64 KiB."""
    draw, made = world.draw, b""
    for _ in range(3):
        world.far_texts.append(FAR + len(made))
        made += text(draw)
    head = FAR + len(made)
    made += b"\x01" + word(draw.randint(0, 9)) + Code(world, 1, False).drawn(5, head + 3, b"\xb0")
    world.far = even(made)
    world.routines.append(head)

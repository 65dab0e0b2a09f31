#!/usr/bin/env python3
"""Lays out an image from builder text.

A helper of the repository, and no part of the product: it makes the images that the stored run and
the tests of the program stand on. The product has a builder of its own, in proved code.

    lay_out.py TEXT IMAGE          writes the image to the file IMAGE
    lay_out.py --rattle TEXT [N]   prints the image as rows of a Rattle constant, for tests, each of
                                   at most N bytes (40 where N isn't given)

Builder text has one item a line; words stand apart by one space or more, and empty lines and lines
that begin with `#` are skipped. A reference is a number, `$code`, `nil`, `true`, `false`,
`#symbol`, `@name`, `@CLASS.dict`, `@CLASS.values` or `@CLASS>>SELECTOR`.

    class NAME SUPER FORMAT FIELDS
    object NAME CLASS REF ..
    bytes NAME CLASS HEX
    method CLASS SELECTOR ARGS TEMPS [large] [prim N], then `lit REF`, `byte B`, instructions and
        labels `:name`, and `end`
    process NAME PRIORITY CLASS SELECTOR REF
    special K REF
    active NAME
    ready NAME

The product's builder names each fault of a text; this helper only says which line it can't lay out.
"""

import struct
import sys

FORMAT_NUMBER = 6521
HEADER_SIZE = 64
OLD_BASE = 65536
ROOT_SLOTS = 16
PAGE_SLOTS = 1024
OVERFLOW = 255  # from this slot count on, a word before the header has the count
HIDDEN = 16  # the class index of objects that are part of no state

SMALL, LARGE = 16, 56  # the sizes of a context's stack
FIRST_TEXT_CLASS = 52

# name, class index, format of instances, fields of instances
CLASSES = [
    ("Object", 32, 0, 0), ("Class", 33, 1, 4), ("UndefinedObject", 34, 0, 0), ("False", 35, 0, 0),
    ("Context", 36, 3, 6), ("BlockClosure", 37, 3, 3), ("True", 38, 0, 0),
    ("SmallInteger", 1, 7, 0), ("Character", 2, 7, 0), ("Array", 39, 2, 0),
    ("ByteString", 40, 16, 0), ("Symbol", 41, 16, 0),
    ("ByteArray", 42, 16, 0), ("CompiledMethod", 43, 24, 0), ("Message", 44, 1, 3),
    ("Process", 45, 1, 4), ("Semaphore", 46, 1, 3), ("LinkedList", 47, 1, 2),
    ("ProcessorScheduler", 48, 1, 2), ("Association", 49, 1, 2), ("MethodDictionary", 50, 3, 2),
    ("Point", 51, 1, 2),
]
CONTEXT = 36
READ_AS = {4: 3, 5: 1}  # weak and ephemeron instances are made as what they are read as

SPECIAL_SELECTORS = (
    r"+ - < > <= >= = ~= * / \\ @ bitShift: // bitAnd: bitOr: at: at:put: size next nextPut: atEnd "
    "== class blockCopy: value value: do: new new: x y").split()

SPECIAL_SLOTS = 51
SPECIAL_CLASSES = {7: "Array", 12: "Point", 15: "Message", 18: "Semaphore"}
SPECIAL_SYMBOLS = {
    20: "doesNotUnderstand:", 21: "cannotReturn:", 25: "mustBeBoolean",
    48: "aboutToReturn:through:", 50: "attemptToAssign:withIndex:",
}
SCHEDULER, SELECTORS = 3, 23  # the special slots of the scheduler and of the selectors


class LayoutError(Exception):
    """A line that can't be laid out."""


def check(condition, message):
    if not condition:
        raise LayoutError(message)


def number(word, low, high):
    """A decimal number of the text without leading zeros, from `low` to `high`."""
    try:
        value = int(word)
    except ValueError:
        raise LayoutError("no number: " + word) from None
    check(str(value) == word, "no number: " + word)
    check(low <= value <= high, "out of range: " + word)
    return value


# ---- objects


class Small:
    """A SmallInteger."""

    def __init__(self, value):
        check(-2**30 <= value < 2**30, "no SmallInteger: %d" % value)
        self.value = value

    def word(self):
        return (self.value << 1 | 1) & 0xFFFFFFFF


class Character:
    """A Character."""

    def __init__(self, code):
        self.code = code

    def word(self):
        return self.code << 2 | 2


class Object:
    """An object of the image: slots that name others, or raw bytes, or a method, which has both."""

    def __init__(self, class_index, form, slots=(), raw=b"", hash_=0):
        self.class_index, self.form, self.hash = class_index, form, hash_
        self.slots, self.raw = list(slots), raw
        self.address = None

    def word(self):
        return self.address

    def slot_count(self):
        return len(self.slots) + (len(self.raw) + 3) // 4

    def size(self):
        """Bytes of the object, with its overflow word, header, and a body of at least eight."""
        count = self.slot_count()
        return (8 if count >= OVERFLOW else 0) + 8 + max(8, (4 * count + 7) // 8 * 8)

    def place(self, at):
        """Takes the place `at`, counted from the front of the heap; gives the next one."""
        self.address = OLD_BASE + at + (8 if self.slot_count() >= OVERFLOW else 0)
        return at + self.size()

    def header(self):
        unused = -len(self.raw) % 4
        count = min(self.slot_count(), OVERFLOW)
        return self.class_index | (self.form + unused) << 24 | self.hash << 32 | count << 56

    def data(self):
        count = self.slot_count()
        words = b"".join(struct.pack("<I", slot.word()) for slot in self.slots)
        overflow = struct.pack("<Q", OVERFLOW << 56 | count) if count >= OVERFLOW else b""
        whole = overflow + struct.pack("<Q", self.header()) + words + self.raw
        return whole + bytes(self.size() - len(whole))


class Class(Object):
    """A class. Its slots are the superclass, the dictionary, format and fields, and the name."""

    def __init__(self, name, index, form, fields, superclass):
        super().__init__(33, 1, [superclass, None, Small(form * 65536 + fields), None], hash_=index)
        self.name, self.index, self.instance_form, self.fields = name, index, form, fields
        self.methods = {}


class Method(Object):
    """A method: its header and literals as slots, and its bytecodes."""

    def __init__(self, header, args, temps, size, has_primitive):
        super().__init__(43, 24, [header])
        self.args, self.temps, self.stack_size = args, temps, size
        self.has_primitive = has_primitive

    def first_pc(self):
        return 4 * len(self.slots) + 1


# ---- instructions

PLAIN = {
    "self": 112, "true": 113, "false": 114, "nil": 115, "returnSelf": 120, "returnTrue": 121,
    "returnFalse": 122, "returnNil": 123, "returnTop": 124, "blockReturn": 125, "pop": 135,
    "dup": 136, "thisContext": 137,
}

# the one-byte form as its first code and how many there are, the two-byte form as its code and
# kind, and the operation of code 132
INDEXED = {
    "pushRcvr": ((0, 16), (128, 0), 2), "pushTemp": ((16, 16), (128, 1), None),
    "pushLit": ((32, 32), (128, 2), 3), "pushLitVar": ((64, 32), (128, 3), 4),
    "popRcvr": ((96, 8), (130, 0), 6), "popTemp": ((104, 8), (130, 1), None),
    "popLitVar": ((0, 0), (130, 3), None), "storeRcvr": ((0, 0), (129, 0), 5),
    "storeTemp": ((0, 0), (129, 1), None), "storeLitVar": ((0, 0), (129, 3), 7),
}
VECTORS = {"pushVec": 140, "storeVec": 141, "popVec": 142}
JUMPS = {"jump": (164, -1024), "jumpTrue": (168, 0), "jumpFalse": (172, 0)}


def indexed(name, index):
    (code, most), (extended, kind), operation = INDEXED[name]
    if index < most:
        return [code + index]
    if index < 64:
        return [extended, kind << 6 | index]
    check(operation is not None, "the index doesn't fit: %s %d" % (name, index))
    return [132, operation << 5, index]


def send(literal, args):
    if literal < 16 and args < 3:
        return [208 + 16 * args + literal]
    if literal < 32 and args < 8:
        return [131, args << 5 | literal]
    if literal < 64 and args < 4:
        return [134, args << 6 | literal]
    return [132, args, literal]


def send_super(literal, args):
    if literal < 32 and args < 8:
        return [133, args << 5 | literal]
    return [132, 1 << 5 | args, literal]


def instruction(name, operands):
    """The bytes of an instruction without a label, or None where it is none."""
    def operand(i, low, high):
        return number(operands[i], low, high)

    count = len(operands)
    if name in PLAIN and count == 0:
        return [PLAIN[name]]
    if name in INDEXED and count == 1:
        return indexed(name, operand(0, 0, 255))
    if name == "int" and count == 1:
        return [117 + operand(0, -1, 2)]
    if name == "send" and count == 2:
        return send(operand(0, 0, 255), operand(1, 0, 31))
    if name == "super" and count == 2:
        return send_super(operand(0, 0, 255), operand(1, 0, 31))
    if name in ("newArray", "popArray") and count == 1:
        return [138, operand(0, 0, 127) + (128 if name == "popArray" else 0)]
    if name in VECTORS and count == 2:
        return [VECTORS[name], operand(0, 0, 255), operand(1, 0, 255)]
    if name in ("op", "common") and count == 1:
        return [(176 if name == "op" else 192) + operand(0, 0, 15)]
    if name == "byte" and count == 1:
        return [operand(0, 0, 255)]
    return None


class Assembler:
    """The bytecodes of one method."""

    def __init__(self):
        self.code, self.labels, self.uses = bytearray(), {}, []

    def label(self, name):
        check(name.isalnum() and name[0].isalpha(), "no label: " + name)
        check(name not in self.labels, "a label stands twice: " + name)
        self.labels[name] = len(self.code)

    def add(self, name, operands):
        if name in JUMPS and len(operands) == 1:
            self.uses.append((len(self.code), name, operands[0]))
            self.code += bytes(2)
        elif name == "closure" and len(operands) == 3:
            copied, args = number(operands[0], 0, 15), number(operands[1], 0, 15)
            self.uses.append((len(self.code), name, operands[2]))
            self.code += bytes([143, copied << 4 | args, 0, 0])
        else:
            code = instruction(name, operands)
            check(code is not None, "no instruction: " + " ".join([name] + operands))
            self.code += bytes(code)

    def finish(self):
        """Fills in where jumps and blocks lead."""
        for at, name, label in self.uses:
            check(label in self.labels, "an unknown label: " + label)
            length = 4 if name == "closure" else 2
            offset = self.labels[label] - at - length
            if name == "closure":
                check(0 <= offset < 65536, "the block doesn't fit")
                self.code[at + 2:at + 4] = struct.pack(">H", offset)
            else:
                code, low = JUMPS[name]
                check(low <= offset < 1024, "the jump doesn't fit")
                self.code[at:at + 2] = bytes([code + (offset >> 8), offset & 255])
        return bytes(self.code)


# ---- the text


class Image:
    """The objects of an image, in their order, as the text is read."""

    def __init__(self):
        self.nil, self.false, self.true = Object(34, 0), Object(35, 0), Object(38, 0)
        self.words = [self.nil, self.false, self.true]
        self.specials = Object(39, 2, [self.nil] * SPECIAL_SLOTS)
        self.selectors = Object(39, 2)
        self.lists = [Object(47, 1, [self.nil] * 2) for _ in range(8)]
        lists = Object(39, 2, self.lists)
        self.scheduler = Object(48, 1, [lists, self.nil])
        association = Object(49, 1, [self.nil, self.scheduler])
        self.objects = [self.specials, self.selectors, association, self.scheduler, lists]
        self.objects += self.lists
        self.symbols, self.classes, self.processes, self.named = {}, {}, {}, {}
        self.later = []  # what is done once all names are known: (line, what)
        self.is_active = False
        self.add_classes()
        self.fill_specials(association)

    def add_classes(self):
        for name, index, form, fields in CLASSES:
            above = {"Object": None, "Symbol": "ByteString"}.get(name, "Object")
            superclass = self.classes[above] if above else self.nil
            self.add_class(Class(name, index, form, fields, superclass))

    def add_class(self, class_):
        self.classes[class_.name] = self.named[class_.name] = class_
        self.objects.append(class_)

    def fill_specials(self, association):
        for selector in SPECIAL_SELECTORS:
            args = 2 if selector == "at:put:" else 0 if selector.isalnum() else 1
            self.selectors.slots += [self.symbol(selector), Small(args)]
        slots = self.specials.slots
        slots[SCHEDULER], slots[SELECTORS] = association, self.selectors
        for k, name in SPECIAL_CLASSES.items():
            slots[k] = self.classes[name]
        for k, name in SPECIAL_SYMBOLS.items():
            slots[k] = self.symbol(name)
        for name, *_ in CLASSES:
            self.symbol(name)

    def symbol(self, text):
        if text not in self.symbols:
            self.symbols[text] = Object(41, 16, raw=text.encode("latin-1"))
        return self.symbols[text]

    def name(self, name, thing):
        check(name.isalnum() and name.isascii() and name[0].isalpha(), "no name: " + name)
        check(name not in self.named, "named twice: " + name)
        self.named[name] = thing

    def class_named(self, name):
        check(name in self.classes, "an unknown class: " + name)
        return self.classes[name]

    def method_named(self, class_name, selector):
        methods = self.class_named(class_name).methods
        check(selector in methods, "an unknown method: %s>>%s" % (class_name, selector))
        return methods[selector]

    def fill(self, line, slots, word):
        """Puts what a reference names at the end of the slots; a name may come later."""
        simple = {"nil": self.nil, "true": self.true, "false": self.false}.get(word)
        if simple is None and word[0] == "#":
            check(len(word) > 1, "no symbol: #")
            simple = self.symbol(word[1:])
        elif simple is None and word[0] == "$":
            simple = Character(number(word[1:], 0, 2**30 - 1))
        elif simple is None and word[0] != "@":
            simple = Small(number(word, -2**30, 2**30 - 1))
        slots.append(simple)
        if simple is None:
            at = len(slots) - 1
            self.later.append((line, lambda: slots.__setitem__(at, self.found(word[1:]))))

    def found(self, name):
        """What `@name` names."""
        if ">>" in name:
            return self.method_named(*name.split(">>", 1))
        if name.endswith(".dict"):
            return self.class_named(name[:-5]).slots[1]
        if name.endswith(".values"):
            return self.class_named(name[:-7]).slots[1].slots[1]
        check(name in self.named, "an unknown name: " + name)
        return self.named[name]

    # -- a line of each form

    def read_class(self, _, words):
        name, above, form, fields = words
        form = number(form, 0, 24)
        check(form in (0, 1, 2, 3, 4, 5, 9, 10, 12, 16, 24), "no format: %d" % form)
        superclass = self.nil if above == "nil" else self.class_named(above)
        index = FIRST_TEXT_CLASS + len(self.classes) - len(CLASSES)
        class_ = Class(name, index, form, number(fields, 0, 65535), superclass)
        self.name(name, class_)
        self.add_class(class_)
        self.symbol(name)

    def read_object(self, line, words):
        name, class_name, *references = words
        class_ = self.class_named(class_name)
        form, count = class_.instance_form, len(references)
        check(form <= 5 and class_.index != CONTEXT, "no object of this class: " + class_name)
        fits = count == 0 if form == 0 else form == 2 or count >= class_.fields
        check(fits, "the slots don't fit")
        made = Object(class_.index, READ_AS.get(form, form))
        self.name(name, made)
        self.objects.append(made)
        for word in references:
            self.fill(line, made.slots, word)

    def read_bytes(self, _, words):
        name, class_name, digits = words
        class_ = self.class_named(class_name)
        check(class_.instance_form == 16, "no bytes of this class: " + class_name)
        made = Object(class_.index, 16, raw=b"" if digits == "-" else bytes.fromhex(digits))
        self.name(name, made)
        self.objects.append(made)

    def read_method(self, words, body):
        """A method, and the lines of its body, the last `end` left out."""
        class_name, selector, args, temps, *more = words
        class_ = self.class_named(class_name)
        check(selector not in class_.methods, "a method stands twice")
        is_large = more[:1] == ["large"]
        size, more = (LARGE, more[1:]) if is_large else (SMALL, more)
        temps = number(temps, 0, size)
        args = number(args, 0, min(15, temps))
        method = Method(None, args, temps, size, bool(more))
        class_.methods[selector] = method
        self.objects.append(method)
        self.symbol(selector)
        assembler = Assembler()
        if more:
            check(len(more) == 2 and more[0] == "prim", "no such form: " + " ".join(more))
            assembler.code += bytes([139]) + struct.pack("<H", number(more[1], 0, 65535))
        for line, (first, *rest) in body:
            with_line(line, self.read_body_line, line, method, assembler, first, rest)
        method.raw = assembler.finish()
        literals = len(method.slots) - 1
        check(literals < 2**15, "too many literals")
        flags = bool(more) << 16 | is_large << 17
        method.slots[0] = Small(literals | flags | temps << 18 | args << 24)

    def read_body_line(self, line, method, assembler, first, rest):
        if first == "lit" and len(rest) == 1:
            self.fill(line, method.slots, rest[0])
        elif first[0] == ":" and not rest:
            assembler.label(first[1:])
        else:
            assembler.add(first, rest)

    def read_process(self, line, words):
        name, priority, class_name, selector, receiver = words
        method = self.method_named(class_name, selector)
        check(method.args == 0, "the method has arguments")
        pc = method.first_pc() + (3 if method.has_primitive else 0)
        context = Object(CONTEXT, 3, [self.nil, Small(pc), Small(method.temps), method, self.nil])
        self.fill(line, context.slots, receiver)
        context.slots += [self.nil] * method.stack_size
        process = Object(45, 1, [self.nil, context, Small(number(priority, 1, 8)), self.nil])
        self.name(name, process)
        self.processes[name] = process
        self.objects += [context, process]

    def process_named(self, name):
        check(name in self.processes, "an unknown process: " + name)
        return self.processes[name]

    def read_special(self, line, words):
        k, word = words
        k = number(k, 0, SPECIAL_SLOTS - 1)
        check(k != SCHEDULER, "the scheduler stands there")
        slots = []
        self.fill(line, slots, word)
        self.later.append((line, lambda: self.specials.slots.__setitem__(k, slots[0])))

    def read_active(self, _, words):
        (name,) = words
        check(not self.is_active, "a process is active already")
        self.is_active = True
        self.scheduler.slots[1] = self.process_named(name)

    def read_ready(self, _, words):
        (name,) = words
        process = self.process_named(name)
        linked = self.lists[process.slots[2].value - 1]
        process.slots[0] = self.nil
        if linked.slots[0] is self.nil:
            linked.slots[0] = process
        else:
            linked.slots[1].slots[0] = process
        linked.slots[1] = process
        process.slots[3] = linked

    # -- all of it

    def read(self, text):
        lines = [(n, line.split()) for n, line in enumerate(text.split("\n"), 1)
                 if not line.startswith("#") and line.split()]
        while lines:
            line, (first, *words) = lines.pop(0)
            if first == "method":
                body = self.body_of(line, lines)
                with_line(line, self.read_method, words, body)
            else:
                read = getattr(self, "read_" + first, None) if first in FORMS else None
                with_line(line, check, read is not None, "no such form: " + first)
                with_line(line, read, line, words)
        self.add_dictionaries()
        for line, what in self.later:
            with_line(line, what)
        self.objects += self.symbols.values()

    @staticmethod
    def body_of(line, lines):
        """Takes the lines of a method's body off the front, with its `end`."""
        ends = [i for i, (_, words) in enumerate(lines) if words == ["end"]]
        with_line(line, check, bool(ends), "a method without end")
        body = lines[:ends[0]]
        del lines[:ends[0] + 1]
        return body

    def add_dictionaries(self):
        for class_ in self.classes.values():
            values = Object(39, 2, class_.methods.values())
            selectors = [self.symbol(selector) for selector in class_.methods]
            dictionary = Object(50, 3, [Small(len(selectors)), values, *selectors])
            class_.slots[1], class_.slots[3] = dictionary, self.symbol(class_.name)
            self.objects += [dictionary, values]

    def data(self):
        """The bytes of the image: header, heap, and the class table's pages at the heap's end."""
        entries = {class_.index: class_ for class_ in self.classes.values()}
        entries[3] = entries[1]
        pages = []
        for first in range(0, max(entries) + 1, PAGE_SLOTS):
            page = [entries.get(first + i, self.nil) for i in range(PAGE_SLOTS)]
            pages.append(Object(HIDDEN, 2, page))
        root = Object(HIDDEN, 2, pages + [self.nil] * (ROOT_SLOTS - len(pages)))
        words_object = Object(HIDDEN, 10, raw=bytes(8))
        heap, at = [*self.words, words_object, root, *self.objects, *pages], 0
        for thing in heap:
            at = thing.place(at)
        header = struct.pack("<5I", FORMAT_NUMBER, HEADER_SIZE, at, OLD_BASE, self.specials.address)
        return header + bytes(HEADER_SIZE - len(header)) + b"".join(thing.data() for thing in heap)


FORMS = ("class", "object", "bytes", "process", "special", "active", "ready")


def with_line(line, call, *arguments):
    """Calls; a line that can't be laid out is named in the error."""
    try:
        return call(*arguments)
    except LayoutError as error:
        if str(error).startswith("line "):
            raise
        raise LayoutError("line %d: %s" % (line, error)) from None
    except (TypeError, ValueError) as error:
        raise LayoutError("line %d: the words don't fit (%s)" % (line, error)) from None


def lay_out(text):
    """The bytes of the image that builder text describes."""
    image = Image()
    image.read(text)
    return image.data()


# ---- the program

NIL = struct.pack("<I", OLD_BASE)
ROW_BYTES = 40


def rows_of(image, most):
    """The image as rows: how many nil words, and at most so many bytes behind them up to more nils."""
    rows, nils, piece = [], 0, b""
    for at in range(0, len(image), 4):
        word = image[at:at + 4]
        is_run = word == NIL and (not piece or image[at:at + 12] == 3 * NIL)
        if is_run or len(piece) >= most:
            if piece:
                rows.append((nils, piece))
                nils, piece = 0, b""
        if is_run:
            nils += 1
        else:
            piece += word
    return rows + [(nils, piece)]


def main(words):
    as_rattle = words[:1] == ["--rattle"]
    if len(words) not in ((2, 3) if as_rattle else (2,)):
        sys.exit("usage: lay_out.py TEXT IMAGE, or lay_out.py --rattle TEXT [N]")
    with open(words[1] if as_rattle else words[0], encoding="latin-1") as source:
        text = source.read()
    try:
        image = lay_out(text)
    except LayoutError as error:
        sys.exit("lay_out.py: " + str(error))
    if as_rattle:
        for nils, piece in rows_of(image, int(words[2]) if len(words) == 3 else ROW_BYTES):
            print('    (%d, "%s"),' % (nils, piece.hex()))
    else:
        with open(words[1], "wb") as target:
            target.write(image)


if __name__ == "__main__":
    main(sys.argv[1:])

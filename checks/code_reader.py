"""Reads the files of codes by docs/CODE.md, apart from the program, for checks/code_bytes and checks/damaged_codes.

A code is refused at an offset, by a reason, or it is read: its procedures with their entries, its actions, and its
instructions. A kind of an operand is I for an integer and B for a Boolean.
"""

# The heads of files of versions 1 and 2.
HEADS = (bytes.fromhex("535441504C430001"), bytes.fromhex("535441504C430002"))
MOST_BYTES = 268_435_520
MOST_PIECES = 100_000
MOST_INTEGERS, MOST_BOOLEANS, MOST_BITS = 1_048_576, 16_777_216, 4_194_304
RESERVED = frozenset("""
    ACTION BOOLEAN CALL CRC DATA DRSCAN DRSTOP ENDDATA ENDPROC EXIT EXPORT FOR FREQUENCY GOTO IF INTEGER IRSCAN IRSTOP
    NEXT NOTE POP POSTDR POSTIR PREDR PREIR PRINT PROCEDURE PUSH STATE TRST VECTOR VMAP WAIT CAPTURE COMPARE CYCLES MAX
    OPTIONAL RECOMMENDED STEP THEN TO USEC USES ABS BOOL CEIL CHR$ FLOOR INT LOG2 SQRT RESET IDLE DRSELECT DRCAPTURE
    DRSHIFT DREXIT1 DRPAUSE DREXIT2 DRUPDATE IRSELECT IRCAPTURE IRSHIFT IREXIT1 IRPAUSE IREXIT2 IRUPDATE
""".encode().split())
# RESET, IDLE, DRPAUSE and IRPAUSE, by the numbers of the sixteen states in docs/DEVICES.md.
STABLE = (0, 1, 6, 13)

TURN, JUMP, JUMP_IF_ZERO, FOR, NEXT, CALL, END_PROC, CHECK_CHAR, EXIT = (
    0x01, 0x10, 0x11, 0x12, 0x13, 0x16, 0x17, 0x19, 0x1B)
PUSH, PUSH_BIT, STORE, SET_BITS, SET_INTS = 0x02, 0x03, 0x08, 0x0E, 0x0F
IN_PROLOGUE = (PUSH, PUSH_BIT, STORE, SET_BITS, SET_INTS)
BEFORE_TURN = (FOR, NEXT, CALL, JUMP, EXIT)
LEAVES_NONE = (*BEFORE_TURN, JUMP_IF_ZERO, END_PROC)


class Refused(Exception):
    """The bytes are refused at an offset, by a reason."""


class Instruction:
    """An instruction: where it stands, what it takes and gives, and whether its variables and states are right."""

    def __init__(self, offset, which):
        self.offset, self.which = offset, which
        self.number, self.target = None, None
        self.takes, self.gives, self.is_right = "", "", True

    def does(self, takes="", gives="", is_right=True):
        self.takes, self.gives, self.is_right = takes, gives, is_right


class Code:
    """What a file holds: the kinds and sizes of variables, the counts of the lists, and the rest as it is."""

    def __init__(self):
        self.variables, self.literals, self.texts = [], 0, 0
        self.names, self.entries, self.actions, self.instructions = [], [], {}, []


class Reader:
    """Reads fields of a code from left to right."""

    def __init__(self, code):
        self.code, self.at = code, 0

    def field(self, size, in_range):
        """The bytes of a field, which may be cut or out of range."""
        if self.at + size > len(self.code):
            raise Refused(len(self.code), "Cut")
        found = self.code[self.at:self.at + size]
        if not in_range(found):
            raise Refused(self.at, "Field")
        self.at += size
        return found

    def number(self, low=0, high=0xFFFFFFFF, size=4):
        return int.from_bytes(self.field(size, lambda f: low <= int.from_bytes(f, "big") <= high), "big")

    def signed(self):
        return int.from_bytes(self.field(4, lambda found: True), "big", signed=True)

    def name(self, earlier):
        return self.field(self.number(1, 32, 1), lambda f: is_name(f) and f not in earlier)


def is_name(name):
    """Whether bytes are a name in upper case that is not reserved."""
    text = name.decode("latin-1")
    upper = all("A" <= c <= "Z" or "0" <= c <= "9" or c == "_" for c in text)
    return upper and "A" <= text[0] <= "Z" and name not in RESERVED


def read_variables(reader, code):
    left = {"I": MOST_INTEGERS, "B": MOST_BOOLEANS}
    for _ in range(reader.number()):
        kind = reader.number(0, 3, 1)
        holds = "IB"[kind % 2]
        most = 1 if kind < 2 else MOST_BITS if kind == 3 else MOST_INTEGERS
        size = reader.number(1, min(most, left[holds]))
        left[holds] -= size
        code.variables.append((holds, kind >= 2, size))


def read_lists(reader, code):
    """The literals, the texts, the procedures and the actions."""
    code.literals = reader.number()
    for _ in range(code.literals):
        bits = reader.number(1, MOST_BOOLEANS)
        reader.field((bits + 7) // 8, lambda found: bits % 8 == 0 or found[-1] >> bits % 8 == 0)
    code.texts = reader.number()
    for _ in range(code.texts):
        reader.field(reader.number(0, MOST_BITS), lambda found: True)
    for _ in range(reader.number(1)):
        code.names.append(reader.name(code.names))
        code.entries.append(reader.number(code.entries[-1] + 1 if code.entries else 0))
    for _ in range(reader.number(1)):
        name = reader.name(code.actions)
        items = range(reader.number(1))
        code.actions[name] = [(reader.number(0, len(code.names) - 1), reader.number(0, 2, 1)) for _ in items]


class Parts:
    """Reads the parts of one instruction, and gathers what they take and whether their variables are right."""

    def __init__(self, reader, code):
        self.reader, self.code = reader, code
        self.takes, self.is_right = "", True

    def byte(self, high, low=0):
        return self.reader.number(low, high, 1)

    def variable(self, holds="IB", is_array=None):
        """What a variable holds, and its size. It has to hold one of some kinds, and be an array or a scalar."""
        found = self.reader.number(0, len(self.code.variables) - 1)
        kind, array, size = self.code.variables[found]
        self.is_right &= kind in holds and is_array in (None, array)
        return kind, size

    def bits(self, which):
        """A whole variable, a range of one, or an integer."""
        if which < 3:
            self.variable("B", True)
        self.takes += ("", "", "II", "I")[which]

    def source(self):
        which = self.byte(3)
        if which:
            self.bits(which)
        else:
            self.reader.number(0, self.code.literals - 1)

    def destination(self):
        self.bits(self.byte(2, 1))

    def cell(self):
        is_element = self.byte(1)
        self.variable("B", bool(is_element))
        self.takes += "I" * is_element

    def text(self):
        self.reader.number(0, self.code.texts - 1)

    def stable_state(self):
        self.is_right &= self.byte(15) in STABLE

    def taken(self, gives=""):
        return self.takes, gives, self.is_right


def read_with_variable(which, parts):
    """The instructions 04 to 09: a scalar or an element is loaded or stored, an index or a range is tested."""
    kind, _ = parts.variable("B" if which == 0x07 else "IB", which not in (0x04, STORE))
    takes, gives = {
        0x04: ("", kind),
        0x05: ("I", kind),
        0x06: ("I", "I"),
        0x07: ("II", "II"),
        STORE: (kind, ""),
        0x09: ("I" + kind, ""),
    }[which]
    return takes, gives, parts.is_right


def read_operator(which, parts):
    if which == 0x0A:
        kind = "B" if parts.byte(3) == 3 else "I"
        return kind, kind, True
    operator = parts.byte(22)
    return "BB" if operator > 15 else "II", "I" if operator < 10 else "B", True


def read_set(which, parts):
    """The instructions 0E and 0F, which set a whole array."""
    _, size = parts.variable("B" if which == SET_BITS else "I", True)
    if which == SET_BITS:
        parts.reader.number(0, parts.code.literals - 1)
    else:
        for _ in range(parts.reader.number(1, size)):
            parts.reader.signed()
    return parts.taken()


def read_print(parts):
    for _ in range(parts.reader.number(1)):
        which = parts.byte(3)
        if which == 0:
            parts.text()
        parts.takes += ("", "I", "B", "I")[which]
    return parts.taken()


def read_export(parts):
    parts.text()
    which = parts.byte(2)
    if which == 2:
        parts.source()
    parts.takes += ("I", "B", "")[which]
    return parts.taken()


def read_scan(parts):
    parts.byte(1)
    parts.takes = "I"
    parts.source()
    flags = parts.byte(3)
    if flags & 1:
        parts.destination()
    if flags & 2:
        parts.source()
        parts.source()
        parts.cell()
    return parts.taken()


def read_pad(parts):
    parts.byte(3)
    parts.takes = "I"
    if parts.byte(1):
        parts.source()
    return parts.taken()


def read_states(which, parts):
    """The instructions 1D, 1F and 20: a stop, a move, and a wait."""
    if which == 0x1D:
        parts.byte(1)
        parts.stable_state()
    elif which == 0x1F:
        states = [parts.byte(15) for _ in range(parts.reader.number(1))]
        parts.is_right &= states[-1] in STABLE
    else:
        parts.stable_state()
        parts.takes = ("", "I", "I", "II")[parts.byte(3, 1)]
        parts.stable_state()
    return parts.taken()


def read_bits(which, parts):
    """The instructions 0C and 0D: bits become an integer, or are copied."""
    if which == 0x0D:
        parts.destination()
    parts.source()
    return parts.taken("I" if which == 0x0C else "")


def read_fields(found, parts):
    """The fields of an instruction: what it takes and gives, and whether its variables and states are right."""
    which, reader = found.which, parts.reader
    if which == TURN:
        found.number = reader.number(1, MOST_PIECES)
        return "", "", True
    if which == PUSH:
        found.number = reader.signed()
        return "", "I", True
    if which in (PUSH_BIT, 0x15):
        kind = parts.byte(1)
        return "", "B" if which == PUSH_BIT else "IB"[kind], True
    if which == 0x14:
        return "IB"[parts.byte(1)], "", True
    if which in (0x04, 0x05, 0x06, 0x07, STORE, 0x09):
        return read_with_variable(which, parts)
    if which in (JUMP, JUMP_IF_ZERO):
        found.number = found.target = reader.number()
        return "B" if which == JUMP_IF_ZERO else "", "", True
    if which in (FOR, NEXT):
        parts.variable("I", False)
        if which == FOR:
            found.target = reader.number()
        return "III" if which == FOR else "", "", parts.is_right
    if which == CALL:
        found.number = reader.number(0, len(parts.code.names) - 1)
        return "", "", True
    if which == 0x21:
        return "I" * parts.byte(1), "", True
    if which in (END_PROC, CHECK_CHAR, EXIT):
        return "" if which == END_PROC else "I", "I" if which == CHECK_CHAR else "", True
    return read_other(which, parts)


def read_other(which, parts):
    if which in (0x0A, 0x0B):
        return read_operator(which, parts)
    if which in (0x0C, 0x0D):
        return read_bits(which, parts)
    if which in (SET_BITS, SET_INTS):
        return read_set(which, parts)
    if which in (0x1D, 0x1F, 0x20):
        return read_states(which, parts)
    return {0x18: read_print, 0x1A: read_export, 0x1C: read_scan, 0x1E: read_pad}[which](parts)


def read(data):
    """The code of a file, whose fields are all in their ranges."""
    if len(data) > MOST_BYTES:
        raise Refused(MOST_BYTES, "TooLong")
    reader, code = Reader(data), Code()
    reader.field(8, lambda found: found in HEADS)
    read_variables(reader, code)
    read_lists(reader, code)
    for _ in range(reader.number()):
        found = Instruction(reader.at, reader.number(1, 0x21, 1))
        found.does(*read_fields(found, Parts(reader, code)))
        code.instructions.append(found)
    if reader.at < len(data):
        raise Refused(reader.at, "Extra")
    return code


def breaks_place(code, begin, end, at):
    """Whether an instruction may not stand where it stands, in the procedure from begin to end."""
    found = code.instructions[at]
    if at == begin:
        return found.which != TURN or at == end - 1
    if (found.which == END_PROC) != (at == end - 1):
        return True
    return code.instructions[at - 1].which in BEFORE_TURN and found.which != TURN


def breaks_target(code, begin, end, found):
    """Whether an instruction leads to something that is no Turn of its procedure."""
    if found.target is None:
        return False
    return not (begin <= found.target < end and code.instructions[found.target].which == TURN)


def first_break(code, begin, end, is_prologue):
    """The first instruction that breaks a rule, of the prologue or of a procedure, if there is one."""
    kinds = ""
    for at in range(begin, end):
        found = code.instructions[at]
        if is_prologue and found.which not in IN_PROLOGUE:
            return at
        if not is_prologue and (breaks_place(code, begin, end, at) or breaks_target(code, begin, end, found)):
            return at
        if not found.is_right or not kinds.endswith(found.takes) or found.which == TURN and kinds:
            return at
        kinds = kinds[:len(kinds) - len(found.takes)] + found.gives
        if kinds and (found.which in LEAVES_NONE or is_prologue and at == end - 1):
            return at
    return None


def check(code, size):
    """Refuses the first instruction that breaks a rule."""
    count = len(code.instructions)
    if not count:
        raise Refused(size, "Invalid")
    edges = [min(entry, count) for entry in code.entries]
    broken = [first_break(code, 0, edges[0], True)]
    broken += [first_break(code, begin, end, False) for begin, end in zip(edges, [*edges[1:], count])]
    if code.entries[-1] >= count:
        broken.append(count - 1)
    found = [at for at in broken if at is not None]
    if found:
        raise Refused(code.instructions[min(found)].offset, "Invalid")


def read_valid(data):
    """The code of a file, which is valid, or the refusal."""
    code = read(data)
    check(code, len(data))
    return code

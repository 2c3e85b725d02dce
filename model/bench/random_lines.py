"""Random lines for sessions: openings, frames, and lines with faults."""

from session_model import COVER, KINDS, ListedRule

# Numbers at the edges of what a line, a frame or a machine word can hold.
EDGES = (0, 1, 2, 8, 9, 15, 16, 17, 255, 256, 257, 258, 32767, 32768, 65534, 65535)
WRAPPING = (65536, 65537, 65538, 131073, 2**32, 2**32 + 1, 2**64, 2**64 + 1, 2**128 + 1, 10**30)


def random_part(rng, boards):
    """A random part of a set of boards."""
    return boards & rng.getrandbits(16)


def joined(*fields):
    return b",".join(field if isinstance(field, bytes) else b"%d" % field for field in fields)


# Openings.


class Opening:
    """An opening line before it is written; f belongs to a count rule, the sets to a listed one."""

    def __init__(self, method, depth, crew, f, sets, characters, bad, starts):
        self.method = method
        self.depth = depth
        self.crew = crew
        self.f = f
        self.sets = sets
        self.characters = characters
        self.bad = bad
        self.starts = starts

    def line(self):
        method = self.method.encode()
        if self.sets is None:
            return joined(b"o", method, self.depth, self.crew, self.f, self.characters, self.bad, *self.starts)
        count = len(self.sets)
        return joined(b"g", method, self.depth, self.crew, count, self.characters, self.bad, *self.sets, *self.starts)


CREW_WEIGHTS = (5, 4, 8, 22, 10, 8, 14, 4, 3, 5, 2, 1, 2, 1, 1, 2)


def good_sets(rng, crew, cover):
    """Listed sets that have the cover."""
    everyone = 2**crew - 1
    sets = []
    if rng.random() < 0.4:
        parts = [0] * rng.randint(cover + 1, max(cover + 1, min(8, crew)))
        for board in range(crew):
            parts[rng.randrange(len(parts))] |= 2**board
        sets = parts
        while not ListedRule(crew, sets).has_cover(cover):
            sets.pop()
    else:
        density = rng.choice((0.15, 0.25, 0.4))
        for _ in range(rng.randint(0, 8)):
            candidate = sum(2**board for board in range(crew) if rng.random() < density)
            if ListedRule(crew, sets + [candidate]).has_cover(cover):
                sets.append(candidate)
    while sets and len(sets) < 8 and rng.random() < 0.2:
        sets.append(random_part(rng, rng.choice(sets)) if rng.random() < 0.5 else rng.choice(sets))
    rng.shuffle(sets)
    sets = sets[:8]
    assert ListedRule(crew, sets).has_cover(cover) and all(listed <= everyone for listed in sets)
    return sets


def good_opening(rng, crew=None, method=None):
    method = method or rng.choice("pee")
    cover = COVER[method]
    crew = crew or rng.choices(range(1, 17), CREW_WEIGHTS)[0]
    characters = rng.choice((1, 2, 2, 3, 3, 4, 5, 6, 7, 8))
    f = sets = None
    if rng.random() < 0.6:
        f = (crew - 1) // cover
        if rng.random() < 0.2:
            f = rng.randint(0, f)
        most = rng.sample(range(crew), f)
        bad = sum(2**board for board in most)
    else:
        sets = good_sets(rng, crew, cover)
        bad = rng.choice(sets) if sets else 0
    if rng.random() < 0.3:
        bad = random_part(rng, bad)
    starts = some_starts(rng, crew, characters, bad)
    return Opening(method, rng.choice((1, 2, 2)), crew, f, sets, characters, bad, starts)


def some_starts(rng, crew, characters, bad):
    """Starting characters: all one, all one but for the listed boards, of two, or any."""
    one, other = rng.randint(1, characters), rng.randint(1, characters)
    style = rng.random()
    if style < 0.15:
        return [one] * crew
    if style < 0.3:
        return [other if bad >> board & 1 else one for board in range(crew)]
    if style < 0.65:
        share = rng.choice((0.2, 0.35, 0.5))
        return [other if rng.random() < share else one for _ in range(crew)]
    return [rng.randint(1, characters) for _ in range(crew)]


def spoil_opening(rng, opening):
    """Puts one wrong number in."""
    cover = COVER[opening.method]
    crew = opening.crew
    what = rng.choice(("crew", "characters", "depth", "rule", "rule", "start", "start", "bad", "bad"))
    if what == "crew":
        opening.crew = rng.choice((0, 17, 17, 18, 20, 32, 33))
        opening.starts = [rng.randint(1, max(1, min(8, opening.characters))) for _ in range(opening.crew)]
    elif what == "characters":
        opening.characters = rng.choice((0, 9, 10, 16, 255, 256, 257, 258, 65535))
    elif what == "depth":
        opening.depth = rng.choice((0, 3, 4, 255, 256, 257, 258, 65535))
    elif what == "rule" and opening.sets is None:
        least = -(-crew // cover)
        opening.f = rng.choice((least, least, least + 1, crew, 21845, 21846, 32768, 32769, 43691, 65535))
    elif what == "rule":
        wrong = rng.random()
        if wrong < 0.3:
            opening.sets = (opening.sets + [0] * 9)[: rng.choice((9, 9, 10))]
        elif wrong < 0.6:
            outside = 2**crew if crew < 16 else 65535
            outside |= random_part(rng, 65535) if rng.random() < 0.3 else 0
            opening.sets = (opening.sets + [outside])[-8:]
        else:
            fill_cover(rng, opening)
        rng.shuffle(opening.sets)
    elif what == "start" and opening.starts:
        board = rng.randrange(len(opening.starts))
        opening.starts[board] = rng.choice((0, opening.characters + 1, 9, 255, 256, 257, 65535)) % 65536
    elif what == "bad":
        everyone = 2 ** min(crew, 16) - 1
        rest = everyone & ~opening.bad
        choices = (everyone, rest, random_part(rng, everyone), everyone + 1, opening.bad | 2**crew, 65535)
        opening.bad = min(65535, rng.choice(choices))


def fill_cover(rng, opening):
    """Lists sets that hold the whole crew between them, `cover` of them or fewer."""
    parts = [0] * rng.randint(1, COVER[opening.method])
    for board in range(opening.crew):
        parts[rng.randrange(len(parts))] |= 2**board
    opening.sets = ([part % 65536 for part in parts] + opening.sets)[:8]


def bad_opening(rng):
    opening = good_opening(rng)
    for _ in range(rng.choice((1, 1, 1, 2, 2, 3))):
        spoil_opening(rng, opening)
    return opening.line()


def long_opening(rng, length):
    """A readable opening of just this length: its numbers are made longer until it fits, or None."""
    opening = good_opening(rng, crew=rng.randint(10, 16))
    if rng.random() < 0.5:
        opening.sets, opening.f = good_sets(rng, opening.crew, COVER[opening.method]), None
    if rng.random() < 0.4:
        opening.crew = rng.randint(17, 40)
        opening.starts = [rng.randint(1, 8) for _ in range(opening.crew)]
    if rng.random() < 0.3:
        opening.characters, opening.bad = rng.randint(10000, 65535), rng.randint(10000, 65535)
    for _ in range(100):
        missing = length - len(opening.line())
        if missing == 0:
            return opening.line()
        if missing < 0:
            return None
        numbers = rng.choice([opening.starts, opening.starts, opening.sets or opening.starts])
        place = rng.randrange(len(numbers))
        digits = min(5, len(b"%d" % numbers[place]) + missing)
        numbers[place] = rng.randint(10 ** (digits - 1), min(65535, 10**digits - 1))
    return None


# Frames that listed boards send.


def good_frame(rng, group, port):
    kind = rng.randint(1, KINDS[group.method, group.depth])
    return joined(1, 1, port, kind, rng.randint(0, group.characters))


def junk(rng, length):
    """Bytes of any value but the line feed."""
    style = rng.random()
    if style < 0.3:
        choice = b"0123456789,"
    elif style < 0.5:
        choice = b"0123456789,,, +-.\r\0\xff\x80ogscfpe"
    else:
        choice = bytes(byte for byte in range(256) if byte != 10)
    return bytes(rng.choice(choice) for _ in range(length))


LARGEST_FIELDS = (65535, 65535, 15, 5, 8)


def damaged_frame(rng, group, port):
    """A frame with one to three faults, most of which are refused."""
    fields = good_frame(rng, group, port).split(b",")
    numbers = [int(field) for field in fields]
    marks = [b",", b",", b",", b",", b""]
    for _ in range(rng.choice((1, 1, 1, 2, 3))):
        i = rng.randrange(5)
        how = rng.randrange(10)
        if how == 0:
            fields[i] = b""
        elif how == 1:
            fields[i] = junk(rng, 1) + fields[i]
        elif how == 2:
            fields[i] = b"0" * rng.choice((1, 1, 2, 5, 40)) + fields[i]
        elif how == 3:
            above = LARGEST_FIELDS[i] + 1
            wrapping = numbers[i] + 2 ** rng.choice((8, 16, 32, 64, 128))
            fields[i] = b"%d" % rng.choice((above, above, above, 10 * above, wrapping, wrapping))
        elif how == 4:
            fields[i] = b"%d" % rng.choice((0, 0, LARGEST_FIELDS[i], LARGEST_FIELDS[i]))
        elif how == 5:
            fields[i] = b"0123456789"[rng.randrange(10) :][:1] * rng.choice((6, 20, 60))
        elif how == 6:
            marks[i] = rng.choice((b"", b".", b" ", b"\r", b"\0", b",,", b"x,", b";"))
        elif how == 7:
            return b"".join(f + m for f, m in zip(fields[:i], marks)) + rng.choice((b"", fields[i]))
        elif how == 8:
            marks[4] = rng.choice((b",", b"\r", b" ", b",1", b"x", b"\0", b"\xff"))
        else:
            change_field(rng, group, fields, i)
    return b"".join(field + mark for field, mark in zip(fields, marks))


def change_field(rng, group, fields, i):
    """Another number that a frame can carry, but often not this board's."""
    least, largest = ((1, 65535), (1, 65535), (0, 15), (1, 5), (0, 8))[i]
    fields[i] = b"%d" % rng.choice((rng.randint(least, largest), 2 if i < 2 else largest))


def foreign_frame(rng, group, port):
    """A frame that is read but belongs to another board, group or harbour."""
    fields = good_frame(rng, group, port).split(b",")
    for _ in range(rng.choice((1, 1, 2, 3))):
        change_field(rng, group, fields, rng.randrange(5))
    return joined(*fields)


def forged_of_length(rng, group, length):
    """A forged line of just this length."""
    to, port = (steady_board(rng, group), listed_board(rng, group)) if group else (0, 1)
    start = joined(b"f", to, port, b"")
    good = good_frame(rng, group, port) if group else b"1,1,1,1,1"
    front = rng.choice((b"", b"", b"1,", b"1,1,", b"1,1,%d," % port, b"1,1,%d,1," % port, good))
    tail = rng.choice((b"0", b"9", b"1", b",", b"x", b"\0", b"\xff"))
    return (start + front + tail * length)[:length]


# Lines that are not readable.


def base_fields(rng, letter, group):
    """The fields of some readable line."""
    small = [rng.randint(0, 8) for _ in range(4)]
    if group is not None and rng.random() < 0.5:
        small[0], small[1] = rng.randrange(len(group.boards)), rng.randrange(len(group.boards))
    if letter == b"s":
        return [b"s", b"%d" % small[0]]
    if letter == b"c":
        return joined(b"c", *small).split(b",")
    if letter == b"f":
        return [b"f", b"%d" % small[0], b"%d" % small[1], b"1,1,%d,1,1" % small[1]]
    opening = good_opening(rng, crew=rng.randint(1, 7))
    if letter == b"o" and opening.f is None:
        opening.sets, opening.f = None, 0
    if letter == b"g" and opening.sets is None:
        opening.sets = good_sets(rng, opening.crew, COVER[opening.method])
    return opening.line().split(b",")


LETTERS = (b"o", b"g", b"s", b"c", b"f")

# Faults that make a line of any letter unreadable, and those that only some letters can have.
LINE_FAULTS = (
    "letter alone", "letter and comma", "unknown letter", "capital letter", "long letter", "leading zero",
    "empty field", "sign", "space", "too large", "letter in a number", "odd byte", "other mark", "field missing",
    "over 120 bytes",
)  # fmt: skip
NO_FORGE_FAULTS = ("field added", "comma behind", "carriage return")
OPENING_FAULTS = ("unknown method", "wrong count", "characters missing")


def unreadable_line(rng, group):
    """A label and a line with one fault."""
    letter = rng.choice(LETTERS)
    faults = LINE_FAULTS
    if letter != b"f":
        faults += NO_FORGE_FAULTS
    if letter in b"og":
        faults += OPENING_FAULTS
    fault = rng.choice(faults)
    fields = base_fields(rng, letter, group)
    numbers = [i for i in range(1, min(len(fields), 3) if letter == b"f" else len(fields))]
    if letter in b"og":
        numbers.remove(1)
    i = rng.choice(numbers)
    if fault == "letter alone":
        fields = [letter]
    elif fault == "letter and comma":
        fields = [letter, b""]
    elif fault == "unknown letter":
        fields[0] = rng.choice((b"a", b"b", b"x", b"?", b"0", b"#", b"\0", b"\xef", b""))
    elif fault == "capital letter":
        fields[0] = letter.upper()
    elif fault == "long letter":
        fields[0] = letter + rng.choice((b" ", letter, b"1", b"\0", b"\r"))
    elif fault == "leading zero":
        fields[i] = b"0" * rng.choice((1, 1, 2, 4, 5)) + fields[i]
    elif fault == "empty field":
        fields[i] = b""
    elif fault == "sign":
        fields[i] = rng.choice((b"+", b"-")) + fields[i]
    elif fault == "space":
        fields[i] = rng.choice((b" " + fields[i], fields[i] + b" ", b"\t" + fields[i]))
    elif fault == "too large":
        fields[i] = b"%d" % (int(fields[i]) + rng.choice(WRAPPING))
    elif fault == "letter in a number":
        fields[i] = rng.choice((fields[i] + b"a", b"0x" + fields[i], b"x", fields[i] + b".0", fields[i] + b"_1"))
    elif fault == "odd byte":
        odd = rng.choice((b"\0", b"\x80", b"\xff", b"\xc2\xb2", b"\xd9\xa1", b"\x0b", b"\x1b"))
        fields[i] = rng.choice((odd, fields[i] + odd, odd + fields[i]))
    elif fault == "other mark":
        fields[i - 1 : i + 1] = [fields[i - 1] + rng.choice((b";", b".", b" ", b":", b"\0")) + fields[i]]
    elif fault == "field missing":
        fields = fields[:3] if letter == b"f" else fields[:i] + fields[i + 1 :]
    elif fault == "over 120 bytes":
        length = rng.choice((121, 121, 122, 127, 128, 129, 200, 255, 256, 257, 1000, 4095, 4096, 4097))
        if rng.random() < 0.01:
            length = 70000
        line = b",".join(fields)
        return fault, line + rng.choice((b"0", b",0", b" ", b"x"))[:1] * (length - len(line)), letter
    elif fault == "field added":
        fields.insert(rng.randint(1, len(fields)), b"%d" % rng.randint(0, 8))
    elif fault == "comma behind":
        fields.append(b"")
    elif fault == "carriage return":
        fields[-1] += b"\r"
    elif fault == "unknown method":
        fields[1] = rng.choice((b"x", b"P", b"E", b"", b"pe", b"0", b"p ", b"\0"))
    elif fault == "wrong count":
        fields[rng.choice((3, 4) if letter == b"g" else (3,))] = b"%d" % rng.choice((0, 1, 9, 15, 16, 17, 65535))
    elif fault == "characters missing":
        fields = fields[: rng.randint(1, len(fields) - 1)]
    return fault, b",".join(fields), letter


# Boards of a group.


def listed_board(rng, group):
    boards = [i for i in range(len(group.boards)) if group.listed(i)]
    return rng.choice(boards) if boards else rng.randrange(len(group.boards))


def steady_board(rng, group):
    boards = [i for i in range(len(group.boards)) if not group.listed(i)]
    return rng.choice(boards)


def any_board(rng, group):
    """Mostly a board of the crew, sometimes one outside."""
    if group is None:
        return rng.choice(EDGES)
    crew = len(group.boards)
    if rng.random() < 0.15:
        return rng.choice((crew, crew, crew + 1, 15, 16, 255, 256, 256 + crew - 1, 65535))
    return rng.randrange(crew)

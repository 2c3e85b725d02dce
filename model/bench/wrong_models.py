"""Wrong models: the model with one change each, to see whether sessions tell them from the model.

Each has a name, a piece of the model that occurs once, and what stands there instead.
"""

WRONG = (
    ("lines of 121 bytes are read", "LONGEST_LINE = 120", "LONGEST_LINE = 121"),
    ("lines of 120 bytes are not read", "LONGEST_LINE = 120", "LONGEST_LINE = 119"),
    ("numbers up to 99999", "LARGEST_NUMBER = 65535", "LARGEST_NUMBER = 99999"),
    ("numbers up to 65534", "LARGEST_NUMBER = 65535", "LARGEST_NUMBER = 65534"),
    ("crews of 15 boards", "MOST_BOARDS = 16", "MOST_BOARDS = 15"),
    ("crews of 17 boards", "MOST_BOARDS = 16", "MOST_BOARDS = 17"),
    ("7 characters", "MOST_CHARACTERS = 8", "MOST_CHARACTERS = 7"),
    ("9 characters", "MOST_CHARACTERS = 8", "MOST_CHARACTERS = 9"),
    ("9 listed sets", "MOST_SETS = 8", "MOST_SETS = 9"),
    ("7 listed sets", "MOST_SETS = 8", "MOST_SETS = 7"),
    ("echo with cover 2", '"e": 3}', '"e": 2}'),
    ("plain with cover 3", '{"p": 2,', '{"p": 3,'),
    ("kind 2 in the plain method at depth 1", '("p", 1): 1,', '("p", 1): 2,'),
    ("kind 4 in the echo method at depth 1", '("e", 1): 3,', '("e", 1): 4,'),
    ("no kind 5", '("e", 2): 5}', '("e", 2): 4}'),
    ("group 0 in a frame", '((1, 65535, b","), (1, 65535', '((0, 65535, b","), (1, 65535'),
    ("change 0 in a frame", '((1, 65535, b","), (1, 65535', '((1, 65535, b","), (0, 65535'),
    ("sender 14 the largest", "(0, 15, ", "(0, 14, "),
    ("sender 16 in a frame", "(0, 15, ", "(0, 16, "),
    ("kind 0 in a frame", "(1, 5, ", "(0, 5, "),
    ("kind 6 in a frame", "(1, 5, ", "(1, 6, "),
    ("value 9 in a frame", "(0, 8, b", "(0, 9, b"),
    ("value 0 not in a frame", "(0, 8, b", "(1, 8, b"),
    ("leading zeros in a line", 'rb"0|[1-9][0-9]{0,4}"', 'rb"[0-9]{1,5}"'),
    ("0 no number", 'rb"0|[1-9][0-9]{0,4}"', 'rb"[1-9][0-9]{0,4}"'),
    ("strong is ample", "return not self.has(boards)", "return self.ample(boards)"),
    ("ample is strong", "return self.has(self.everyone & ~boards)", "return self.strong(boards)"),
    ("count rule without the crew", "boards <= self.everyone and boards.bit_count()", "boards.bit_count()"),
    ("count rule of f - 1", "boards.bit_count() <= self.f", "boards.bit_count() < max(self.f, 1)"),
    ("cover may just hold", "return cover * self.f < self.crew", "return cover * self.f <= self.crew"),
    ("cover wraps", "return cover * self.f < self.crew", "return cover * self.f % 65536 < self.crew"),
    ("listed sets without parts", "if boards | listed == listed:", "if boards == listed:"),
    (
        "empty set only if listed",
        "        if boards == 0:\n"
        "            return True\n",
        "",
    ),
    (
        "cover without repeats",
        "in combinations_with_replacement(self.sets, cover)",
        "in combinations(self.sets, cover)",
    ),
    ("cover by first sets only", "(self.sets, cover):", "(self.sets[:4], cover):"),
    (
        "plain counts a word again",
        "        if sender in self.words[kind]:\n"
        '            self.note("counted already")\n'
        "            return\n"
        "        self.words[kind][sender] = value\n"
        "        before",
        "        self.words[kind][sender] = value\n"
        "        before",
    ),
    ("branch is the lowest", "self.branch = values.pop() if len(values) == 1 else 0", "self.branch = min(values)"),
    ("branch fixed again", "if self.branch is None and self.ample(1):", "if self.decision is None and self.ample(1):"),
    ("no decision in the step of the branch", "elif self.ample(2):", "elif self.ample(2) and before is not None:"),
    (
        "kind 2 not counted while gathering",
        "        self.words[kind][sender] = value\n"
        "        before",
        "        if kind == 2 and self.branch is None:\n"
        "            return\n"
        "        self.words[kind][sender] = value\n"
        "        before",
    ),
    ("branch 0 decides (0,0)", "if characters:", "if False:"),
    ("branch 0 decides the highest", "self.decide(min(characters), 1,", "self.decide(max(characters), 2,"),
    ("branch v always (v,2)", "elif values == {self.branch}:", "elif self.branch in values:"),
    ("branch v always (v,1)", "elif values == {self.branch}:", "elif False:"),
    ("echo counted once for each sender", "if self.echoes[value] & board:", "if self.senders[1] & board:"),
    (
        "last echo is the opening",
        "            if not self.senders[1] & board:\n"
        "                self.openings[value] |= board\n",
        "            self.openings = [boards & ~board for boards in self.openings]\n"
        "            self.openings[value] |= board\n",
    ),
    (
        "each echo is an opening",
        "            if not self.senders[1] & board:\n"
        "                self.openings[value] |= board\n",
        "            self.openings[value] |= board\n",
    ),
    ("kinds counted for each value", "if self.senders[kind] & board:", "if self.words[kind][value] & board:"),
    (
        "counted words make tests",
        "            if self.echoes[value] & board:\n"
        '                self.note("counted already")\n'
        "                return\n",
        "            if self.echoes[value] & board:\n"
        "                self.posted.append((1, 0)) if (1, 0) not in self.posted and self.mixed() else None\n"
        "                return\n",
    ),
    ("mixed without 0", "return 0 in self.approved or len(self.approved) >= 2", "return len(self.approved) >= 2"),
    ("mixed with 0 only", "return 0 in self.approved or len(self.approved) >= 2", "return 0 in self.approved"),
    ("mixed with one value", "return 0 in self.approved or len(self.approved) >= 2", "return len(self.approved) >= 1"),
    ("no test 1", "        self.test_1()\n", ""),
    (
        "test 1 not for 0",
        "    def test_1(self):\n"
        "        for value in self.values:",
        "    def test_1(self):\n"
        "        for value in self.values[1:]:",
    ),
    (
        "test 1 not for the highest",
        "    def test_1(self):\n"
        "        for value in self.values:",
        "    def test_1(self):\n"
        "        for value in self.values[:-1]:",
    ),
    (
        "test 1 asks ample senders",
        "if self.rule.strong(self.echoes[value]):",
        "if self.rule.ample(self.echoes[value]):",
    ),
    ("no test 2", "        self.test_2()\n", ""),
    (
        "test 2 not for the highest",
        "    def test_2(self):\n"
        "        for value in self.values:",
        "    def test_2(self):\n"
        "        for value in self.values[:-1]:",
    ),
    (
        "test 2 from 1 on",
        "    def test_2(self):\n"
        "        for value in self.values:",
        "    def test_2(self):\n"
        "        for value in self.values[1:]:",
    ),
    ("test 2 asks ample senders", "if not self.rule.strong(others):", "if not self.rule.ample(others):"),
    (
        "test 2 asks all echoes",
        "others = self.senders[1] & ~self.openings[value]",
        "others = sum({s for v, s in enumerate(self.echoes) if v != value})",
    ),
    (
        "approval on strong senders",
        "if value not in self.approved and self.rule.ample(self.echoes[value]):",
        "if value not in self.approved and self.rule.strong(self.echoes[value]):",
    ),
    (
        "0 never approved",
        "    def test_3(self):\n"
        "        for value in self.values:",
        "    def test_3(self):\n"
        "        for value in self.values[1:]:",
    ),
    ("last approved value posted", "first = self.approved[0]", "first = self.approved[-1]"),
    (
        "kind 2 for each approved value",
        "            self.post_once(2, first, ",
        "            first = self.approved[-1]\n"
        "            (2, first) in self.posted or self.post(2, first, ",
    ),
    ("test 4 without 0", '            self.post_once(3, 0, "test 4 posts 0, two approved")', "            pass"),
    (
        "test 4 posts 0 first",
        "        value = self.ample_value(2)\n"
        "        if value is not None:",
        "        value = self.ample_value(2) if len(self.approved) < 2 else None\n"
        "        if value is not None:",
    ),
    ("test 4 posts 0 when mixed", "elif len(self.approved) >= 2:", "elif self.mixed():"),
    (
        "test 5 without mixed",
        "if self.mixed() and self.all_ample(3):",
        "if self.mixed() and self.all_ample(3) and self.ample_value(3) is None:",
    ),
    ("test 5 with 0 unmixed", "if self.mixed() and self.all_ample(3):", "if self.all_ample(3):"),
    (
        "test 5 never 0 when not mixed",
        "            value = self.ample_value(3)\n"
        "            if value is not None:",
        "            value = self.ample_value(3)\n"
        "            if value:",
    ),
    ("test 5 asks kind 2", "            value = self.ample_value(3)", "            value = self.ample_value(2)"),
    (
        "outcome at depth 1 posted",
        "        if self.depth == 2:\n"
        "            self.post_once(4, value, why)\n"
        "        elif",
        "        self.post_once(4, value, why)\n"
        "        if",
    ),
    ("test 6 without 0", "elif self.mixed() and self.all_ample(4):", "elif False:"),
    ("test 6 with 0 unmixed", "elif self.mixed() and self.all_ample(4):", "elif self.all_ample(4):"),
    (
        "test 6 posts 0 first",
        "        value = self.ample_value(4)\n",
        "        value = None if self.mixed() else self.ample_value(4)\n",
    ),
    ("test 7 decides (v,1)", 'self.decide(value, 2, "test 7 decides (v,2)")', 'self.decide(value, 1, "")'),
    (
        "test 7 asks mixed first",
        "        value = self.ample_value(5)\n"
        "        if value is not None and value != 0:",
        "        value = self.ample_value(5)\n"
        "        if value is not None and value != 0 and not self.mixed():",
    ),
    ("test 7 (w,1) without mixed", "if self.mixed() and self.all_ample(5):", "if self.all_ample(5):"),
    ("test 7 never (w,1)", "            if backed is not None:", "            if False:"),
    (
        "test 7 without kind 4",
        "if self.words[5][value] != 0 and self.rule.strong(self.words[4][value]):",
        "if self.words[5][value] != 0:",
    ),
    (
        "test 7 without kind 5",
        "if self.words[5][value] != 0 and self.rule.strong(self.words[4][value]):",
        "if self.rule.strong(self.words[4][value]):",
    ),
    ("test 7 with any kind 4 sender", "self.rule.strong(self.words[4][value]):", "self.words[4][value] != 0:"),
    ("test 7 with ample kind 4", "self.rule.strong(self.words[4][value]):", "self.rule.ample(self.words[4][value]):"),
    (
        "test 7 (0,0) when mixed only",
        "        if value == 0:\n"
        '            self.decide(0, 0, "test 7',
        "        if value == 0 and self.mixed():\n"
        '            self.decide(0, 0, "test 7',
    ),
    (
        "test 7 (0,0) when not mixed only",
        "        if value == 0:\n"
        '            self.decide(0, 0, "test 7',
        "        if value == 0 and not self.mixed():\n"
        '            self.decide(0, 0, "test 7',
    ),
    (
        "test 7 (0,0) when mixed and ample",
        "        if value == 0:\n"
        '            self.decide(0, 0, "test 7',
        "        if value == 0 or self.mixed() and self.all_ample(5):\n"
        '            self.decide(0, 0, "test 7',
    ),
    (
        "test 6 behind test 7",
        "            self.test_6()\n"
        "            self.test_7()\n",
        "            self.test_7()\n"
        "            if self.decision is None:\n"
        "                self.test_6()\n",
    ),
    (
        "no tests after the decision",
        "        self.test_1()\n",
        "        if self.decision is not None:\n"
        "            return\n"
        "        self.test_1()\n",
    ),
    (
        "a decision is changed",
        "        if self.decision is None:\n"
        "            self.decision = (value, grade)",
        "        if True:\n"
        "            self.decision = (value, grade)",
    ),
    (
        "11 behind 14",
        "            raise Refused(11, place)",
        '            raise Refused(11 if frame[place:] != b"\\n" else 14, place)',
    ),
    (
        "12 behind 13",
        '        if digits[:1] == b"0" and len(digits) > 1:',
        '        if digits[:1] == b"0" and 1 < len(digits) <= 5:',
    ),
    (
        "zeros are no leading zeros",
        '        if digits[:1] == b"0" and len(digits) > 1:',
        '        if digits[:1] == b"0" and digits.strip(b"0"):',
    ),
    (
        "frame numbers wrap at 2**16",
        "len(digits) > 5 or not least <= int(digits) <= largest",
        "not least <= int(digits) % 2**16 <= largest",
    ),
    (
        "frame numbers wrap at 2**32",
        "len(digits) > 5 or not least <= int(digits) <= largest",
        "not least <= int(digits) % 2**32 <= largest",
    ),
    (
        "frame numbers wrap at 2**64",
        "len(digits) > 5 or not least <= int(digits) <= largest",
        "not least <= int(digits) % 2**64 <= largest",
    ),
    (
        "frame numbers wrap at 2**8",
        "len(digits) > 5 or not least <= int(digits) <= largest",
        "len(digits) > 5 or not least <= (int(digits) % 256 if largest < 256 else int(digits)) <= largest",
    ),
    (
        "carriage return in front of the line feed",
        "        if frame[after : after + 1] != mark:",
        '        if frame[after : after + 1] != mark and frame[after:] != b"\\r\\n":',
    ),
    ("group not asked", "if group != GROUP_NUMBER or change != CHANGE_NUMBER:", "if change != CHANGE_NUMBER:"),
    ("change not asked", "if group != GROUP_NUMBER or change != CHANGE_NUMBER:", "if group != GROUP_NUMBER:"),
    (
        "17 behind 18",
        "        if sender != port:\n"
        "            raise Refused(17)\n"
        "        if kind > KINDS[self.method, self.depth]:\n"
        "            raise Refused(18)\n",
        "        if kind > KINDS[self.method, self.depth]:\n"
        "            raise Refused(18)\n"
        "        if sender != port:\n"
        "            raise Refused(17)\n",
    ),
    (
        "16 behind 17",
        "        if group != GROUP_NUMBER or change != CHANGE_NUMBER:\n"
        "            raise Refused(16)\n"
        "        if sender != port:\n"
        "            raise Refused(17)\n",
        "        if sender != port:\n"
        "            raise Refused(17)\n"
        "        if group != GROUP_NUMBER or change != CHANGE_NUMBER:\n"
        "            raise Refused(16)\n",
    ),
    (
        "sender not asked",
        "        if sender != port:\n"
        "            raise Refused(17)\n",
        "",
    ),
    ("value not asked", "if value > self.characters or", "if value > 8 or"),
    (
        "22 not asked of from",
        "        self.ask_crew(to, sender)\n"
        "        self.ask_unlisted(to, sender)",
        "        self.ask_crew(to)\n"
        "        if sender >= len(self.boards):\n"
        "            raise Refused(25)\n"
        "        self.ask_unlisted(to, sender)",
    ),
    (
        "22 not asked of a forge's from",
        "        self.ask_crew(to, port)\n",
        "        self.ask_crew(to)\n"
        "        if port >= len(self.boards):\n"
        "            raise Refused(26)\n",
    ),
    ("23 in the plain method", 'if self.method == "e" and any(self.listed', "if any(self.listed"),
    ("23 not asked of from", "        self.ask_unlisted(to, sender)\n", "        self.ask_unlisted(to)\n"),
    ("23 not asked of to", "        self.ask_unlisted(to, sender)\n", "        self.ask_unlisted(sender)\n"),
    ("23 not asked of a forge", "        self.ask_unlisted(to)\n", ""),
    ("24 not asked", "            raise Refused(24)\n", "            pass\n"),
    (
        "25 not asked of from",
        "        self.ask_started(to, sender)\n",
        "        self.ask_started(to)\n"
        "        if self.boards[sender] is None:\n"
        "            raise Refused(27)\n",
    ),
    (
        "26 behind the frame",
        '        if self.method == "p" or not self.listed(port):\n'
        "            raise Refused(26)\n"
        '        return self.take(to, port, rest + b"\\n")',
        '        if self.method == "p" or not self.listed(port):\n'
        '            read_frame(rest + b"\\n")\n'
        "            raise Refused(26)\n"
        '        return self.take(to, port, rest + b"\\n")',
    ),
    (
        "26 before 25",
        "        self.ask_unlisted(to)\n"
        "        self.ask_started(to)\n",
        "        self.ask_unlisted(to)\n"
        '        if self.method == "p" or not self.listed(port):\n'
        "            raise Refused(26)\n"
        "        self.ask_started(to)\n",
    ),
    ("unlisted boards are forged", 'if self.method == "p" or not self.listed(port):', 'if self.method == "p":'),
    ("plain boards are forged", 'if self.method == "p" or not self.listed(port):', "if not self.listed(port):"),
    (
        "27 asks the kind only",
        "if (kind, value) not in self.boards[sender].posted:",
        "if kind not in [k for k, _ in self.boards[sender].posted]:",
    ),
    (
        "27 wraps",
        "if (kind, value) not in self.boards[sender].posted:",
        "kind, value = kind % 256, value % 256\n"
        "        if (kind, value) not in self.boards[sender].posted:",
    ),
    (
        "2 before 1",
        "    if not 1 <= crew <= MOST_BOARDS:\n"
        "        raise Refused(1)\n"
        "    if not 1 <= characters <= MOST_CHARACTERS:\n"
        "        raise Refused(2)\n",
        "    if not 1 <= characters <= MOST_CHARACTERS:\n"
        "        raise Refused(2)\n"
        "    if not 1 <= crew <= MOST_BOARDS:\n"
        "        raise Refused(1)\n",
    ),
    (
        "3 before 2",
        "    if not 1 <= characters <= MOST_CHARACTERS:\n"
        "        raise Refused(2)\n"
        "    if depth not in (1, 2):\n"
        "        raise Refused(3)\n",
        "    if depth not in (1, 2):\n"
        "        raise Refused(3)\n"
        "    if not 1 <= characters <= MOST_CHARACTERS:\n"
        "        raise Refused(2)\n",
    ),
    (
        "5 before 3",
        "    if depth not in (1, 2):\n",
        "    if sets is None and COVER[method] * f >= crew:\n"
        "        raise Refused(5)\n"
        "    if depth not in (1, 2):\n",
    ),
    (
        "4 asks the number of sets only",
        "(len(sets) > MOST_SETS or any(listed >= 2**crew for listed in sets))",
        "len(sets) > MOST_SETS",
    ),
    (
        "9 asks unlisted boards only",
        "for start in starts):\n"
        "        raise Refused(9)",
        "for i, start in enumerate(starts) if not bad >> i & 1):\n"
        "        raise Refused(9)",
    ),
    (
        "9 asks not 0",
        "if not all(1 <= start <= characters for start in starts):",
        "if not all(start <= characters for start in starts):",
    ),
    (
        "28 before 9",
        "    if not all(1 <= start <= characters for start in starts):\n"
        "        raise Refused(9)\n"
        "    if not rule.has(bad):\n"
        "        raise Refused(28)\n",
        "    if not rule.has(bad):\n"
        "        raise Refused(28)\n"
        "    if not all(1 <= start <= characters for start in starts):\n"
        "        raise Refused(9)\n",
    ),
    (
        "28 not asked",
        "    if not rule.has(bad):\n"
        "        raise Refused(28)\n",
        "",
    ),
    (
        "9 before 5",
        "    if not rule.has_cover(COVER[method]):\n"
        "        raise Refused(5)\n"
        "    if not all(1 <= start <= characters for start in starts):\n"
        "        raise Refused(9)\n",
        "    if not all(1 <= start <= characters for start in starts):\n"
        "        raise Refused(9)\n"
        "    if not rule.has_cover(COVER[method]):\n"
        "        raise Refused(5)\n",
    ),
    (
        "a forge needs bytes",
        '        rest = b",".join(fields[2:])\n',
        '        rest = b",".join(fields[2:])\n'
        '        if rest == b"":\n'
        "            raise Unreadable\n",
    ),
    (
        "a forge without its last comma",
        "        if len(fields) < 3:\n"
        "            raise Unreadable\n",
        "        if len(fields) < 2:\n"
        "            raise Unreadable\n",
    ),
    (
        "a refused opening closes the group",
        "            self.group = open_group(*given, self.note)",
        "            self.group = None\n"
        "            self.group = open_group(*given, self.note)",
    ),
    (
        "21 not before 29",
        "            letter, given = read_line(line)\n"
        "        except Unreadable:\n"
        '            return b"?,29,0,-,-"\n',
        "            letter, given = read_line(line)\n"
        "        except Unreadable:\n"
        '            return b"?,29,0,-,-" if self.group else b"s,21,0,-,-"\n',
    ),
    (
        "the sender's decision is told",
        "return posted, self.group.boards[given[0]].decision",
        'return posted, self.group.boards[given[1 if letter == "c" else 0]].decision',
    ),
    (
        "an empty line is no line",
        '    lines = session.split(b"\\n")\n',
        '    lines = [line for line in session.split(b"\\n") if line] + [b""]\n',
    ),
    (
        "a last line without line feed is no line",
        '    if lines[-1] == b"":\n'
        "        lines.pop()\n",
        "    lines.pop()\n",
    ),
)  # fmt: skip

# Changes that no session can show, and why.
SILENT = {
    "kind 2 in the plain method at depth 1": "nobody posts it and nobody forges in the plain method",
    "plain counts a word again": "a plain board posts one word of a kind, so the second is the first",
    "last approved value posted": "one counted word approves one value at most",
    "test 4 posts 0 first": "one counted word is an echo or of kind 2, so one of the two came earlier",
}

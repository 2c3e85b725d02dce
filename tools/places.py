#!/usr/bin/env python3
"""Lists the places in crates/*/src that are written in an older form, by kind of place, and counts them.

    python3 tools/places.py [FOLDER] [--list]

FOLDER is a checkout (this one, where none is given). With --list each place is printed with its file and line. A place is a line, a function or a type that
one of the patterns below finds; whether it is to be changed is for a reader to say. Tests are left out.
"""
import collections
import pathlib
import re
import sys

WORDS = set("""as async await break const continue crate dyn else enum extern false fn for ghost if impl in let loop match mod move mut pub ref return self Self
static struct super trait true type unsafe use where while u8 u16 u32 u64 usize bool Option Result Some None Ok Err requires ensures result""".split())


def sources(root):
    for path in sorted(root.glob("crates/*/src/*.rt")):
        text = path.read_text()
        cut = text.find("#[cfg(test)]")
        if cut >= 0:
            text = text[:cut]
        yield path.relative_to(root / "crates"), text


def line_of(text, at):
    return text.count("\n", 0, at) + 1


def block(text, at):
    """The text from the brace at or after `at` to the one that closes it."""
    start = text.index("{", at)
    depth = 0
    for i in range(start, len(text)):
        depth += (text[i] == "{") - (text[i] == "}")
        if depth == 0:
            return text[start:i + 1], i + 1
    return text[start:], len(text)


def functions(text):
    """Each function with a body: name, place, head (up to the clauses), clauses, body."""
    for m in re.finditer(r"(?m)^( *)(?:pub(?:\(crate\))? )?(?:const )?fn (\w+)", text):
        indent = m.group(1)
        own = text[m.start():text.index("\n", m.start())]
        if own.endswith("{") or own.endswith("{}"):
            opening = text.rindex("{", m.start(), m.start() + len(own))
        else:
            end = re.compile(r"(?m)^" + indent + r"(\{\}?|\).*\{)$").search(text, m.end())
            stop = re.compile(r"(?m);$").search(text, m.end())
            if not end or (stop and stop.start() < end.start()):
                continue
            opening = text.rindex("{", m.start(), end.end())
        if text[opening:opening + 2] == "{}":
            body = "{}"
        else:
            body, _ = block(text, opening)
        front = text[m.start():opening]
        cut = re.search(r"(?m)^\s+(requires|ensures)\b", front)
        head = front[:cut.start()] if cut else front
        clauses = front[cut.start():] if cut else ""
        yield m.group(2), m.start(), head, clauses, body


def shape(body):
    """The body with names by their order and literals as one sign: twins have one shape."""
    names = {}
    out = []
    for token in re.findall(r"[A-Za-z_]\w*|b?'(?:\\.|[^'])'|\"[^\"]*\"|\d\w*|[^\s\w]", re.sub(r"//.*", "", body)):
        if re.match(r"[A-Za-z_]", token) and not token.startswith("b'"):
            out.append(token if token in WORDS else names.setdefault(token, f"n{len(names)}"))
        elif re.match(r"\d|b?'|\"", token):
            out.append("#")
        else:
            out.append(token)
    return " ".join(out)


def one_match(body):
    """Whether the body is a single match, with an answer in each arm that calls nothing."""
    inner = re.sub(r"//.*", "", body).strip()[1:-1].strip()
    m = re.fullmatch(r"(?s)match [^{]+\{(.*)\}", inner)
    return bool(m) and "(self" not in m.group(1) and not re.search(r"[a-z_]\w*\(", re.sub(r"Some\(|Ok\(|Err\(", "", m.group(1)))


def main():
    args = [a for a in sys.argv[1:] if not a.startswith("--")]
    root = pathlib.Path(args[0] if args else pathlib.Path(__file__).resolve().parent.parent)
    found = collections.OrderedDict()

    def add(kind, file, line, what):
        found.setdefault(kind, []).append((f"{file}:{line}", what))

    kinds = ["1a own enums with a case for nothing or for a refusal", "1b flags beside a value", "1c numbers for refusals",
             "1d numbers for kinds, methods and depths", "1e a fault found, and handed on as an Err by hand", "1f numbers that stand for no number",
             "2a functions of one shape", "2b types and constants of one name or shape", "3a loops over an index, or with `while`", "3b indices told by enumerate",
             "4a conversions by a match of one's own", "4b equality, order, copying or digits by hand", "5a facts in the contracts of three or more functions",
             "5b parameters that travel together through four or more functions", "6a arrays with a length beside", "6b buffers with a place beside",
             "7a letters and kinds that choose a function"]
    for k in kinds:
        found[k] = []

    shapes = collections.defaultdict(list)
    names = collections.defaultdict(list)
    for file, text in sources(root):
        crate = file.parts[0]
        for m in re.finditer(r"(?m)^(?:pub(?:\(crate\))? )?enum (\w+)", text):
            body, _ = block(text, m.start())
            if re.search(r"\b(Unreadable|Unread|Refused\w*|Good)\b", body) and "Fault" not in m.group(1):
                add(kinds[0], file, line_of(text, m.start()), m.group(1))
        for m in re.finditer(r"(?m)^(?:pub(?:\(crate\))? )?struct (\w+)[^;{]*\{", text):
            body, _ = block(text, m.start())
            fields = [f for f in re.findall(r"(?m)^    (?:pub(?:\(crate\))? )?(\w+): (.+),$", body)]
            for name, kind in fields:
                if kind == "bool":
                    add(kinds[1], file, line_of(text, m.start()), f"{m.group(1)}.{name}")
                if name in ("kind", "method", "depth") and re.fullmatch(r"u\d+", kind):
                    add(kinds[3], file, line_of(text, m.start()), f"{m.group(1)}.{name}: {kind}")
            if any(kind.startswith("[") for _, kind in fields) and any(kind == "usize" for _, kind in fields):
                add(kinds[14], file, line_of(text, m.start()), m.group(1))
            names["struct " + " ".join(k for _, k in fields) if len(fields) > 1 else m.group(0)].append((file, line_of(text, m.start()), "struct " + m.group(1)))
        for m in re.finditer(r"(?m)^(?:pub(?:\(crate\))? )?const (\w+):", text):
            names["const " + m.group(1)].append((file, line_of(text, m.start()), "const " + m.group(1)))
        for m in re.finditer(r"if let Some\(fault\)|Some\(fault\) => Err\(fault\)", text):
            add(kinds[4], file, line_of(text, m.start()), m.group(0))
        for m in re.finditer(r"\bBEYOND\b: |unwrap_or\(0\)", text):
            add(kinds[5], file, line_of(text, m.start()), m.group(0))
        for m in re.finditer(r"(?m)^ +while .*|^ +for \w+ in [^{]*\.\.[^{]*\{", text):
            if "u64::MAX" not in m.group(0):
                add(kinds[8], file, line_of(text, m.start()), m.group(0).strip())
        for m in re.finditer(r"\.enumerate\(\)", text):
            add(kinds[9], file, line_of(text, m.start()), "enumerate")
        for name, at, head, clauses, body in functions(text):
            line = line_of(text, at)
            flat = " ".join(head.split())
            if re.search(r"-> Result<.*, u8>$", flat) or re.search(r"fault: \w+.*-> u8$", flat):
                add(kinds[2], file, line, name)
            for p in re.findall(r"\b(kind|kinds|grade): (u\d+)", flat):
                add(kinds[3], file, line, f"{name}({p[0]}: {p[1]})")
            if name == "refusal" or one_match(body) and name not in ("fmt", "from", "try_from") and body.count("=>") > 1:
                add(kinds[10], file, line, name)
            if re.search(r"if (\w+) < (\w+) \{ \1 \} else \{ \2 \}|=> \w+ == \w+,|\[i\] = \*|b'0' \+|let mut (\w+) = self\.\3;|as u8\b.*\n\s+\} else|Some\(Decision \{ value, grade \}\)", body):
                add(kinds[11], file, line, name)
            if re.search(r"buf: &mut \[u8\], at: usize|&mut \[u8; SLIP_MAX\]", flat):
                add(kinds[15], file, line, name)
            if name != "try_from" and len(re.findall(r"(?:'\w'|\d) => \w+\(", body)) > 1:
                add(kinds[16], file, line, name)
            s = shape(body)
            if len(s.split()) >= 14:
                shapes[s].append((file, line, name))
    for group in shapes.values():
        if len(group) > 1:
            for file, line, name in group:
                add(kinds[6], file, line, f"{name} (one of {len(group)})")
    for key, group in names.items():
        if len(group) > 1:
            for file, line, what in group:
                add(kinds[7], file, line, f"{what} (one of {len(group)})")
    facts = collections.defaultdict(set)
    together = collections.defaultdict(set)
    for file, text in sources(root):
        crate = file.parts[0]
        for name, at, head, clauses, body in functions(text):
            for clause in re.findall(r"requires (?:\w+ )?\{ (.*) \}", clauses):
                for part in re.split(r" × ", clause.replace("(", "").replace(")", "")):
                    facts[(crate, part.strip())].add((file, name))
            params = re.findall(r"(\w+): ([^,()]+?)(?=,|\)|$)", " ".join(head.split()).split("->")[0])
            for i in range(len(params)):
                for j in range(i + 1, len(params)):
                    together[(crate, params[i], params[j])].add((file, name))
    for (crate, fact), where in sorted(facts.items()):
        if len(where) >= 3:
            add(kinds[12], crate, len(where), fact)
    for (crate, one, two), where in sorted(together.items()):
        if len(where) >= 4:
            add(kinds[13], crate, len(where), f"{one[0]}: {one[1]} and {two[0]}: {two[1]}")
    for kind, places in found.items():
        print(f"{len(places):4} {kind}")
        if "--list" in sys.argv:
            for where, what in places:
                print(f"        {where} {what}")
    print(f"{sum(len(p) for p in found.values()):4} in all")


main()

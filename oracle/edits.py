"""Small edits of Rattle code for oracle/mutants: where each kind of edit fits in a file, found in the code alone, never in comments or contracts."""
import re

KINDS = ("comparison", "operator", "constant", "offset", "operand", "side", "test", "refusal")

COMPARISONS = {"<": "<=", "<=": "<", "==": "!=", "!=": "=="}
OPERATORS = {"+": "-", "-": "+", "*": "+", "/": "%", "%": "/", "|": "&", ">>": "<<", "<<": ">>"}
# Words that stand for one of two: as whole words or as a word's part between underscores.
SIDES = [("self", "other"), ("first", "later"), ("hi", "lo"), ("old", "new"), ("locked", "preunlocking"), ("delegator", "publisher"),
         ("matched", "seated"), ("seated", "dropped"), ("true", "false"), ("quotient", "remainder"), ("from", "to"),
         ("self_del_state", "del_state"), ("total_delegation", "delta_delegation"), ("LOCKED", "UNLOCKED"), ("PREUNLOCKING", "UNLOCKING")]
REFUSAL = r"\bRefusal::[A-Z]\w*"
WORDS = re.compile(r"\b[A-Za-z_][A-Za-z0-9_]*\b")
KEYWORDS = set("if else while for in let mut return match fn pub use mod struct enum impl const as self Self true false usize u64 u8 bool crate ref loop break "
               "continue extern unsafe where".split())


def blanked(text):
    """The text with comments, contracts, `use` lines, strings, attributes and declarations of types blanked, every place kept."""
    out = list(text)

    def blank(start, end):
        for i in range(start, end):
            if out[i] != "\n":
                out[i] = " "

    for found in re.finditer(r"//[^\n]*|^\s*(?:pub )?(?:ghost )?use [^;]*;|#\[[^\]]*\]|b?\"(?:[^\"\\]|\\.)*\"|b'(?:[^'\\]|\\.)'", text, re.M):
        blank(*found.span())
    for found in re.finditer(r"\b(requires|ensures|ghost|invariant|decreases)(?: \w+)? \{|^\s*(?:pub )?(?:struct|enum) \w+ \{", "".join(out), re.M):
        depth, end = 1, found.end()
        while depth:
            depth += {"{": 1, "}": -1}.get(text[end], 0)
            end += 1
        blank(found.start(), end)
    for found in re.finditer(r"(?:->|:|\bas) *&?(?:mut )?\[?[A-Za-z_0-9:; ]+\]?", "".join(out)):
        if not re.match(r":: *|: [a-z_]+ *[,}]", found.group()):        # a struct literal's field stays
            blank(*found.span())
    return "".join(out)


def functions(code):
    """Start and end of each function's body, with its parameters' start."""
    for found in re.finditer(r"\bfn \w+", code):
        at = code.find("{", found.end())
        depth, end = 1, at + 1
        while depth:
            depth += {"{": 1, "}": -1}.get(code[end], 0)
            end += 1
        yield found.start(), at, end


def tokens(code, start, end, kinds):
    for found in re.compile(kinds).finditer(code, start, end):
        yield found.start(), found.end(), found.group()


def by_table(code, start, end, pattern, table):
    for a, b, text in tokens(code, start, end, pattern):
        yield a, b, table[text]


def numbers(code, start, end, after_sign):
    """Each number by one more and one less; those behind a plus or minus are offsets, the others constants."""
    for a, b, text in tokens(code, start, end, r"(?<![\w.])(?:0x[0-9a-fA-F_]+|[0-9][0-9_]*)(?=(?:u64|usize|u8)?\b)"):
        sign = re.search(r"[+-] $", code[:a]) is not None
        if sign != after_sign or re.search(r"\[[^\]\n]*; $", code[:a]):
            continue
        value = int(text.replace("_", ""), 0)
        for other in {value + 1, abs(value - 1)} - {value}:
            yield a, b, str(other)


def operands(code, start, end, head):
    """A name by another name of the same function."""
    names = {w for _, _, w in tokens(code, head, end, WORDS.pattern) if w not in KEYWORDS and w.islower()}
    called = {m.group(1) for m in re.finditer(r"(?:fn |\.)(\w+)|\b\w+(?=\s*(?:\(|::))", code[head:end])} | {m.group(2) for m in re.finditer(r"()\b(\w+)(?=\s*(?:\(|::))", code[start:end])}
    plain = sorted(names - called)
    for a, b, text in tokens(code, start, end, r"(?<![.\w:])[a-z_][a-z0-9_]*\b(?! *[(:!])"):
        if text in plain and not re.search(r"(?:let|mut|for|fn) $|[({,] *$(?<!\()", code[:a]):
            for other in plain:
                if other != text:
                    yield a, b, other


def sides(code, start, end):
    for a, b, text in tokens(code, start, end, WORDS.pattern):
        for one, two in SIDES:
            for x, y in ((one, two), (two, one)):
                if text == x and not (x == "self" and code[b:b + 1] == "."):
                    yield a, b, y
                elif "_" in text and re.search(rf"(^|_){x}(_|$)", text):
                    yield a, b, re.sub(rf"(^|_){x}(_|$)", rf"\g<1>{y}\2", text)


def tests(code, start, end):
    """A test that never holds, and one that always does."""
    for found in re.compile(r"\bif (?!let)([^{}]+?) \{").finditer(code, start, end):
        for value in ("false", "true"):
            yield found.start(1), found.end(1), value


def refusals(code, start, end):
    names = sorted({w for _, _, w in tokens(code, 0, len(code), REFUSAL)})
    for a, b, text in tokens(code, start, end, REFUSAL):
        for other in names:
            if other != text:
                yield a, b, other


def of_file(text):
    """Every edit that fits: kind, start, end, what comes there instead."""
    code = blanked(text)
    for head, start, end in functions(code):
        found = {
            "comparison": by_table(code, start, end, r"(?<= )(?:<=|<|==|!=)(?= )", COMPARISONS),
            "operator": by_table(code, start, end, r"(?<= )(?:\+|-|\*|/|%|\||>>|<<)(?==? )", OPERATORS),
            "constant": numbers(code, start, end, False),
            "offset": numbers(code, start, end, True),
            "operand": operands(code, start, end, head),
            "side": sides(code, start, end),
            "test": tests(code, start, end),
            "refusal": refusals(code, start, end),
        }
        for kind in KINDS:
            for a, b, new in found[kind]:
                yield kind, a, b, new

"""A reader of TOML 1.1 documents, written apart from the one that the program uses.

It knows the limits that the program's reader has: documents in UTF-8, tables and arrays at most 80 levels deep, at most 80 parts in
a key, integers of 64 bits. `read(data)` gives a dict, or raises `NotToml`. Integers are `int`, floats `float`, texts `str`,
dates and times a `When`; of a float, a date or a time a plan asks no more than that it is none of the others. Where TOML leaves a choice
or the program's reader has a limit, this one follows what that reader says of itself: a dotted key may add to a table that headers only passed
through, a newline in a text of several lines stays as it is written, and a number too large for a float is none.
"""


class NotToml(Exception):
    """The bytes are no document."""


class When(str):
    """A date, a time or both, as written."""


LEVELS = 80
BARE = frozenset("ABCDEFGHIJKLMNOPQRSTUVWXYZabcdefghijklmnopqrstuvwxyz0123456789-_")
DIGITS = frozenset("0123456789")
ESCAPES = {"b": "\b", "t": "\t", "n": "\n", "f": "\f", "r": "\r", '"': '"', "\\": "\\", "e": "\x1b"}


class Table(dict):
    """A table, and how it came to be."""

    def __init__(self):
        super().__init__()
        self.closed = False  # written in braces: nothing is added
        self.by_header = False  # its own header stood
        self.by_dots = False  # made by the parts of a dotted key


class Tables(list):
    """An array of tables, made by headers in double brackets."""


def read(data):
    try:
        text = data.decode("utf-8")
    except UnicodeDecodeError:
        raise NotToml("no UTF-8") from None
    return Reader(text[1:] if text.startswith("\ufeff") else text).document()


class Reader:
    def __init__(self, text):
        self.text = text
        self.at = 0

    # -- letters

    def peek(self, ahead=0):
        i = self.at + ahead
        return self.text[i] if i < len(self.text) else ""

    def take(self, word):
        if self.text.startswith(word, self.at):
            self.at += len(word)
            return True
        return False

    def want(self, word):
        if not self.take(word):
            raise NotToml(f"no {word!r} at {self.at}")

    def blanks(self):
        while self.peek() in (" ", "\t") and self.peek():
            self.at += 1

    def comment(self):
        if self.peek() != "#":
            return
        while self.peek() and self.peek() != "\n" and not self.text.startswith("\r\n", self.at):
            if not is_printable(self.peek()):
                raise NotToml("a control byte in a comment")
            self.at += 1

    def newline(self):
        return self.take("\n") or self.take("\r\n")

    def end_of_line(self):
        self.blanks()
        self.comment()
        if self.peek() and not self.newline():
            raise NotToml(f"no end of line at {self.at}")

    def gaps(self):
        """Blanks, newlines and comments."""
        while True:
            self.blanks()
            self.comment()
            if not self.newline():
                return

    # -- the document

    def document(self):
        root = here = Table()
        while self.peek():
            self.blanks()
            if self.peek() == "[":
                here = self.header(root)
            elif self.peek() not in ("", "#", "\n", "\r"):
                self.pair(here, 0)
            self.end_of_line()
        return root

    def header(self, root):
        self.want("[")
        many = self.take("[")
        self.blanks()
        parts = self.key()
        self.blanks()
        self.want("]]" if many else "]")
        table = root
        for part in parts[:-1]:
            table = within(table, part)
        last = parts[-1]
        if many:
            if last not in table:
                table[last] = Tables()
            if not isinstance(table[last], Tables):
                raise NotToml("no array of tables")
            made = Table()
            made.by_header = True
            table[last].append(made)
            return made
        if last not in table:
            table[last] = Table()
        made = table[last]
        if not isinstance(made, Table) or made.closed or made.by_header or made.by_dots:
            raise NotToml("a table again")
        made.by_header = True
        return made

    def pair(self, table, depth):
        parts = self.key()
        self.blanks()
        self.want("=")
        self.blanks()
        value = self.value(depth)
        for part in parts[:-1]:
            if part not in table:
                table[part] = Table()
            table = table[part]
            if not isinstance(table, Table) or table.by_header or table.closed:
                raise NotToml("no table to add to")
            table.by_dots = True
        if parts[-1] in table:
            raise NotToml("a key again")
        table[parts[-1]] = value

    def key(self):
        parts = [self.part()]
        while True:
            before = self.at
            self.blanks()
            if not self.take("."):
                self.at = before
                break
            self.blanks()
            parts.append(self.part())
        if len(parts) > LEVELS:
            raise NotToml("too many parts")
        return parts

    def part(self):
        if self.peek() == '"':
            return self.basic()
        if self.peek() == "'":
            return self.literal()
        start = self.at
        while self.peek() in BARE:
            self.at += 1
        if self.at == start:
            raise NotToml(f"no key at {self.at}")
        return self.text[start : self.at]

    # -- values

    def value(self, depth):
        first = self.peek()
        if first == '"':
            return self.many_basic() if self.text.startswith('"""', self.at) else self.basic()
        if first == "'":
            return self.many_literal() if self.text.startswith("'''", self.at) else self.literal()
        if first == "[":
            return self.array(depth + 1)
        if first == "{":
            return self.braces(depth + 1)
        return self.word()

    def array(self, depth):
        if depth > LEVELS:
            raise NotToml("too deep")
        self.want("[")
        values = []
        self.gaps()
        while not self.take("]"):
            values.append(self.value(depth))
            self.gaps()
            if not self.take(","):
                self.want("]")
                break
            self.gaps()
        return values

    def braces(self, depth):
        if depth > LEVELS:
            raise NotToml("too deep")
        self.want("{")
        table = Table()
        self.gaps()
        while not self.take("}"):
            self.pair(table, depth)
            self.gaps()
            if not self.take(","):
                self.want("}")
                break
            self.gaps()
        close(table)
        return table

    # -- texts

    def basic(self):
        self.want('"')
        letters = []
        while not self.take('"'):
            letters.append(self.escape() if self.peek() == "\\" else self.letter())
        return "".join(letters)

    def literal(self):
        self.want("'")
        letters = []
        while not self.take("'"):
            letters.append(self.letter())
        return "".join(letters)

    def letter(self):
        letter = self.peek()
        if not letter or not is_printable(letter):
            raise NotToml(f"no letter at {self.at}")
        self.at += 1
        return letter

    def many_basic(self):
        self.want('"""')
        self.newline()
        letters = []
        while True:
            if self.text.startswith('"""', self.at):
                return "".join(letters) + self.last_quotes('"')
            if self.peek() == "\\":
                if not self.ends_its_line():
                    letters.append(self.escape())
            else:
                letters.append(self.broken() or self.letter())

    def many_literal(self):
        self.want("'''")
        self.newline()
        letters = []
        while True:
            if self.text.startswith("'''", self.at):
                return "".join(letters) + self.last_quotes("'")
            letters.append(self.broken() or self.letter())

    def broken(self):
        """A newline in a text of several lines, as it stands there."""
        start = self.at
        self.newline()
        return self.text[start : self.at]

    def last_quotes(self, quote):
        """Up to two quotes stand before the three that end a text."""
        count = 0
        while self.peek() == quote and count < 5:
            self.at += 1
            count += 1
        return quote * (count - 3)

    def ends_its_line(self):
        """A backslash before the end of its line joins it with what follows."""
        i = self.at + 1
        while self.text[i : i + 1] in (" ", "\t") and self.text[i : i + 1]:
            i += 1
        if not (self.text.startswith("\n", i) or self.text.startswith("\r\n", i)):
            return False
        self.at = i
        while True:
            self.blanks()
            if not self.newline():
                return True

    def escape(self):
        self.want("\\")
        mark = self.peek()
        self.at += 1
        if mark in ESCAPES:
            return ESCAPES[mark]
        length = {"x": 2, "u": 4, "U": 8}.get(mark)
        digits = self.text[self.at : self.at + (length or 0)]
        if not length or len(digits) < length or any(d not in "0123456789abcdefABCDEF" for d in digits):
            raise NotToml("no escape")
        self.at += length
        code = int(digits, 16)
        if code > 0x10FFFF or 0xD800 <= code <= 0xDFFF:
            raise NotToml("no scalar value")
        return chr(code)

    # -- numbers, dates, true and false

    def word(self):
        start = self.at
        while self.peek() and (self.peek() in BARE or self.peek() in "+.:"):
            self.at += 1
        word = self.text[start : self.at]
        if is_date(word) and self.peek() == " " and self.peek(1) in DIGITS and self.peek(1):
            self.at += 1
            after = self.at
            while self.peek() and (self.peek() in DIGITS or self.peek() in "+-.:Zz"):
                self.at += 1
            word += "T" + self.text[after : self.at]
        if word in ("true", "false"):
            return word == "true"
        for reading in (integer, floating, moment):
            value = reading(word)
            if value is not None:
                return value
        raise NotToml(f"no value {word[:20]!r} at {start}")


def within(table, part):
    """The table that a part of a header leads to."""
    if part not in table:
        table[part] = Table()
    inner = table[part]
    if isinstance(inner, Tables):
        return inner[-1]
    if not isinstance(inner, Table) or inner.closed:
        raise NotToml("no table to lead through")
    return inner


def close(table):
    table.closed = True
    for inner in table.values():
        if isinstance(inner, Table):
            close(inner)


def is_printable(letter):
    return letter == "\t" or (letter >= " " and letter != "\x7f")


def are_digits(word, digits=DIGITS):
    """Digits, with single underscores between two of them."""
    return bool(word) and all(piece and all(d in digits for d in piece) for piece in word.split("_"))


def integer(word):
    for mark, digits, base in (("0x", "0123456789abcdefABCDEF", 16), ("0o", "01234567", 8), ("0b", "01", 2)):
        if word.startswith(mark):
            if not are_digits(word[2:], digits):
                raise NotToml("no number")
            return in_64_bits(int(word[2:].replace("_", ""), base))
    bare = word[1:] if word[:1] in ("+", "-") else word
    if not are_digits(bare) or (bare[0] == "0" and len(bare) > 1):
        return None
    return in_64_bits(int(word.replace("_", "")))


def in_64_bits(number):
    if not -(2**63) <= number < 2**63:
        raise NotToml("an integer beyond 64 bits")
    return number


def floating(word):
    bare = word[1:] if word[:1] in ("+", "-") else word
    if bare in ("inf", "nan"):
        return float(word)
    head, mark, power = bare.replace("E", "e").partition("e")
    whole, dot, part = head.partition(".")
    if not (dot or mark) or not are_digits(whole) or (whole[0] == "0" and len(whole) > 1):
        return None
    if dot and not are_digits(part):
        return None
    if mark and not are_digits(power[1:] if power[:1] in ("+", "-") else power):
        return None
    number = float(word.replace("_", ""))
    if number in (float("inf"), float("-inf")):
        raise NotToml("a number beyond a float")
    return number


def is_date(word):
    return (
        len(word) == 10
        and word[4] == word[7] == "-"
        and all(d in DIGITS for d in word[:4] + word[5:7] + word[8:])
        and 1 <= int(word[5:7]) <= 12
        and 1 <= int(word[8:]) <= days_of(int(word[:4]), int(word[5:7]))
    )


def days_of(year, month):
    leap = year % 4 == 0 and (year % 100 != 0 or year % 400 == 0)
    return (31, 29 if leap else 28, 31, 30, 31, 30, 31, 31, 30, 31, 30, 31)[month - 1]


def is_time(word):
    """Hours and minutes, with or without seconds and parts of one."""
    if len(word) < 5 or word[2] != ":" or any(d not in DIGITS for d in word[:2] + word[3:5]):
        return False
    if int(word[:2]) > 23 or int(word[3:5]) > 59:
        return False
    rest = word[5:]
    if not rest:
        return True
    if rest[0] != ":" or len(rest) < 3 or any(d not in DIGITS for d in rest[1:3]) or int(rest[1:3]) > 60:
        return False
    part = rest[3:]
    return not part or (part[0] == "." and len(part) > 1 and all(d in DIGITS for d in part[1:]))


def moment(word):
    if is_date(word) or is_time(word):
        return When(word)
    if len(word) < 11 or not is_date(word[:10]) or word[10] not in "Tt":
        return None
    time = word[11:]
    if time[-1:] in ("Z", "z"):
        time = time[:-1]
    elif len(time) > 6 and time[-6] in "+-":
        offset = time[-5:]
        if offset[2] != ":" or any(d not in DIGITS for d in offset[:2] + offset[3:]) or int(offset[:2]) > 23 or int(offset[3:]) > 59:
            return None
        time = time[:-6]
    return When(word) if is_time(time) else None

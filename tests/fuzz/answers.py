"""Computes the expected output of ijson-compact for any input. It is written from RFC 8259 and the project's stated
rules, not from the library's code.

`answer(data)` returns the expected standard output, standard error and status if memory suffices and no device fails.
The project's own rules:

- The input must be UTF-8; this is tested first, and reported without a position. A byte order mark is rejected.
- A surrogate escape is accepted only in a pair: a high surrogate immediately followed by a low surrogate.
- At most 127 containers are open at a time. A bracket that would open another is rejected at its own byte.
- A number other than zero is rejected if the exponent of its digits without trailing zeros is not from -2**30 to 2**30.
  It is rejected at its first byte, after its last byte is read, whatever follows.
- An error in an escape is reported at its backslash. This includes an escape that is cut off by the end of the text,
  and a high surrogate without a complete low surrogate.
- Any other error is reported at the first byte that no JSON text can have there, or at the length if the text ends too
  early.
- The leftmost error is reported.
- A duplicate key replaces the value and keeps the position of the first.
- Numbers are exact decimals with one written form each. A number with a point or an exponent is written with a point or
  an exponent.
"""

import sys

WHITE_SPACE = " \t\n\r"
DIGITS = "0123456789"
HEXADECIMAL = "0123456789abcdefABCDEF"
SIMPLE_ESCAPES = {'"': '"', "\\": "\\", "/": "/", "b": "\b", "f": "\f", "n": "\n", "r": "\r", "t": "\t"}
WRITTEN_ESCAPES = {'"': '\\"', "\\": "\\\\", "\b": "\\b", "\f": "\\f", "\n": "\\n", "\r": "\\r", "\t": "\\t"}
MOST_OPEN = 127
EXPONENT_LIMIT = 2**30

sys.set_int_max_str_digits(0)  # a written exponent may have any number of digits


class Refused(Exception):
    """An error at a character of the text, by which the text is rejected."""

    def __init__(self, fault, at):
        super().__init__(fault, at)
        self.fault, self.at = fault, at


def answer(data):
    """Returns the expected standard output, standard error and status."""
    try:
        text = data.decode("utf-8")
    except UnicodeDecodeError:
        return b"", b"ijson: input is not UTF-8\n", 1
    try:
        return Reader(text).whole_text().encode() + b"\n", b"", 0
    except Refused as refused:
        position = len(text[: refused.at].encode())
        return b"", f"ijson: {refused.fault} at byte {position}\n".encode(), 1


class Reader:
    """Reads a text from the left, and returns the compact text of each part at the end of the part."""

    def __init__(self, text):
        self.text = text
        self.at = 0
        self.open = 0

    def peek(self):
        """Returns the next character, or the empty string at the end."""
        return self.text[self.at : self.at + 1]

    def refuse(self):
        raise Refused("syntax", self.at)

    def take(self, wanted):
        """Skips the next character, which must be in `wanted`, and returns it."""
        found = self.peek()
        if not found or found not in wanted:
            self.refuse()
        self.at += 1
        return found

    def white_space(self):
        while self.peek() and self.peek() in WHITE_SPACE:
            self.at += 1

    def whole_text(self):
        self.white_space()
        compact = self.value()
        self.white_space()
        if self.peek():
            self.refuse()
        return compact

    def value(self):
        first = self.peek()
        if first == "[":
            return self.array()
        if first == "{":
            return self.object()
        if first == '"':
            return quoted(self.string())
        if first and first in "-" + DIGITS:
            return self.number()
        for word in ("null", "true", "false"):
            if first == word[0]:
                for letter in word:
                    self.take(letter)
                return word
        self.refuse()

    def enter(self):
        """Skips an opening bracket and the white space after it."""
        if self.open == MOST_OPEN:
            raise Refused("nesting too deep", self.at)
        self.open += 1
        self.at += 1
        self.white_space()

    def leave(self):
        self.open -= 1
        self.at += 1

    def array(self):
        self.enter()
        items = []
        if self.peek() != "]":
            items.append(self.element())
            while self.peek() != "]":
                self.take(",")
                self.white_space()
                items.append(self.element())
        self.leave()
        return "[" + ",".join(items) + "]"

    def element(self):
        compact = self.value()
        self.white_space()
        return compact

    def object(self):
        self.enter()
        members = {}
        if self.peek() != "}":
            self.member(members)
            while self.peek() != "}":
                self.take(",")
                self.white_space()
                self.member(members)
        self.leave()
        return "{" + ",".join(quoted(key) + ":" + value for key, value in members.items()) + "}"

    def member(self, members):
        key = self.string()
        self.white_space()
        self.take(":")
        self.white_space()
        members[key] = self.element()

    def string(self):
        """Returns the characters that a string denotes."""
        self.take('"')
        characters = []
        while self.peek() != '"':
            if self.peek() == "\\":
                characters.append(self.escape())
            elif not self.peek() or self.peek() < " ":
                self.refuse()
            else:
                characters.append(self.take(self.peek()))
        self.take('"')
        return "".join(characters)

    def escape(self):
        """Returns the character of an escape, or of a pair of surrogate escapes. An error is reported at the first backslash."""
        escape = self.text[self.at : self.at + 2]
        if escape[1:] in SIMPLE_ESCAPES:
            self.at += 2
            return SIMPLE_ESCAPES[escape[1:]]
        unit = self.unit(self.at)
        if unit is None or 0xDC00 <= unit <= 0xDFFF:
            self.refuse()
        if not 0xD800 <= unit <= 0xDBFF:
            self.at += 6
            return chr(unit)
        low = self.unit(self.at + 6)
        if low is None or not 0xDC00 <= low <= 0xDFFF:
            self.refuse()
        self.at += 12
        return chr(0x10000 + (unit - 0xD800) * 0x400 + (low - 0xDC00))

    def unit(self, at):
        """Returns the number of the complete escape of four hexadecimal digits that begins at `at`, or None if there is no such escape."""
        escape = self.text[at : at + 6]
        if len(escape) < 6 or not escape.startswith("\\u") or any(digit not in HEXADECIMAL for digit in escape[2:]):
            return None
        return int(escape[2:], 16)

    def number(self):
        start = self.at
        negative = self.peek() == "-"
        if negative:
            self.at += 1
        whole = self.take(DIGITS)
        if whole != "0":
            whole += self.digits()
        fraction = exponent = ""
        if self.peek() == ".":
            self.at += 1
            fraction = self.take(DIGITS) + self.digits()
        if self.peek() and self.peek() in "eE":
            self.at += 1
            sign = self.take("+-") if self.peek() and self.peek() in "+-" else ""
            exponent = sign + self.take(DIGITS) + self.digits()
        compact = decimal(negative, whole + fraction, int(exponent or "0") - len(fraction), bool(fraction or exponent))
        if compact is None:
            raise Refused("number out of range", start)
        return compact

    def digits(self):
        start = self.at
        while self.peek() and self.peek() in DIGITS:
            self.at += 1
        return self.text[start : self.at]


def decimal(negative, digits, exponent, has_point):
    """Returns the text of the digits times ten to the power of the exponent, or None if the exponent is past the limit."""
    digits = digits.lstrip("0")
    if not digits:
        return "0.0" if has_point else "0"
    stripped = digits.rstrip("0")
    exponent += len(digits) - len(stripped)
    if not -EXPONENT_LIMIT <= exponent <= EXPONENT_LIMIT:
        return None
    return ("-" if negative else "") + (with_point(stripped, exponent) if has_point else stripped + "0" * exponent)


def with_point(digits, exponent):
    """Returns the text, with a point or an exponent, of digits that neither begin nor end with a zero."""
    count = len(digits)
    point = count + exponent
    if point <= -6 or exponent > 20:
        return digits[0] + ("." + digits[1:] if count > 1 else "") + f"e{point - 1}"
    if point <= 0:
        return "0." + "0" * -point + digits
    if point >= count:
        return digits + "0" * exponent + ".0"
    return digits[:point] + "." + digits[point:]


def quoted(characters):
    """Returns the string as it is written in the output."""
    return '"' + "".join(written(character) for character in characters) + '"'


def written(character):
    if character in WRITTEN_ESCAPES:
        return WRITTEN_ESCAPES[character]
    return f"\\u{ord(character):04x}" if character < " " else character

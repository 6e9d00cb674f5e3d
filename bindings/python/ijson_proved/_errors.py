"""The errors, each with its position in the text at fault."""


class Error(Exception):
    """Reports that a call has no result.

    `argument` is the name of the parameter at fault, and `text` its index, from 0. `offset` is the byte offset of the
    fault, from 0. `line` and `column` are its position in an editor, from 1; a column counts characters. If a pointer
    is at fault, they are the start of the pointer.
    """

    what = "no result"

    def __init__(self, argument: str, text: int, offset: int, line: int, column: int) -> None:
        # These are the arguments of the exception, so that it can be copied and sent to another process.
        super().__init__(argument, text, offset, line, column)
        self.argument, self.text, self.offset, self.line, self.column = argument, text, offset, line, column

    def __str__(self) -> str:
        return f"{self.what} at line {self.line}, column {self.column} of {self.argument!r}"


class NotUtf8Error(Error, ValueError):
    """The bytes are not UTF-8. The offset is the offset of the first wrong byte."""

    what = "not UTF-8"


class NotJsonError(Error, ValueError):
    """The text is not JSON. The offset is the offset of the first byte that no JSON text can have there."""

    what = "not JSON"


class TooDeepError(Error, ValueError):
    """The nesting is deeper than 127. The offset is the offset of the opening bracket."""

    what = "nesting too deep"


class NumberRangeError(Error, ValueError):
    """The exponent of a number is outside -2^30 to 2^30. The offset is the offset of the number."""

    what = "number out of range"


class NotPointerError(Error, ValueError):
    """The pointer is not a JSON Pointer."""

    what = "not a JSON Pointer"

    def __str__(self) -> str:
        return self.what


class NoValueError(Error, LookupError):
    """The pointer refers to no value."""

    what = "no value at the pointer"

    def __str__(self) -> str:
        return self.what

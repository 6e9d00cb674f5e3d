"""JSON with exact decimals, by functions that are proved: JSON text in, text or a number out.

>>> import ijson_proved
>>> ijson_proved.equal('{"a": 1.0, "b": [100]}', '{"b": [1e2], "a": 1.00}')
True
>>> ijson_proved.compact(' {"price": 0.10, "price": 0.30} ')
'{"price":0.3}'
>>> ijson_proved.canonical('{"b": 2.0, "a": [10, 0.0]}')
'{"a":[1e1,0],"b":2e0}'
>>> ijson_proved.get('{"servers": [{"port": 80}]}', '/servers/0/port')
'80'
>>> ijson_proved.merge_patch('{"a": 1, "b": 2}', '{"a": null, "c": 3}')
'{"b":2,"c":3}'
>>> ijson_proved.hash('[1, 2]') == ijson_proved.hash('[1.0, 2e0]')
True
>>> ijson_proved.compact('[1,\\n 02]')
Traceback (most recent call last):
    ...
ijson_proved.NotJsonError: not JSON at line 2, column 3 of 'text'

A text is `str`, `bytes`, `bytearray` or `memoryview`; anything else is a `TypeError`. `python3 -m ijson_proved --help` has the same functions
for files.
"""

from ijson_proved._calls import Text, canonical, compact, equal, get, merge_patch
from ijson_proved._calls import hash as hash
from ijson_proved._errors import Error, NotJsonError, NotPointerError, NotUtf8Error, NoValueError, NumberRangeError, TooDeepError

__version__ = "0.2.0"

# `hash` is left out, so that `from ijson_proved import *` does not hide Python's function of this name.
__all__ = ["Error", "NoValueError", "NotJsonError", "NotPointerError", "NotUtf8Error", "NumberRangeError", "Text", "TooDeepError", "canonical",
           "compact", "equal", "get", "merge_patch"]

for _error in Error, NotJsonError, NotPointerError, NotUtf8Error, NoValueError, NumberRangeError, TooDeepError:
    _error.__module__ = __name__

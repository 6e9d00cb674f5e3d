"""The functions for files: `python3 -m ijson_proved COMMAND [FILE..]`."""

import sys

from ijson_proved._command import main

if __name__ == "__main__":
    sys.exit(main())

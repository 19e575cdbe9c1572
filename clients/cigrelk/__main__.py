"""`python3 -m cigrelk` is the command `cigrelk`."""
import sys

from .command import main

if __name__ == "__main__":
    sys.exit(main())

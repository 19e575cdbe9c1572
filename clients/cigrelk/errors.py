"""The one exception that ends a command of `cigrelk` with a sentence."""


class CommandError(Exception):
    """What a command cannot do, as one sentence for the person who gave it. `cigrelk` prints it and ends with status 1; the shell
    prints it and reads the next line."""

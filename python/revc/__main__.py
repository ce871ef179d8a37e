"""The command `python3 -m revc`: the program for a shell, on files.

A PROGRAM is a text of Revs, or a file of Python with one oracle (`file.py:NAME` where it has several). A CIRCUIT is a
`.real` or OpenQASM file. `-` is standard input.
"""
import sys
from typing import List, Optional

from . import __version__, program
from .commands import parser
from .errors import RevcError
from .files import place_of


def main(words: Optional[List[str]] = None) -> int:
    """Does what the words say; the answer is the status."""
    top = parser(__doc__ or "")
    options, extra = top.parse_known_args(words)
    if extra:
        one = top.commands[options.command]
        named = sorted(each for action in one._actions for each in action.option_strings if each.startswith("--"))
        one.error(f"it takes no `{extra[0]}`: {', '.join(named)}")
    try:
        if options.version:
            print(f"revc {__version__}, for the program {program.version()}")
        elif options.command:
            options.does(options)
        else:
            top.print_help()
            return 2
    except RevcError as error:
        place = place_of(error)
        sys.stderr.write(f"{error}{'' if place in str(error) else place}\n")
        return getattr(error, "status", 2)
    except BrokenPipeError:
        return 1
    except OSError as error:
        sys.stderr.write(f"{error.filename}: {error.strerror}\n")
        return 2
    return 0


if __name__ == "__main__":
    sys.exit(main())

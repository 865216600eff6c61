"""The command line: python3 -m yelmuzard WORD .."""
import os
import sys

from .board.told import FAILED, say
from .board.words import main


def run() -> int:
    try:
        status = main(sys.argv[1:])
        sys.stdout.flush()
    except BrokenPipeError:
        status = FAILED
    except OSError as error:
        say(f"yelmuzard: {error.strerror}{': ' + str(error.filename) if error.filename else ''}")
        status = FAILED
    sys.stderr.flush()
    os._exit(status)  # what could not be written is not tried again


if __name__ == "__main__":
    run()

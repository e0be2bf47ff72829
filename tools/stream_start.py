"""Starts bin/pack or bin/unpack, named by the first argument, and ends it at Ctrl-C, also while the rest is still being loaded."""
import sys

STDERR = 2
INTERRUPTED = 130

try:
    import os

    sys.dont_write_bytecode = True
    sys.path.insert(0, os.path.dirname(os.path.realpath(__file__)))

    from stream_command import COMMANDS

    status = COMMANDS[sys.argv[1]].run(sys.argv[2:])
except KeyboardInterrupt:
    import os

    try:
        os.write(STDERR, f"{sys.argv[1]}: interrupted.\n".encode())
    finally:
        os._exit(INTERRUPTED)

sys.exit(status)

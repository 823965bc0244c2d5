"""The model as a program with suri_run's streams and statuses."""
import pathlib
import sys

sys.path.insert(0, str(pathlib.Path(__file__).resolve().parent.parent))

from model import Refused, output  # noqa: E402
from model.capture import MAX_BYTES  # noqa: E402
from model.words import options  # noqa: E402


def main():
    try:
        chosen = options(sys.argv[1:])
        data = sys.stdin.buffer.read(MAX_BYTES + 1) if chosen.generate is None else b""
        sys.stdout.write(output(data, chosen))
    except Refused as refused:
        sys.stderr.write(f"suri_run: {refused.note}\n")
        return refused.status
    return 0


sys.exit(main())

"""Counts in the number `x` of an image that is a file: maps and locks the file, opens the image, which checks it once, prepares a
client, which verifies it once, and runs it three times. Then it saves the image in the file.

    counter.py IMAGE CLIENT
"""
import sys
from pathlib import Path

import lezgauri


def count(image_path: str, client_path: str) -> None:
    client = Path(client_path).read_bytes()
    with lezgauri.open_file(image_path, lock=True) as file:
        print(lezgauri.verify(file, client), "steps at most")
        with lezgauri.Segment(file) as segment, segment.prepare(client) as increment:
            for _ in range(3):
                result = increment(segment, capacity=64)
                if result.ended != lezgauri.Ended.DONE:
                    raise SystemExit("run: more than 64 bytes")
                print(f"{result.steps} steps: {bytes(result.output).decode()}", end="")
            segment.save_into(file)
        file.flush()


def main() -> int:
    if len(sys.argv) != 3:
        print("usage: counter.py IMAGE CLIENT", file=sys.stderr)
        return 2
    try:
        count(sys.argv[1], sys.argv[2])
    except (OSError, ValueError, lezgauri.Error) as problem:
        print(problem, file=sys.stderr)
        return 1
    return 0


if __name__ == "__main__":
    sys.exit(main())

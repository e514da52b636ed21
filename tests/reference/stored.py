"""What the makers store: the input and output of programs, and other files.

stored.py NAME    prints the folder of the crate that has the stored input and output of a program
"""

import pathlib
import sys

ROOT = pathlib.Path(__file__).resolve().parents[2]

# the folder of each program's crate
CRATES = {
    "listing": "program_listing",
    "messages": "program_messages",
    "refusals": "program_refusals",
    "gaps": "program_gaps",
    "board": "program_board",
    "table": "program_table",
    "worked": "test_worked",
    "numbers": "test_numbers",
}


def folder(program):
    return ROOT / "crates" / CRATES[program]


def keep(files):
    """Writes files, given as bytes by path; with --check compares instead, and ends with status 1 on a difference."""
    differs = False
    for path, data in files.items():
        if "--check" not in sys.argv[1:]:
            path.parent.mkdir(parents=True, exist_ok=True)
            path.write_bytes(data)
        elif not path.is_file() or path.read_bytes() != data:
            print(f"{path} differs from what is made")
            differs = True
    if differs:
        sys.exit(1)


def keep_program(program, given, printed):
    """The same of what a program is given and has to print."""
    keep({folder(program) / "stdin": given, folder(program) / "stdout": printed})


if __name__ == "__main__":
    print(folder(sys.argv[1]).relative_to(ROOT))

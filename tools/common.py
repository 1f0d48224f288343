"""What several of the scripts beside this file need."""
import argparse
import csv
import io
import os
import pathlib
import shutil
import subprocess
import sys

TOP = pathlib.Path(__file__).resolve().parent.parent
# The program that ./beet has built.
BUILT = TOP / "build" / "beet"
# The longest field of a text file that is read, in bytes: longer than any file may be.
LONGEST_FIELD = 2**31 - 1
# The longest that a run may take, in seconds.
LIMIT = 60
# What a file that can be run begins with: a program, or a script that names its interpreter.
BEGINS = (b"\x7fELF", b"#!")
# The farmers of the first example, each with the byte that its seed repeats.
FARMERS = [("anna", "0a"), ("bo", "0b"), ("carl", "0c")]


def words(about):
    """What a script takes on the command line: --help alone, until more is added."""
    return argparse.ArgumentParser(
        description=about, formatter_class=argparse.RawDescriptionHelpFormatter, allow_abbrev=False
    )


def count(word):
    """Reads a number of the command line: decimal digits, no sign."""
    if not (word.isascii() and word.isdecimal()):
        raise argparse.ArgumentTypeError(f"{word} is no number")
    return int(word)


def bytes_of(name):
    """Gives what a file holds, or ends with a line that says why not."""
    try:
        return pathlib.Path(name).read_bytes()
    except OSError as why:
        sys.exit(f"{name} cannot be read: {why.strerror}")


def rows_of(data):
    """Gives the rows of a text file, each with the line on which it begins. A blank line is no row."""
    csv.field_size_limit(LONGEST_FIELD)
    text = data.decode("utf-8-sig", errors="replace")
    reader = csv.reader(io.StringIO(text, newline=""))
    rows, line = [], 1
    for row in reader:
        if row:
            rows.append((line, row))
        line = reader.line_num + 1
    return rows


def print_whole(text):
    """Prints a text, or ends with a line that says why not."""
    try:
        sys.stdout.write(text)
        sys.stdout.flush()
    except BrokenPipeError:
        os.dup2(os.open(os.devnull, os.O_WRONLY), 1)
    except OSError as why:
        os.dup2(os.open(os.devnull, os.O_WRONLY), 1)
        sys.exit(f"standard output cannot be written: {why.strerror}")


def program_at(name):
    """Gives the whole path of a program, which must be there."""
    path = pathlib.Path(name).resolve()
    if not path.is_file() or not os.access(path, os.X_OK):
        sys.exit(f"the program {path} is not there or cannot be run; ./beet builds build/beet")
    if not bytes_of(path).startswith(BEGINS):
        sys.exit(f"the file {path} is no program")
    return path


def refusing_library(folder):
    """Makes the library that refuses calls of the program that it is loaded before."""
    library = folder / "refused.so"
    compiler = os.environ.get("CC", "cc")
    if not shutil.which(compiler):
        sys.exit(f"the C compiler {compiler} is not there")
    source = TOP / "tools" / "refused.c"
    subprocess.run([compiler, "-O2", "-shared", "-fPIC", "-o", library, source, "-ldl"], check=True)
    return library


def refusing(kind, at, library, mark):
    """The environment in which the library refuses a call of a kind, or all, and makes the mark."""
    return {"LD_PRELOAD": str(library), "REFUSED_KIND": kind, "REFUSED_AT": str(at), "REFUSED_MARK": str(mark)}


def seal_bids(program, auction, folder):
    """Seals the bids of the first example, and writes sealed.lst, the list of the envelopes."""
    rows = ["beet-list,1"]
    for farmer, byte in FARMERS:
        sealed = [program, "seal", auction, f"{farmer}.bid", f"seed:{byte * 32}", farmer]
        ended = subprocess.run(sealed, cwd=folder, stdin=subprocess.DEVNULL, stdout=subprocess.DEVNULL).returncode
        if ended:
            sys.exit(f"{program} does not seal the bid of {farmer}: it ended with {ended}")
        rows.append(f"{farmer},{farmer}.1,{farmer}.2,{farmer}.3")
    (folder / "sealed.lst").write_text("\n".join(rows) + "\n")

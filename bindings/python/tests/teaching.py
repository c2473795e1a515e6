"""The pages of which docs/TEACHING.md shows pictures, made by its commands."""
import contextlib
import hashlib
import io
import os
import struct
import zlib

PICTURES = {"sheet": (800, 1790), "marks": (1280, 800)}  # width and height in points of the screen


def pages(root, folder):
    """The HTML of Anna's sheet and of the table of marks."""
    from nobyaluk.cli import main

    (folder / "examples").symlink_to(root / "examples")
    was = os.getcwd()
    os.chdir(folder)
    try:
        with contextlib.redirect_stdout(io.StringIO()), contextlib.redirect_stderr(io.StringIO()):
            main("exercise --seed 1 --cells 4 --steps 6 --students examples/teaching/names.txt -o class --no-pdf".split())
            main("mark class examples/teaching/answers -o marks".split())
        return {"sheet": (folder / "class/sheets/anna.html").read_text(), "marks": (folder / "marks.html").read_text()}
    finally:
        os.chdir(was)


def sum_of(page):
    from nobyaluk import __version__

    return hashlib.sha256(page.replace(f"nobyaluk {__version__}", "nobyaluk").encode()).hexdigest()


def marked(png, page):
    """A picture that says of which page it is."""
    text = b"tEXtSource\0page " + sum_of(page).encode()
    return png[:33] + struct.pack(">I", len(text) - 4) + text + struct.pack(">I", zlib.crc32(text)) + png[33:]

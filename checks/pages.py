"""SQLite's checksums of pages: those of its log, and those that its extension cksumvfs puts at the end of each page, as the
files have them that `init` makes."""
import sqlite3
import struct

PAGE = 4096


def summed(first, second, data):
    words = struct.unpack(f"<{len(data) // 4}I", data)
    for one, other in zip(words[::2], words[1::2]):
        first = first + one + second & 0xFFFFFFFF
        second = second + other + first & 0xFFFFFFFF
    return first, second


def mended(data):
    """The bytes of a file, with the checksum at the end of each page made right."""
    pages = [data[at : at + PAGE - 8] for at in range(0, len(data), PAGE)]
    return b"".join(page + struct.pack("<II", *summed(0, 0, page)) for page in pages)


def mend(path):
    """Makes the checksums of a file right, as an SQLite with the extension leaves them."""
    with open(path, "rb") as file:
        data = file.read()
    with open(path, "wb") as file:
        file.write(mended(data))


def plain(book, to, version):
    """The rows of books in a new file without checksums, of this schema: what schema 1 lacks is left out."""
    made = sqlite3.connect(to)
    made.execute("ATTACH ? AS books", (book,))
    names = []
    for name, text in made.execute("SELECT tbl_name, sql FROM books.sqlite_schema WHERE sql IS NOT NULL ORDER BY rowid").fetchall():
        if version == 2 or name != "settled":
            made.execute(text)
            names.append(name)
    for name in dict.fromkeys(names):
        made.execute(f"INSERT INTO {name} SELECT * FROM books.{name} ORDER BY rowid")
    made.execute("UPDATE meta SET version = ?", (version,))
    made.commit()
    made.close()

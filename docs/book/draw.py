#!/usr/bin/env python3
"""Draws the book's pictures, the bytes of a table for FORMATS.md, and for PERFORMANCE.md the figures
of its first table. It writes each one anew.

Plain SVG, without a tool to see it. Colours: sand is what is chosen or current, red what goes, green
what comes or is safe, blue what is kept or read, grey all else.
"""

from pathlib import Path

DOCS = Path(__file__).resolve().parents[1]
FILLS = {
    "grey": ("#eee", "#888"),
    "sand": ("#fff4d6", "#c09020"),
    "red": ("#f6c9c0", "#b04a34"),
    "green": ("#cfe8c6", "#4a8a34"),
    "blue": ("#d6e2f2", "#3a6ea5"),
    "white": ("#fff", "#999"),
}


def escaped(text):
    return text.replace("&", "&amp;").replace("<", "&lt;").replace(">", "&gt;")


class Drawing:
    def __init__(self, title, width, height):
        self.title, self.width, self.height, self.parts = title, width, height, []

    def text(self, x, y, text, size=12, anchor="start", bold=False, fill=None, mono=False):
        more = ' font-weight="bold"' if bold else ""
        more += f' fill="{fill}"' if fill else ""
        more += ' font-family="DejaVu Sans Mono, monospace"' if mono else ""
        self.parts.append(f'<text x="{x}" y="{y}" font-size="{size}" text-anchor="{anchor}"{more}>{escaped(text)}</text>')

    def lines(self, x, y, texts, step=16, **how):
        for text in texts:
            self.text(x, y, text, **how)
            y += step

    def box(self, x, y, width, height, colour, text=None, size=12, rx=3, dashed=False, mono=False, bold=False):
        fill, stroke = FILLS[colour]
        more = ' stroke-dasharray="4 3"' if dashed else ""
        self.parts.append(
            f'<rect x="{x}" y="{y}" width="{width}" height="{height}" rx="{rx}" fill="{fill}" stroke="{stroke}"{more}/>')
        if text is not None:
            self.text(x + width / 2, y + height / 2 + size * 0.36, text, size, "middle", bold, mono=mono)

    def path(self, points, colour="#777", dashed=False, head=True):
        """An arrow along points; its head points as its last part goes."""
        way = "M" + " L".join(f"{x},{y}" for x, y in points)
        more = ' stroke-dasharray="4 3"' if dashed else ""
        self.parts.append(f'<path d="{way}" fill="none" stroke="{colour}" stroke-width="1.3"{more}/>')
        if head:
            (ax, ay), (bx, by) = points[-2], points[-1]
            length = max(((bx - ax) ** 2 + (by - ay) ** 2) ** 0.5, 1)
            ux, uy = (bx - ax) / length, (by - ay) / length
            corners = [(bx, by), (bx - 8 * ux - 4 * uy, by - 8 * uy + 4 * ux), (bx - 8 * ux + 4 * uy, by - 8 * uy - 4 * ux)]
            at = " ".join(f"{x:.1f},{y:.1f}" for x, y in corners)
            self.parts.append(f'<polygon points="{at}" fill="{colour}"/>')

    def line(self, x1, y1, x2, y2, colour="#bbb", dashed=False):
        self.path([(x1, y1), (x2, y2)], colour, dashed, head=False)

    def under(self, x1, x2, y, texts, step=14, size=11):
        """A brace below what lies from x1 to x2, and what it is."""
        self.path([(x1 + 2, y), (x1 + 2, y + 5), (x2 - 2, y + 5), (x2 - 2, y)], "#999", head=False)
        self.lines((x1 + x2) / 2, y + 18, texts, step, size=size, anchor="middle", fill="#444")

    def svg(self):
        head = (
            f'<svg xmlns="http://www.w3.org/2000/svg" viewBox="0 0 {self.width} {self.height}" width="{self.width}" '
            f'height="{self.height}" font-family="Helvetica, Arial, sans-serif" font-size="12" fill="#222">\n'
            f"<title>{escaped(self.title)}</title>\n"
            f'<rect width="{self.width}" height="{self.height}" fill="#fff"/>\n')
        return head + "\n".join(self.parts) + "\n</svg>\n"


def levels():
    d = Drawing("An LSM store: batches come in at level 0, compactions move entries down, reads look from the top", 960, 400)
    d.text(20, 28, "An LSM store, from the newest entries to the oldest", 16, bold=True)
    d.box(150, 56, 190, 44, "green", rx=8)
    d.text(245, 74, "a batch", 13, "middle", True)
    d.text(245, 91, "apple=red  cherry!", 12, "middle", mono=True)
    d.path([(245, 100), (245, 136)])
    d.text(256, 122, "becomes one table, the newest", 12, fill="#555")
    rows = [
        (140, "level 0", [(180, 130, "12: a to c", "green"), (325, 130, "11: b to x", "grey"), (470, 130, "9: a to m", "grey")]),
        (220, "level 1", [(150, 150, "7: a to g", "grey"), (310, 130, "8: h to n", "grey"), (450, 150, "10: p to z", "grey")]),
        (300, "level 2", [(150, 90, "3: a to c", "grey"), (250, 90, "4: d to h", "grey"), (350, 110, "5: i to o", "grey"), (470, 130, "6: q to z", "grey")]),
    ]
    for y, name, tables in rows:
        d.text(128, y + 20, name, 13, "end", True)
        for x, width, text, colour in tables:
            d.box(x, y, width, 32, colour, text)
    for x in (200, 300, 400, 500):
        d.path([(x, 174), (x, 216)], "#c09020", dashed=True)
        d.path([(x, 254), (x, 296)], "#c09020", dashed=True)
    d.text(380, 362, "levels 3 to 6 in the same way, each up to ten times as large as the one above", 12, "middle", fill="#555")
    d.path([(40, 140), (40, 334)], "#3a6ea5")
    d.text(28, 128, "a read", 12, fill="#3a6ea5", bold=True)
    d.lines(28, 352, ["stops at the", "first answer"], 15, fill="#3a6ea5")
    d.lines(640, 150, ["Tables of level 0 may have the same keys.", "A greater number is newer."], 17)
    d.lines(640, 198, ["A compaction merges tables of one level", "with those of the next that they meet.", "Old values and needless deletions go."], 17, fill="#8a6510")
    d.lines(640, 272, ["From level 1 on the tables of a level are", "in the order of their keys. So a read asks", "few of them."], 17)
    return d


def folder():
    d = Drawing("What is in a LevelDB folder, and which file names which", 960, 330)
    d.text(20, 28, "A LevelDB folder", 16, bold=True)
    d.box(20, 50, 640, 250, "white", rx=8)
    d.box(45, 80, 130, 52, "sand")
    d.text(110, 100, "CURRENT", 13, "middle", True, mono=True)
    d.text(110, 120, "one name", 12, "middle")
    d.path([(175, 106), (243, 106)])
    d.text(209, 98, "names", 11, "middle", fill="#555")
    d.box(248, 76, 180, 84, "sand")
    d.text(338, 96, "MANIFEST-000003", 13, "middle", True, mono=True)
    d.lines(338, 116, ["edits: which tables are", "at which level, and", "the last numbers"], 16, anchor="middle")
    d.path([(428, 106), (488, 106)])
    d.path([(428, 118), (458, 118), (458, 154), (488, 154)])
    d.text(458, 98, "lists", 11, "middle", fill="#555")
    for y, name in ((88, "000004.ldb"), (136, "000002.ldb")):
        d.box(493, y, 140, 36, "blue", name, 13, mono=True)
    d.box(45, 196, 130, 36, "grey", "LOCK", 13, mono=True)
    d.box(248, 196, 180, 36, "grey", "MANIFEST-000001", 13, dashed=True, mono=True)
    d.box(493, 196, 140, 36, "red", "000005.log", 13, mono=True)
    d.text(110, 252, "who works here", 12, "middle", fill="#555")
    d.text(338, 252, "no longer named:", 12, "middle", fill="#555")
    d.text(338, 268, "clean removes it", 12, "middle", fill="#555")
    d.text(563, 252, "LevelDB's newest writes:", 12, "middle", fill="#555")
    d.text(563, 268, "lsm does not read it", 12, "middle", fill="#555")
    d.lines(680, 96, ["To read it, lsm follows the arrows:"], 17, bold=True)
    d.lines(680, 120, ["CURRENT gives the manifest,", "its edits give the list of tables,", "each table is read and judged."], 17)
    d.lines(680, 192, ["To change it, a new table is written first.", "Then an edit in a manifest lists it.", "No table is written over."], 17)
    return d


def table():
    d = Drawing("The parts of a table file, and of a data block", 960, 420)
    d.text(20, 28, "A table file", 16, bold=True)
    parts = [(30, 150, "data block", "blue"), (180, 150, "data block", "blue"), (330, 110, "..", "blue"), (440, 120, "metaindex", "grey"), (560, 170, "index block", "sand"), (730, 120, "footer", "green")]
    for x, width, text, colour in parts:
        d.box(x, 90, width, 40, colour, text, 13, rx=0)
    d.path([(790, 90), (790, 68), (645, 68), (645, 86)])
    d.path([(760, 90), (760, 56), (500, 56), (500, 86)])
    d.text(640, 48, "the last 48 bytes say where these two are", 12, "middle", fill="#555")
    d.path([(600, 130), (600, 160), (105, 160), (105, 134)])
    d.path([(640, 130), (640, 174), (255, 174), (255, 134)])
    d.text(360, 192, "an entry of the index: the last key of a data block, and where it is", 12, "middle", fill="#555")
    d.lines(870, 106, ["Behind each", "block: its type", "and checksum"], 15, size=11, fill="#555")
    d.text(20, 238, "A data block", 16, bold=True)
    cells = [
        ("0", 30, "grey"), ("13", 34, "grey"), ("3", 30, "grey"), ("apple, value, 3", 122, "blue"), ("red", 44, "green"),
        ("6", 30, "grey"), ("7", 34, "grey"), ("5", 30, "grey"), ("1", 76, "blue"), ("green", 52, "green"),
        ("0", 30, "grey"), ("14", 34, "grey"), ("0", 30, "grey"), ("cherry, deletion, 2", 140, "blue"),
        ("0", 34, "sand"), ("1", 34, "sand"),
    ]
    x, edges = 30, []
    for text, width, colour in cells:
        d.box(x, 262, width, 36, colour, text, 12, rx=0)
        edges.append(x)
        x += width
    edges.append(x)
    d.under(edges[0], edges[5], 302, ["the first entry"])
    d.under(edges[5], edges[10], 302, ["the second: 6 bytes of its key", "are those of the key before"])
    d.under(edges[10], edges[14], 302, ["the third, which shares nothing"])
    d.under(edges[14], edges[16], 302, ["restarts: where", "a search may begin"])
    legend = [("grey", "bytes shared, bytes of key, bytes of value"), ("blue", "key: user key, kind, sequence"), ("green", "value"), ("sand", "restarts and their number")]
    x = 30
    for colour, text in legend:
        d.box(x, 384, 18, 13, colour)
        d.text(x + 25, 395, text)
        x += 60 + 6.1 * len(text)
    return d


def bytes_of_a_table():
    d = Drawing("The 114 bytes of the table of one entry", 960, 500)
    d.text(20, 28, "The table of the one entry \"a\" at sequence 1 with the value \"v\": 114 bytes", 16, bold=True)
    wide, high = 30, 30

    def row(y, offset, name, cells, notes):
        d.text(20, y - 10, f"{name}, from byte {offset}", 13, bold=True)
        x, at = 20, []
        for text, colour, width in cells:
            d.box(x, y, width, high, colour, text, 12, rx=0, mono=True)
            at.append(x)
            x += width
        at.append(x)
        for first, last, texts in notes:
            d.under(at[first], at[last], y + high + 3, texts)

    def cells(text, colour):
        return [(word, colour, wide) for word in text.split()]

    trailer = lambda text: cells(text[:2], "white") + cells(text[3:], "white")
    row(66, 0, "The data block",
        cells("00 09 01", "grey") + cells("61 01 01 00 00 00 00 00 00", "blue") + cells("76", "green")
        + cells("00 00 00 00 01 00 00 00", "sand") + trailer("00 1a 0a e3 8e"),
        [(0, 3, ["shared 0, key 9,", "value 1"]), (3, 4, ["\"a\""]), (4, 12, ["1 * 256 + 1: sequence 1, a value"]), (12, 13, ["\"v\""]),
         (13, 17, ["a restart at 0"]), (17, 21, ["one restart"]), (21, 22, ["type"]), (22, 26, ["checksum"])])
    row(176, 26, "The metaindex block, empty",
        cells("00 00 00 00 01 00 00 00", "sand") + trailer("00 c0 f2 a1 b0"),
        [(0, 4, ["a restart at 0"]), (4, 8, ["one restart"]), (8, 9, ["type"]), (9, 13, ["checksum"])])
    row(276, 39, "The index block",
        cells("00 09 02", "grey") + cells("61 01 01 00 00 00 00 00 00", "blue") + cells("00 15", "green")
        + cells("00 00 00 00 01 00 00 00", "sand") + trailer("00 36 49 25 bf"),
        [(0, 3, ["shared 0, key 9,", "value 2"]), (3, 12, ["the last key of the data block"]), (12, 14, ["at 0,", "21 bytes"]),
         (14, 18, ["a restart at 0"]), (18, 22, ["one restart"]), (22, 23, ["type"]), (23, 27, ["checksum"])])
    row(386, 66, "The footer",
        [("1a", "grey", 52), ("08", "grey", 52), ("27", "sand", 52), ("16", "sand", 52), ("36 zeros", "white", 200)] + cells("57 fb 80 8b 24 75 47 db", "green"),
        [(0, 2, ["metaindex:", "at 26, 8 bytes"]), (2, 4, ["index: at 39,", "22 bytes"]), (4, 5, ["so that there are 40 bytes"]), (5, 13, ["the magic number of a table"])])
    x = 20
    for colour, text in [("grey", "numbers"), ("blue", "a key"), ("green", "a value; the magic number"), ("sand", "restarts; the index"), ("white", "behind a block: type, checksum")]:
        d.box(x, 470, 18, 13, colour)
        d.text(x + 25, 481, text)
        x += 56 + 6.1 * len(text)
    return d


def store():
    d = Drawing("A store: one state behind a lock, readers without it, workers that merge outside it", 960, 430)
    d.text(20, 28, "A store with its threads", 16, bold=True)
    d.box(340, 60, 280, 150, "sand", rx=8)
    d.text(480, 84, "the state, behind one lock", 13, "middle", True)
    d.lines(480, 108, ["the versions and their slots", "snapshots", "live jobs", "the manifest", "the next numbers"], 19, anchor="middle")
    d.box(30, 60, 200, 62, "green", rx=8)
    d.lines(130, 84, ["a writer", "ingests a batch"], 20, anchor="middle", size=13)
    d.path([(230, 90), (336, 90)])
    d.text(283, 82, "locks", 11, "middle", fill="#555")
    d.box(730, 60, 200, 62, "red", rx=8)
    d.lines(830, 84, ["a worker", "compacts"], 20, anchor="middle", size=13)
    d.path([(730, 90), (624, 90)])
    d.text(677, 74, "locks to reserve", 11, "middle", fill="#555")
    d.text(677, 106, "and to install", 11, "middle", fill="#555")
    d.box(30, 180, 200, 92, "blue", rx=8)
    d.lines(130, 204, ["a reader", "its own cache of blocks", "its own way to the shelf"], 20, anchor="middle", size=13)
    d.box(340, 240, 280, 44, "white", "the board: which version is current", 13, rx=8)
    d.path([(480, 210), (480, 236)])
    d.text(490, 227, "publishes", 11, fill="#555")
    d.path([(230, 262), (336, 262)])
    d.text(283, 254, "pins", 11, "middle", fill="#555")
    d.text(283, 278, "one step, no lock", 11, "middle", fill="#555")
    d.box(30, 340, 900, 56, "grey", rx=8)
    d.text(480, 362, "a shelf: the tables and the manifest, in memory or in a folder", 13, "middle", True)
    d.text(480, 382, "tables are only made and removed, never written over", 12, "middle")
    d.path([(130, 272), (130, 336)])
    d.text(140, 310, "reads blocks", 11, fill="#555")
    d.path([(830, 122), (830, 336)])
    d.lines(838, 222, ["merges tables", "outside the lock"], 15, size=11, fill="#555")
    d.path([(620, 180), (650, 180), (650, 336)])
    d.lines(658, 250, ["puts a table, then", "appends an edit"], 15, size=11, fill="#555")
    return d


def read():
    d = Drawing("How a read goes: depth by depth, then index block and data block", 960, 480)
    d.text(20, 28, "A read of the key \"h\"", 16, bold=True)

    def place(letter):
        return 110 + (ord(letter) - 97) * 21

    d.line(place("h") + 10, 44, place("h") + 10, 306, "#b04a34", True)
    d.text(place("h") + 10, 40, "h", 13, "middle", True, fill="#b04a34")
    rows = [
        (60, "level 0", [("d", "q", "9", "blue", "1")]),
        (98, "", [("m", "x", "8", "grey", None)]),
        (136, "", [("a", "m", "7", "blue", "2")]),
        (190, "level 1", [("a", "c", "4", "grey", None), ("f", "j", "5", "blue", "3"), ("n", "r", "6", "grey", None), ("t", "z", "3", "grey", None)]),
        (252, "level 2", [("a", "k", "1", "grey", None), ("m", "s", "2", "grey", None)]),
    ]
    for y, name, files in rows:
        d.text(96, y + 20, name, 13, "end", True)
        for low, high, number, colour, turn in files:
            x, width = place(low), place(high) - place(low) + 20
            d.box(x, y, width, 30, colour)
            d.text(x + 8, y + 20, f"{number}: {low} to {high}")
            if turn:
                d.parts.append(f'<circle cx="{x + width - 14}" cy="{y + 15}" r="9" fill="#3a6ea5"/>')
                d.text(x + width - 14, y + 19, turn, 12, "middle", True, fill="#fff")
    d.lines(680, 74, ["Level 0: each file whose range has the", "key, the greatest number first. 8 is not", "asked: its range has no h."], 17)
    d.lines(680, 196, ["From level 1 on: the first file that", "reaches the key, by binary search."], 17)
    d.lines(680, 252, ["File 1 is not asked any more: file 5 had an", "entry that the read allows. It ends the", "read, also where it is a deletion."], 17)
    d.text(20, 342, "In a file", 16, bold=True)
    steps = [(30, "footer", "where is the index?", "green"), (250, "index block", "which block may have h?", "sand"), (520, "data block", "from a restart on, entry by entry", "blue")]
    widths = [190, 240, 260]
    for (x, name, asks, colour), width in zip(steps, widths):
        d.box(x, 362, width, 56, colour, rx=6)
        d.text(x + width / 2, 385, name, 13, "middle", True)
        d.text(x + width / 2, 404, asks, 12, "middle")
    d.path([(220, 390), (246, 390)])
    d.path([(490, 390), (516, 390)])
    d.path([(780, 390), (806, 390)])
    d.lines(814, 386, ["the newest entry", "of h that it allows"], 17)
    d.text(30, 446, "A reader of a store keeps the blocks that it used last, and asks the shelf only for the others.", 12, fill="#555")
    return d


def pin():
    d = Drawing("The words of the board, and how a pin comes and goes", 960, 560)
    d.text(20, 28, "The head: one word of 64 bits", 16, bold=True)
    d.box(30, 50, 130, 40, "sand", "slot: 6 bits", 13, rx=0)
    d.box(160, 50, 330, 40, "green", "id of the version: 28 bits", 13, rx=0)
    d.box(490, 50, 360, 40, "blue", "how many pins were made of it: 30 bits", 13, rx=0)
    d.text(30, 108, "bit 63", 11, fill="#555")
    d.text(850, 108, "bit 0", 11, "end", fill="#555")
    d.text(20, 146, "Beside it one word for each slot: how many pins of the slot were given back", 16, bold=True)
    heads = ["", "the head", "slot 0", "slot 1", "what is known by it"]
    xs = [30, 310, 490, 590, 700]
    for x, text in zip(xs[1:], heads[1:]):
        d.text(x + (80 if x == 310 else 40 if x < 700 else 0), 178, text, 13, "middle" if x < 700 else "start", True)
    rows = [
        ("at first", None, ("0", "7", "2"), "2", "0", ["slot 0: 2 pins were made,", "2 came back: none is held"], []),
        ("a reader pins: one fetch_add of 1", "blue", ("0", "7", "3"), "2", "0", ["the reader has learnt by the", "same step: slot 0, id 7"], ["head"]),
        ("version 8 becomes current: one swap", "green", ("1", "8", "0"), "2", "0", ["the swap found that 3 pins were made:", "slot 0 waits until 3 came back"], ["head"]),
        ("the publisher looks at slot 0: one load", "grey", ("1", "8", "0"), "2", "0", ["2 is not 3: a reader holds it,", "so slot 0 is not used again"], []),
        ("the reader gives its pin back", "blue", ("1", "8", "0"), "3", "0", ["one fetch_add on the slot's word"], ["slot"]),
        ("it looks again", "grey", ("1", "8", "0"), "3", "0", ["3 is 3: slot 0 is free"], []),
    ]
    y = 190
    for number, (what, colour, head, first, second, notes, changed) in enumerate(rows):
        d.text(30, y + 24, f"{number}" if number else "", 12, bold=True, fill="#555")
        d.text(50, y + 24, what, 13)
        for x, width, text, fill in zip((310, 350, 400), (40, 50, 70), head, ("sand", "green", "blue")):
            d.box(x, y + 4, width, 32, fill, text, 13, rx=0, bold="head" in changed)
        d.box(500, y + 4, 60, 32, "red" if "slot" in changed else "white", first, 13, rx=0, bold="slot" in changed)
        d.box(600, y + 4, 60, 32, "white", second, 13, rx=0)
        d.lines(700, y + (16 if len(notes) == 2 else 24), notes, 16)
        y += 54
        d.line(30, y - 7, 930, y - 7, "#ddd")
    d.text(30, 540, "The head shows slot, id and pins. Every step is one atomic operation, so no thread sees half of it, and no reader waits for a lock.", 12, fill="#555")
    return d


def proof():
    d = Drawing("What a contract rests on, and what rests on it", 960, 330)
    d.text(20, 28, "What the prover compares", 16, bold=True)
    d.box(30, 60, 230, 80, "green", rx=8)
    d.lines(145, 84, ["a definition", "specs/*.antt: what bytes", "are a table?"], 19, anchor="middle", size=13)
    d.box(360, 60, 230, 80, "sand", rx=8)
    d.lines(475, 84, ["a contract", "clauses between the head", "and the body of a function"], 19, anchor="middle", size=13)
    d.box(690, 60, 230, 80, "blue", rx=8)
    d.lines(805, 84, ["a body", "the code that runs,", "loops and all"], 19, anchor="middle", size=13)
    d.path([(356, 100), (264, 100)])
    d.text(310, 92, "cites", 11, "middle", fill="#555")
    d.path([(686, 100), (594, 100)])
    d.text(640, 92, "keeps", 11, "middle", fill="#555")
    d.text(640, 118, "on each input", 11, "middle", fill="#555")
    d.box(690, 200, 230, 62, "red", rx=8)
    d.lines(805, 226, ["a wrong body", "an edit that must fail"], 19, anchor="middle", size=13)
    d.path([(686, 222), (560, 222), (560, 144)], dashed=True)
    d.text(624, 242, "is refused", 11, "middle", fill="#555")
    d.box(30, 200, 230, 62, "grey", rx=8)
    d.lines(145, 226, ["a theorem", "of many contracts together"], 19, anchor="middle", size=13)
    d.path([(264, 222), (400, 222), (400, 144)])
    d.text(330, 242, "follows from", 11, "middle", fill="#555")
    d.lines(30, 292, ["You have to read the definition and the clauses. You need not read the body, nor the proof files: the prover checks them.",
                      "You have to trust the prover, the compiler, the C library, the processor; and of a disk what one page says."], 18, size=12)
    return d


def fast():
    """The rows of PERFORMANCE.md's first table: the work without its unit, and how fast it is."""
    section = (DOCS / "PERFORMANCE.md").read_text().split("## In memory", 1)[1].split("\n## ", 1)[0]
    for line in section.split("\n"):
        cells = [cell.strip() for cell in line.strip("|").split("|")]
        if len(cells) == 5 and cells[3].replace(".", "", 1).isdigit():
            yield cells[0].removesuffix(", ns").removesuffix(", ns an entry").removesuffix(", MB a second"), float(cells[3])


def performance():
    rows = list(fast())
    high, first, unit = 24, 352, 132
    bottom = 74 + high * len(rows)
    d = Drawing("How fast lsm is, as a part of LevelDB's speed: above 1 it is faster", 960, bottom + 62)
    d.text(20, 28, "How fast it is, beside LevelDB, in memory", 16, bold=True)
    for times in range(5):
        x = first + times * unit
        d.line(x, 60, x, bottom, "#ddd")
        d.text(x, 54, f"{times}", 12, "middle", fill="#555")
    for number, (work, times) in enumerate(rows):
        y = 66 + number * high
        d.text(first - 12, y + 14, work, 12, "end")
        d.box(first, y, round(times * unit, 1), high - 6, "green" if times >= 1 else "red", rx=0)
        behind = 1 if 0.65 < times < 1 else times  # not across the line of LevelDB
        d.text(round(first + behind * unit + 8, 1), y + 14, f"{times:.2f}", 12, bold=True)
    d.line(first + unit, 60, first + unit, bottom, "#444")
    d.text(first + unit, bottom + 18, "as fast as LevelDB", 12, "middle", bold=True)
    d.text(20, bottom + 46, "How many times LevelDB's speed. Green is faster, red slower. The figures are those of the table; each bar is one row of it.", 12, fill="#555")
    return d


# by their place in docs
DRAWINGS = {
    "book/levels.svg": levels,
    "book/folder.svg": folder,
    "book/table.svg": table,
    "table_bytes.svg": bytes_of_a_table,
    "book/store.svg": store,
    "book/read.svg": read,
    "book/pin.svg": pin,
    "book/proof.svg": proof,
    "performance.svg": performance,
}

if __name__ == "__main__":
    for name, draw in DRAWINGS.items():
        (DOCS / name).write_text(draw().svg())

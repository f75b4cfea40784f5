#!/usr/bin/env python3
"""Draws docs/layers.svg anew: the crates of crates.txt, and which others each one uses. An arrow is
left out where a longer way along others says the same. A crate that is new gets a line in CRATES.
Needs graphviz (the command dot).
"""

import re
import subprocess
from pathlib import Path

TOP = Path(__file__).resolve().parents[1]
COLOURS = {
    "program": ("#eef6e8", "#5a8a3a"),
    "database": ("#f6f1de", "#a5863a"),
    "part": ("#e8f0fa", "#3a6ea5"),
    "law": ("#f3eaf8", "#7a4a9a"),
    "file": ("#f2f2f2", "#666666"),
}
CRATES = {
    "lsm_tool": ("program", "the program lsm"),
    "lsm_terminal": ("program", "a terminal's line, prompt"),
    "lsm_commands": ("program", "what words ask is done"),
    "lsm_cmd_convert": ("program", "mktable, dump, manifest, script"),
    "lsm_cmd_shell": ("program", "a reply to each line"),
    "lsm_cmd_load": ("program", "lines into a folder"),
    "lsm_bulk_load": ("database", "lines into a store"),
    "lsm_database": ("database", "what a program embeds"),
    "lsm_lines": ("program", "lines to batches"),
    "lsm_server": ("program", "the program lsm_server"),
    "lsm_channels": ("program", "an answer to each request"),
    "lsm_wire": ("program", "a channel's end"),
    "lsm_frames": ("file", "requests, answers as bytes"),
    "lsm_cmd_compact": ("program", "compact"),
    "lsm_cmd_write": ("program", "ingest, put, clean"),
    "lsm_cmd_read": ("program", "check, list, get, scan"),
    "lsm_cmd_levels": ("program", "levels, by the manifest alone"),
    "lsm_cmd_bench": ("program", "bench"),
    "lsm_cmd_import": ("program", "import"),
    "lsm_cmd_recover": ("program", "recover"),
    "lsm_recovery": ("program", "logs come in"),
    "lsm_preview": ("program", "seen with logs, or plain"),
    "lsm_cmd_repair": ("program", "repair"),
    "lsm_repair": ("program", "a manifest of whole tables"),
    "lsm_log_files": ("program", "a manifest and its logs"),
    "lsm_opening": ("program", "begins or opens a database"),
    "lsm_directory": ("program", "a folder, its lock, faults"),
    "lsm_grammar": ("program", "command line, help"),
    "lsm_requests": ("program", "what commands are asked for"),
    "lsm_text": ("program", "keys, lines, refusals"),
    "lsm_store": ("database", "lock, readers, workers"),
    "lsm_script": ("database", "lists of commands, as text too"),
    "lsm_refusals": ("database", "texts of refusals"),
    "lsm_state": ("database", "what the lock guards"),
    "lsm_journal": ("part", "the manifest held"),
    "lsm_batch": ("part", "batches and their tables"),
    "lsm_wal": ("part", "write-ahead logs"),
    "lsm_import": ("part", "copies on other shelves"),
    "lsm_live": ("part", "live jobs, drawn numbers"),
    "lsm_slots": ("part", "versions by slot"),
    "lsm_merge": ("part", "jobs, drops, outputs"),
    "lsm_picker": ("part", "which compaction is next"),
    "lsm_admission": ("part", "opened, tables unread"),
    "lsm_pins": ("part", "board of readers' pins"),
    "lsm_version": ("part", "tables at levels"),
    "lsm_history": ("part", "all that ever came in"),
    "lsm_verify": ("part", "a shape becomes a version"),
    "lsm_iterators": ("part", "sorted sources as one"),
    "lsm_query": ("part", "what a key answers, scans"),
    "lsm_model": ("law", "files in levels, as data"),
    "lsm_storage": ("file", "in memory, in a folder"),
    "lsm_manifest": ("file", "edits and their log"),
    "lsm_table": ("file", "tables, registry"),
    "lsm_reader": ("file", "one block at a time, a cache"),
    "lsm_codec": ("file", "numbers, keys, checksums"),
    "lsm_snappy": ("file", "raw Snappy, read"),
    "lsm_inflate": ("file", "Snappy's tables made plain"),
    "lsm_mirror": ("file", "a shelf, as it is shown"),
    "lsm_shelf": ("file", "what a shelf promises"),
    "lsm_finding": ("file", "tables found, unread"),
    "lsm_block": ("file", "blocks"),
    "lsm_folder": ("file", "calls on a folder"),
}


def is_drawn(crate):
    """Tests, the example and what is no part of the program are left out."""
    return not crate.endswith("_tests") and crate not in ("example", "lsm_crash", "lsm_theorems")


def uses():
    """What each crate uses, of those that are drawn."""
    found = {}
    for line in (TOP / "crates.txt").read_text().split("\n"):
        name, parted, words = line.partition(":")
        crate = name.split(" ")[0]
        if parted and is_drawn(crate):
            found[crate] = [word for word in words.split() if word.startswith("lsm_") and is_drawn(word)]
    return found


def reached(crate, lower):
    """All crates below one, itself left out."""
    return {below for used in lower[crate] for below in {used} | reached(used, lower)}


def direct(crate, lower):
    """The crates that one uses and none of those that it uses does."""
    return [used for used in lower[crate] if not any(used in reached(other, lower) for other in lower[crate])]


def drawing(lower):
    lines = ["digraph {", '  graph [bgcolor="white", ranksep=0.42, nodesep=0.28]',
             '  node [shape=box, style="rounded,filled", fontname="Helvetica,sans-Serif", margin="0.12,0.03", height=0.5]',
             '  edge [color="#777777", arrowsize=0.7]']
    for crate in lower:
        kind, text = CRATES[crate]
        fill, stroke = COLOURS[kind]
        label = f'<<font point-size="13"><b>{crate}</b></font><br/><font point-size="11" color="#444444">{text}</font>>'
        lines.append(f'  {crate} [label={label}, fillcolor="{fill}", color="{stroke}"]')
        lines += [f"  {crate} -> {used}" for used in direct(crate, lower)]
    return "\n".join([*lines, "}"])


def layers():
    lower = uses()
    unknown = sorted(set(lower) - set(CRATES))
    if unknown:
        raise SystemExit(f"draw_layers: {' '.join(unknown)}: no line in CRATES")
    svg = subprocess.run(["dot", "-Tsvg"], input=drawing(lower), text=True, stdout=subprocess.PIPE, check=True).stdout
    svg = svg[svg.index("<svg"):]
    svg = re.sub(r"<!--.*?-->\n?", "", svg, flags=re.S)
    return re.sub(r"<title>[^<]*</title>\n?", "", svg).replace("<g id=\"graph0\"", "<title>The crates, and which others each one uses</title>\n<g id=\"graph0\"", 1)


if __name__ == "__main__":
    (TOP / "docs" / "layers.svg").write_text(layers())

#!/usr/bin/env python3
"""Draws docs/crates.svg from crates.txt: the crates by group, each in the column of its longest chain. A crate that is in no group
below is named, and nothing is written then.

usage: docs/crates.py"""
import os
import sys

TOP = os.path.dirname(os.path.dirname(os.path.abspath(__file__)))
GROUPS = [
    ("definitions", "#e8eef9",
     "format_spec page_spec state_spec tree_spec sync_spec store_spec machine_spec soundness sync_soundness"),
    ("the outside", "#f6ecd9", "io_edge disk_model disk_folder peer_model"),
    ("a state", "#e4f2e6", "byte_codec hash_lanes hash_domain sys_state manifest hash_tree witness"),
    ("pages", "#f3e6f3", "page_file page_pool layer_stack page_delta page_map manifest_incr merge_job"),
    ("published heights", "#fbe3e1", "chunk_index mark_file height_store whole_state"),
    ("sync", "#e3f3f3", "sync_plan slot_links sync_core sync_serve"),
    ("programs", "#eeeeee", "script_text generator live_state state_manager state_cli icstate"),
]
TITLE = ("The crates by group, from left to right by the longest chain of crates below each; "
         "a crate uses crates to its left only")


def crates():
    """Each crate of the repository with those of the repository that it uses."""
    with open(os.path.join(TOP, "crates.txt"), encoding="utf-8") as file:
        lines = [line.partition("#")[0].partition(":") for line in file]
    uses = {name.split()[0]: low.split() for name, _, low in lines if name.strip()}
    return {name: [crate for crate in low if crate in uses] for name, low in uses.items()}


def chain(uses, name):
    return 1 + max((chain(uses, low) for low in uses[name]), default=0)


def drawing(columns):
    """The lines of the picture, of each crate with its column from 0 on."""
    width, y, lines = 162 + 146 * (1 + max(columns.values())), 32, []
    for title, color, names in GROUPS:
        names = [name for name in names.split() if name in columns]
        rows = {name: sum(columns[other] == columns[name] for other in names[:at]) for at, name in enumerate(names)}
        height = 46 + 38 * max(rows.values())
        lines += [f'<rect x="8" y="{y}" width="{width - 16}" height="{height}" rx="6" fill="{color}"/>',
                  f'<text x="18" y="{y + 26}" font-weight="bold">{title}</text>']
        for name in names:
            x, top = 150 + 146 * columns[name], y + 8 + 38 * rows[name]
            lines += [f'<rect x="{x}" y="{top}" width="132" height="30" rx="4" fill="white" stroke="#555"/>',
                      f'<text x="{x + 66}" y="{top + 20}" text-anchor="middle">{name}</text>']
        y += height + 10
    heads = "".join(f'<text x="{216 + 146 * at}" y="20" text-anchor="middle" fill="#555">{at + 1}</text>'
                    for at in range(1 + max(columns.values())))
    size = f"{width} {y + 8}"
    return [f'<svg xmlns="http://www.w3.org/2000/svg" viewBox="0 0 {size}" font-family="sans-serif" font-size="13">',
            f"<title>{TITLE}</title>", f'<rect width="{width}" height="{y + 8}" fill="white"/>',
            '<text x="18" y="20" fill="#555">longest chain:</text>', heads, *lines, "</svg>"]


def main():
    uses = crates()
    grouped = " ".join(names for _, _, names in GROUPS).split()
    missing = [name for name in uses if name not in grouped]
    if missing:
        sys.exit(f"{sys.argv[0]}: in no group: {' '.join(missing)}")
    columns = {name: chain(uses, name) - 1 for name in uses}
    with open(os.path.join(TOP, "docs", "crates.svg"), "w", encoding="utf-8") as file:
        file.write("\n".join(drawing(columns)) + "\n")


main()

#!/usr/bin/env python3
"""Writes rows into the data of wire_rows, serve_rows and router_rows, and the requests of the examples for a new user.

What each request gets is told by the modules of this folder alone, which hold a separate account of the formats: bson (documents), order, matching,
changing and pipelines (the languages), commands (the order of refusals), cluster (what is done, times), records (of journals), wire (messages, and the words
by which the program of the rows tells commands). Where a row tells the wanted reply by hand too, both must agree.
The pages of the examples go to examples-README-parts.md at the top, to be put into examples/README.md by hand. Usage: make.py
"""
import pathlib

import alone
import alone_refusals
import alone_writes
import ceilings
import chunk_scripts
import chunks
import cursors
import drivers
import languages
import limits
import reads
import refusals
import restart_scripts
import retries
import routers
import scripts
import serving
import sessions
import shards
import sizes
import starting_scripts
import starts
from form import put_file

TOP = pathlib.Path(__file__).resolve().parent.parent.parent
DATA = TOP / "crates" / "wire_rows" / "data"
SERVED = TOP / "crates" / "serve_rows" / "data"
ALONE = TOP / "crates" / "router_rows" / "data"


def main():
    lines = reads.examples() + reads.times() + languages.filters() + languages.sorts() + languages.projections() + languages.groups() + languages.sums()
    put_file(DATA / "reads.rows", lines + refusals.fields() + sizes.rows() + refusals.refusals() + sessions.rows())
    put_file(DATA / "cursors.rows", cursors.rows())
    put_file(DATA / "retries.rows", retries.rows())
    put_file(DATA / "chunks.rows", chunks.rows())
    put_file(DATA / "chunks.script.rows", chunk_scripts.rows())
    put_file(DATA / "retries.script.rows", scripts.rows() + routers.one_router() + ceilings.one_router())
    put_file(DATA / "routers.rows", routers.rows() + ceilings.rows())
    put_file(DATA / "shards.rows", shards.rows())
    put_file(DATA / "starts.rows", starts.rows())
    put_file(DATA / "starts.script.rows", starting_scripts.scripts())
    put_file(DATA / "restarts.script.rows", restart_scripts.rows())
    put_file(DATA / "limits.script.rows", limits.rows())
    put_file(DATA / "drivers.reads.rows", drivers.rows(DATA / "drivers.rows"))
    put_file(SERVED / "links.rows", serving.links_rows())
    put_file(SERVED / "ends.rows", serving.ends_rows())
    put_file(ALONE / "reads.txt", alone.lines())
    put_file(ALONE / "writes.txt", alone_writes.lines())
    put_file(ALONE / "refusals.txt", alone_refusals.lines())
    sessions.put(TOP / "examples", TOP / "examples-README-parts.md")


if __name__ == "__main__":
    main()

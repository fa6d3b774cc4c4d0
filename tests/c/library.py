#!/usr/bin/env python3
"""Runs `rt lib` in the crate of this folder, over the libraries as the gate has just proved and built them.

`rt ci` leaves each library in its crate's out/, without the note by which `rt lib` knows its own; `rt lib` by itself
would prove them all once more. Libraries of rt's other commands have that note, and are taken as rt takes them.
"""
import os
import runpy
import shutil
import sys

rt = runpy.run_path(os.path.realpath(shutil.which("rt")))
crate = rt["rtlib"].Crate
has_note = crate.is_built
crate.is_built = lambda it: has_note(it) or (
    os.path.isdir(it.rlib) and not os.path.exists(f"{it.folder}/out/rlib/stamp")
)
sys.exit(rt["main"](["lib"]))

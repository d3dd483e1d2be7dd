"""Keeps what `rt ci` proved of each crate before it tried the crate's must-fail edits, so that tests/edits.py can begin with it and need not prove the crate once more.

usage: seeds.py ROOM FOLDER     ROOM is the folder of rt's temporary files; it runs until it is stopped, and FOLDER/CRATE is what was kept of a crate

`rt ci` proves a crate into ROOM/rt-edits-*/seed, and each edit is then tried in a folder beside that, named by a number: from then on the seed is
whole. Files are kept by a second name, which changes nothing that rt looks at. Where rt does it otherwise nothing is kept, and tests/edits.py proves
the crates itself.
"""
import contextlib
import glob
import os
import re
import shutil
import sys
import time


def crate_of(seed):
    """The crate that a seed is of: its own modules are there, and those of no other."""
    found = {m[1] for _, _, names in os.walk(seed) for m in (re.match(r'Rattle-(\w+)\.(?:specs|proofs)\b', it) for it in names) if m}
    return found.pop() if len(found) == 1 else None


def keep(seed, folder):
    crate = crate_of(seed)
    to = crate and os.path.join(folder, crate)
    if to and not os.path.exists(to):
        part = to + '.part'
        shutil.rmtree(part, ignore_errors=True)
        # rt may remove the seed meanwhile: then there is none of this crate
        with contextlib.suppress(OSError, shutil.Error):
            shutil.copytree(seed, part, copy_function=os.link)
            os.rename(part, to)


def main(room, folder):
    done = set()
    while True:
        for seed in glob.glob(os.path.join(room, 'rt-edits-*', 'seed')):
            with contextlib.suppress(OSError):
                if seed not in done and any(it.isdigit() for it in os.listdir(os.path.dirname(seed))):
                    done.add(seed)
                    keep(seed, folder)
        time.sleep(1)


main(*sys.argv[1:])

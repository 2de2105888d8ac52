#!/usr/bin/env python3
"""Shows every line of the generated text that is not, as it stands, a line of
the source in the same order. Independent of the build script (plain difflib).
usage: check_transform.py [OUT_DIR [PATH_SRC]]
OUT_DIR is the newest target/*/build/oracle-*/out, PATH_SRC is rust-1.97.0."""
import difflib, glob, os, sys

here = os.path.dirname(os.path.abspath(__file__))
built = glob.glob(os.path.join(here, "target", "*", "build", "oracle-*", "out"))
if len(sys.argv) < 2 and not built:
    sys.exit("nothing built yet: cargo build --release --offline")
out = sys.argv[1] if len(sys.argv) > 1 else max(built, key=os.path.getmtime)
src = sys.argv[2] if len(sys.argv) > 2 else os.path.join(here, "rust-1.97.0")

FILES = [("unix_path.rs", "path.rs"),
         ("windows_path.rs", "path.rs"),
         ("unix_sys.rs", "sys/path/unix.rs"),
         ("windows_sys.rs", "sys/path/windows.rs"),
         ("windows_prefix.rs", "sys/path/windows_prefix.rs"),
         ("unix_sysmacro.rs", "sys/path/mod.rs"),
         ("windows_sysmacro.rs", "sys/path/mod.rs")]


def lines(path):
    with open(path) as f:
        return [l.rstrip() for l in f if l.strip() and not l.strip().startswith(("///", "//!"))]


for generated, name in FILES:
    a = lines(os.path.join(src, "library", "std", "src", name))
    b = lines(os.path.join(out, generated))
    print("==", generated, len(a), "source lines without docs,", len(b), "generated")
    kept = 0
    for tag, i1, i2, j1, j2 in difflib.SequenceMatcher(None, a, b, autojunk=False).get_opcodes():
        if tag == "equal":
            kept += i2 - i1
        elif tag in ("replace", "insert"):
            for line in b[j1:j2]:
                print("   +", line.strip())
    print("   ", kept, "lines unchanged")

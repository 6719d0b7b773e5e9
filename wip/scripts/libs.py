#!/usr/bin/env python3
"""libs.py CLONE: gives a clone the libraries that keep.py keeps for the same text, with rt's own stamps, so that `rtf check` in an upper crate proves nothing below."""
import sys, os, shutil, hashlib
top = os.path.abspath(sys.argv[1]); os.chdir(top)
import importlib.machinery, importlib.util
loader = importlib.machinery.SourceFileLoader("rtf", "/work/tmp/bin/rtf")
sys.argv = ["rtf"]
spec = importlib.util.spec_from_loader("rtf", loader); rtf = importlib.util.module_from_spec(spec); loader.exec_module(rtf)
rtlib, rt = rtf.rtlib, rtf.rt
STORE = "/work/tmp/kept"
rtlib.Crate = rt.Crate
rt.Crate.allowed = rt.handles_of(top)
crates = rtlib.crates_below(top); by = {c.name: c for c in crates}
keys = {}
def sum_files(folder, subs):
    s = hashlib.sha256()
    for sub in subs:
        for at, dirs, files in sorted(os.walk(f"{folder}/{sub}")):
            dirs.sort()
            for f in sorted(files):
                p = f"{at}/{f}"; s.update(os.path.relpath(p, folder).encode() + b"\0")
                with open(p, "rb") as h: s.update(hashlib.sha256(h.read()).digest())
    return s.hexdigest()
def KEY(name):
    if name not in keys:
        c = by[name]; s = hashlib.sha256()
        s.update(sum_files(c.folder, ["src", "specs", "proofs"]).encode())
        s.update(repr((sorted(c.of_kit), [(d.name, KEY(d.name)) for d in sorted(c.deps, key=lambda d: d.name)])).encode())
        keys[name] = s.hexdigest()[:24]
    return keys[name]
have, lack = [], []
import os as _os
want = _os.environ.get("WANT", "").split()
need = set(n for w in want for n in [w, *[b.name for b in by[w].below()]])
for c in [c for c in crates if not need or c.name in need]:
    kept = f"{STORE}/rlib.{KEY(c.name)}"
    if os.path.isdir(kept):
        dest = f"{c.folder}/out/rlib"
        st = rtf.stamp(c)
        if rtlib.text_of(f"{dest}/stamp") != st or rtlib.text_of(f"{dest}/keep.key") != KEY(c.name):
            shutil.rmtree(dest, ignore_errors=True); os.makedirs(os.path.dirname(dest), exist_ok=True)
            shutil.copytree(kept, dest, symlinks=True)
            open(f"{dest}/keep.key", "w").write(KEY(c.name)); open(f"{dest}/stamp", "w").write(st)
        have.append(c.name)
    else: lack.append(c.name)
print("kept:", *have); print("not kept:", len(lack))

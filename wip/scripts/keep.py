#!/usr/bin/env python3
"""Does what `rt ci` of kit 13b does, crate by crate, over a clone, and keeps what passed, by the content of a crate's
files and of all below. keep.py TOP [--lanes N] [--no-edits] [--no-tests] [--only A,B,..] (each with all below)."""
import sys, os, hashlib, shutil, threading, time, tempfile, subprocess, json, signal
from concurrent.futures import ThreadPoolExecutor, wait, FIRST_COMPLETED
import importlib.machinery, importlib.util
sys.path.insert(0, "/opt/rattle/bin")
loader = importlib.machinery.SourceFileLoader("rtmod", "/opt/rattle/bin/rt")
spec = importlib.util.spec_from_loader("rtmod", loader)
rt = importlib.util.module_from_spec(spec)
sys.argv, words = ["/opt/rattle/bin/rt"], sys.argv[1:]
loader.exec_module(rt)
rtlib = rt.rtlib
import copy
STORE = os.environ.get("KEEP_STORE", "/work/tmp/kept")
TOP = os.path.abspath(words[0])
def opt(name, default=None):
    return words[words.index(name) + 1] if name in words else default
LANES = int(opt("--lanes", "4"))
ONLY = [x for x in opt("--only", "").split(",") if x]
FIRST = [x for x in opt("--first", "").split(",") if x]
EDITSOF = [x for x in opt("--edits-of", "").split(",") if x]
NOEDITS, NOTESTS = "--no-edits" in words, "--no-tests" in words
os.makedirs(STORE, exist_ok=True)
os.chdir(TOP)
def log(*a):
    line = time.strftime("%H:%M:%S ") + " ".join(map(str, a))
    print(line, flush=True)
def stop(message):
    print(f"rt: {message}", flush=True); sys.exit(2)
rtlib.stop = stop
rt.Crate.cuts_libraries = True
for it in (rtlib.ALLOW_C, rtlib.BACKEND, "RT_SECONDS"):
    os.environ.pop(it, None)
rtlib.guarded()
rt.Crate.allowed = rt.handles_of(TOP)
rtlib.Crate = rt.Crate
crates = rtlib.crates_below(TOP)
by = {c.name: c for c in crates}
# memoise below
_below = {}
def below(self):
    if self.name not in _below:
        found = []
        for dep in self.deps:
            for it in [*dep.below(), dep]:
                if it.name not in [f.name for f in found]:
                    found.append(it)
        _below[self.name] = found
    return _below[self.name]
rtlib.Crate.below = below
rt.Crate.below = below
rtlib.Crate.stamp = lambda self: KEY(self.name)
rt.Crate.stamp = lambda self: KEY(self.name)
keys = {}
def sum_files(folder, subs):
    s = hashlib.sha256()
    for sub in subs:
        for at, dirs, files in sorted(os.walk(f"{folder}/{sub}")):
            dirs.sort()
            for f in sorted(files):
                p = f"{at}/{f}"
                s.update(os.path.relpath(p, folder).encode() + b"\0")
                with open(p, "rb") as h: s.update(hashlib.sha256(h.read()).digest())
    return s.hexdigest()
def KEY(name):
    if name not in keys:
        c = by[name]
        s = hashlib.sha256()
        s.update(sum_files(c.folder, ["src", "specs", "proofs"]).encode())
        s.update(repr((sorted(c.of_kit), [(d.name, KEY(d.name)) for d in sorted(c.deps, key=lambda d: d.name)])).encode())
        keys[name] = s.hexdigest()[:24]
    return keys[name]
def edits_key(name, edit):
    with open(edit, "rb") as h: return hashlib.sha256(KEY(name).encode() + h.read()).hexdigest()[:24]
for c in crates: KEY(c.name)
if ONLY:
    want = set()
    for n in ONLY:
        want |= {n, *[b.name for b in by[n].below()]}
else:
    want = set(by)
order = sorted([c for c in crates if c.name in want], key=lambda c: len(c.below()))
def has(kind, key): return os.path.exists(f"{STORE}/{kind}.{key}")
def mark(kind, key, text=""):
    with open(f"{STORE}/{kind}.{key}.tmp", "w") as h: h.write(text)
    os.rename(f"{STORE}/{kind}.{key}.tmp", f"{STORE}/{kind}.{key}")
printing = threading.Lock()
def stopped(crate):
    code = rtlib.code_of(crate.folder)
    beyond = [it for it, w in rt.REACHES.items() if it not in crate.allowed and rt.re.search(w, code)]
    if beyond or rt.re.search(rt.RENAMES, code) or rt.re.search(rt.IGNORED, code): return "refused text"
    return "run rt fmt in the crate's folder" if rtlib.fmt(crate.folder, "--check", crate.out) else None
def dur(f, *a):
    t = time.time(); r0 = os.times(); v = f(*a); return v, time.time() - t
def mine(lock, done):
    while True:
        if done(): return False
        try:
            fd = os.open(lock, os.O_CREAT | os.O_EXCL | os.O_WRONLY); os.write(fd, str(os.getpid()).encode()); os.close(fd); return True
        except FileExistsError:
            try: pid = int(open(lock).read() or "0")
            except Exception: pid = 0
            if pid == os.getpid() or (pid and not os.path.exists(f"/proc/{pid}")):
                try: os.remove(lock)
                except OSError: pass
                continue
            time.sleep(1.5)
def proof(crate, jobs):
    key = KEY(crate.name)
    dest = f"{crate.folder}/out/rlib"
    if has("ok", key):
        kept = f"{STORE}/rlib.{key}"
        if os.path.isdir(kept) and not crate.is_program:
            if rtlib.text_of(f"{dest}/keep.key") != key:
                shutil.rmtree(dest, ignore_errors=True); os.makedirs(os.path.dirname(dest), exist_ok=True)
                shutil.copytree(kept, dest, symlinks=True)
                with open(f"{dest}/keep.key", "w") as h: h.write(key)
            return True
        if crate.is_program and os.path.isfile(f"{STORE}/prog.{key}"):
            os.makedirs(f"{crate.folder}/out", exist_ok=True)
            shutil.copy(f"{STORE}/prog.{key}", f"{crate.folder}/out/{crate.name}")
            return True
    if not mine(f"{STORE}/lock.{key}", lambda: has("ok", key)):
        return proof(crate, jobs) if has("ok", key) else False
    crate = copy.copy(crate)
    with tempfile.TemporaryFile("a+", errors="replace") as crate.out:
        status = 1; t = time.time()
        try:
            os.makedirs(f"{crate.folder}/out", exist_ok=True)
            try:
                rtlib.stop_on_links(crate.folder); rtlib.stop_on_unread(crate.folder, crates); rtlib.stop_on_text(crate, "verdict"); rt.stop_on_words(crate)
                why = stopped(crate)
            except SystemExit: why = "refused text (see above)"
            if why: print(why, file=crate.out, flush=True)
            else: status = crate.ci(["--jobs", str(jobs)], False)
        except SystemExit: pass
        crate.out.seek(0); text = crate.out.read()
    with open(f"{STORE}/log.{crate.name}", "w") as h: h.write(text)
    with printing: log(f"{crate.name} {'proved' if not status else 'NOT PROVED'} {time.time()-t:.0f}s jobs={jobs}" + ("" if not status else f" see {STORE}/log.{crate.name}"))
    if not status and KEYNOW(crate.name) == key:
        if crate.is_program:
            if os.path.isfile(f"{crate.folder}/out/{crate.name}"): shutil.copy(f"{crate.folder}/out/{crate.name}", f"{STORE}/prog.{key}")
        else:
            kept = f"{STORE}/rlib.{key}"
            shutil.rmtree(kept, ignore_errors=True); shutil.copytree(dest, kept + ".tmp", symlinks=True); os.rename(kept + ".tmp", kept)
            with open(f"{dest}/keep.key", "w") as h: h.write(key)
        mark("ok", key, f"{crate.name} {time.time()-t:.0f}")
    return not status
def KEYNOW(name):
    c = by[name]; s = hashlib.sha256()
    s.update(sum_files(c.folder, ["src", "specs", "proofs"]).encode())
    s.update(repr((sorted(c.of_kit), [(d.name, KEY(d.name)) for d in sorted(c.deps, key=lambda d: d.name)])).encode())
    return s.hexdigest()[:24]
def tests(crate, jobs):
    key = KEY(crate.name)
    if not crate.has_tests() or has("tests", key): return True
    if not mine(f"{STORE}/tlock.{key}", lambda: has("tests", key)):
        return has("tests", key)
    crate = copy.copy(crate)
    with tempfile.TemporaryFile("a+", errors="replace") as crate.out:
        status = 1; t = time.time()
        try: status = crate.ci(["--jobs", str(jobs)], True)
        except SystemExit: pass
        ok = not status and (not os.path.isfile(f"{crate.folder}/out/{crate.name}_tests") or rt.run(crate, True))
        crate.out.seek(0); text = crate.out.read()
    with open(f"{STORE}/testlog.{crate.name}", "w") as h: h.write(text)
    with printing: log(f"{crate.name}: tests {'ok' if ok else 'FAILED'} {time.time()-t:.0f}s" + ("" if ok else f" see {STORE}/testlog.{crate.name}"))
    if ok: mark("tests", key)
    return ok
def edits(crate, jobs):
    good, bad = rt.edits_of(crate)
    todo = [e for e in good if not has("edit", edits_key(crate.name, e))]
    if not todo: return not bad
    t = time.time()
    res = rt.must_fail_all(crate, good if len(todo) == len(good) else todo, ["--jobs", "1"])
    ok = True
    for e, (refused, text) in zip(good if len(todo) == len(good) else todo, res):
        if refused: mark("edit", edits_key(crate.name, e))
        else: ok = False
        with printing: log(("refused " if refused else "LET THROUGH ") + text[:200])
    with printing: log(f"{crate.name}: edits {len(todo)} {time.time()-t:.0f}s")
    return ok and not bad
tasks = {}
for c in order:
    w = [(d.name, "proof") for d in c.below()]
    n = c.count(rb"\n")
    tasks[c.name, "proof"] = (w, n, rt.need(c), lambda j, c=c: proof(c, j))
    if not NOTESTS and c.has_tests(): tasks[c.name, "tests"] = (w + [(c.name, "proof")], n // 2, rt.need(c), lambda j, c=c: tests(c, j))
    if not NOEDITS and rt.edits_of(c)[0] and (not EDITSOF or c.name in EDITSOF): tasks[c.name, "edits"] = (w + [(c.name, "proof")], n // 2, rt.need(c), lambda j, c=c: edits(c, j))
behind = {k: 0 for k in tasks}
for k in reversed(list(tasks)):
    behind[k] += tasks[k][1] + (100000 if k[0] in FIRST else 0)
    for it in tasks[k][0]: behind[it] = max(behind[it], behind[k])
for k in tasks:
    if k[1] != "proof": behind[k] -= 10**6
memory = 0.85 * rt.free()
left, running, given = sorted(tasks, key=lambda k: -behind[k]), {}, {}
with ThreadPoolExecutor(LANES) as pool:
    while left or running:
        for k in list(left):
            if any(given.get(b) is False for b in tasks[k][0]):
                left.remove(k); given[k] = False
                if k[1] == "proof": log(f"{k[0]} not tried")
        ready = [k for k in left if all(b in given for b in tasks[k][0])]
        for at, k in enumerate(ready):
            need = tasks[k][2]; idle = LANES - sum(j for _, _, j in running.values())
            if idle > 0 and (not running or need <= memory - sum(n for _, n, _ in running.values())):
                left.remove(k)
                jobs = 1 if k[1] == "edits" else max(1, min(4, idle // (len(ready) - at)))
                running[pool.submit(tasks[k][3], jobs)] = (k, need, jobs)
        if running:
            for f in wait(running, return_when=FIRST_COMPLETED).done:
                k = running.pop(f)[0]
                try: given[k] = bool(f.result())
                except Exception as e: log(k, "EXCEPTION", repr(e)); given[k] = False
        elif left and not ready: break
bad = [k for k in tasks if not given.get(k)]
log("ALL OK" if not bad else "FAILED: " + " ".join(f"{a}/{b}" for a, b in bad))

#!/usr/bin/env python3
"""Gives the program inputs that are changed at random: streams, batches, journals, filters and certificates.

No run may end by a signal or with a status that has no meaning, and a store that loads must load behind every run. A
certificate that is accepted must say what the unchanged one says.
Words of which one isn't UTF-8 must be answered by the usage, and a text that can't be printed by `write fault`. It
takes the program that PROJ names, or the built one, and builds that where it isn't there; INPUTS is how many inputs
are tried, SEED where the numbers begin.
"""
import os
import random
import shutil
import subprocess
import sys
import tempfile

CRATE = os.path.join(os.path.dirname(os.path.dirname(os.path.abspath(__file__))), "crates/proj")
PROJ = os.environ.get("PROJ") or os.path.join(CRATE, "out/proj")
INPUTS = int(os.environ.get("INPUTS", "1000"))
SEED = int(os.environ.get("SEED", "1"))
MAIN = "refs/heads/main"

STREAMS = [
    b"blob\nmark :1\ndata 6\nhello\n\ncommit refs/heads/main\nmark :2\nauthor A <a@x> 1700000000 +0000\n"
    b"committer A <a@x> 1700000000 +0000\ndata 4\ninitM 100644 :1 a/f\nM 100755 :1 \"\\303\\251.txt\"\n"
    b"M 160000 3b18e512dba79e4c8300dd08aeb37f8e728b8dad sub\n\n",
    b"commit refs/heads/main\ncommitter A <a@x> 1700000001 +0100\ndata 2\nc\nfrom refs/heads/main^0\n"
    b"deleteall\nM 120000 inline b/l\ndata 3\na/f\nR b/l b/m\nC b/m c/n/o\nD b/m\n\n",
    b"commit refs/heads/x\nmark :1\ncommitter A <a@x> 3 +0000\ndata 1\nx\n\ncommit refs/heads/y\nmark :2\n"
    b"committer A <a@x> 4 +0000\ndata 1\ny\n\ncommit refs/heads/x\ncommitter A <a@x> 5 +0000\ndata 1\nm\nfrom :1\n"
    b"merge :2\nM 644 inline a/b/c\ndata 0\n\nreset refs/heads/z\nfrom :2\n\ndone\n",
    b"feature done\nprogress p\nreset refs/heads/main\ncheckpoint\n# no command\ncommit refs/heads/main\n"
    b"committer A <a@x> 6 +0000\ndata 0\nM 100644 inline ws/workspace.josh\ndata 20\nx = :/a\ny = :[::b/]\n\ndone\n",
    b"reset refs/heads/t\nfrom refs/heads/main^0\ntag v1\nmark :1\nfrom refs/heads/t\noriginal-oid x\n"
    b"tagger A <a@x> 7 +0000\ndata 3\nv1\n\ntag rel/1.0\nfrom refs/heads/main\ntagger <> 8 -0100\ndata 0\n",
]
FILTERS = [
    b":/a", b"::a/", b"::a", b":prefix=lib", b":nop", b":[x=:/a,y=:/c]", b":exclude[::a/,::b]", b":/a:prefix=x:/x",
    b":workspace=ws", b":[::a/,:[z=:/b/c]]", b":/\"a b\"", b":[ x = :/a , # c\n y = :/b ]", b":[" * 17,
]
WORDS = [
    b"import", b"import --force", b"project", b"export", b"tags", b"push", b"name", b"rule 1", b"rule 2", b"batch",
    b"trial 1",
]
PIECES = [
    b"\n", b" ", b"\0", b"\"", b"\\", b"/", b":", b"[", b"]", b",", b"from ", b"merge :1\n", b"data 3\n", b"0",
    b"9" * 19, b"M 100644 inline a\ndata 1\nx\n", b"refs/heads/main", b"deleteall\n", b"bytes 4\n", b"\xff", b"..",
    b".git", b"\1",
]
random.seed(SEED)


def mutated(data):
    """The bytes, changed in some places."""
    data = bytearray(data)
    for _ in range(random.randint(1, 4)):
        at = random.randint(0, len(data))
        kind = random.randint(0, 5)
        if kind == 0 and data:
            data[min(at, len(data) - 1)] = random.randint(0, 255)
        elif kind == 1 and data:
            data[min(at, len(data) - 1)] ^= 1 << random.randint(0, 7)
        elif kind == 2:
            data[at:at] = random.choice(PIECES)
        elif kind == 3:
            del data[at:at + random.randint(1, 12)]
        elif kind == 4:
            del data[at:]
        else:
            start = random.randint(0, len(data))
            data[at:at] = data[start:start + random.randint(1, 40)]
    return bytes(data)


def entry(words, data):
    return words + b"\nbytes %d\n" % len(data) + data + b"\n"


def batch():
    parts = []
    for _ in range(random.randint(1, 5)):
        word = random.choice(WORDS)
        if word in (b"project", b"export", b"tags", b"push", b"name"):
            text = random.choice(FILTERS)
            if random.random() < 0.5:
                text = mutated(text)
            word = word + b" refs/heads/main " + text
        data = random.choice(STREAMS)
        parts.append(entry(word, mutated(data) if random.random() < 0.5 else data))
    data = b"".join(parts)
    return mutated(data) if random.random() < 0.3 else data


def fail(what, words, data):
    path = os.path.join(tempfile.gettempdir(), "proj-input")
    with open(path, "wb") as out:
        out.write(data)
    sys.exit("mutations: %s: %r with the input in %s (seed %d)" % (what, words, path, SEED))


def run(words, data):
    done = subprocess.run([PROJ] + words, input=data, stdout=subprocess.PIPE, stderr=subprocess.PIPE, check=False)
    if not 0 <= done.returncode <= 30:
        fail("status %d" % done.returncode, words, data)
    if (done.returncode == 0) != (done.stderr == b""):
        fail("status %d with the text %r" % (done.returncode, done.stderr), words, data)
    return done.returncode


def told(words, out=subprocess.PIPE):
    """The status and the text on the error stream."""
    done = subprocess.run([PROJ] + words, stdin=subprocess.DEVNULL, stdout=out, stderr=subprocess.PIPE, check=False)
    return done.returncode, done.stderr


def odd_words(work):
    """Words that are no text, and an output that takes nothing."""
    store = os.path.join(work, "none")
    usage = told([])
    if usage[0] != 2 or not usage[1].startswith(b"usage: "):
        fail("no words are told %r" % (usage,), [], b"")
    for words in ([b"\xff"], [store, b"\xff"], [store, "project", MAIN, b":/\xc3"], ["--help", b"\xff"]):
        if told(words) != usage or os.path.exists(store):
            fail("words that are no text are told %r" % (told(words),), words, b"")
    if os.path.exists("/dev/full"):
        with open("/dev/full", "wb") as full:
            for words in (["--help"], ["--version"]):
                if told(words, full) != (23, b"write fault\n"):
                    fail("an output that takes nothing", words, b"")


def certificates(store):
    """Certificates of the store, with the words that check each of them and what is said of it."""
    found = []
    line = subprocess.run([PROJ, store, "import", "--force"], input=STREAMS[3], stdout=subprocess.PIPE, check=True)
    commit = line.stdout.split()[1].decode()
    views = [(":nop", "ws/workspace.josh"), (":workspace=ws", "workspace.josh"), (":/ws", "none"), (":nop", "b")]
    for text, path in views:
        done = subprocess.run([PROJ, store, "audit", MAIN, text, path], stdout=subprocess.PIPE, check=True)
        words = ["verify", commit, text, path]
        said = subprocess.run([PROJ] + words, input=done.stdout, stdout=subprocess.PIPE, check=True).stdout
        found.append((words, done.stdout, said))
    return found


def verify(found):
    """Checks a changed certificate: it is refused, or says what the unchanged one says."""
    words, text, said = random.choice(found)
    text = mutated(text)
    done = subprocess.run([PROJ] + words, input=text, stdout=subprocess.PIPE, stderr=subprocess.PIPE, check=False)
    if done.returncode not in (0, 3, 30) or (done.returncode == 0) != (done.stderr == b""):
        fail("status %d with the text %r" % (done.returncode, done.stderr), words, text)
    if done.stdout != (said if done.returncode == 0 else b""):
        fail("a changed certificate says %r" % done.stdout, words, text)
    return done.returncode


def loads(store):
    """Whether the store loads: only then a ref is looked for in it."""
    return run([store, "project", "refs/heads/none", ":/a"], b"") == 8


def merge(store):
    """A filter, and a stream that merges what it shows of the store's branches, changed or not."""
    text = random.choice([":/a", "::a/", ":nop"])
    names = []
    for ref in (MAIN, "refs/heads/x", "refs/heads/z"):
        done = subprocess.run([PROJ, store, "project", ref, text], capture_output=True, check=False)
        if done.returncode == 0 and done.stdout != b"none\n":
            names.append(done.stdout)
    stream = b"commit refs/heads/main\nmark :1\ncommitter A <a@x> 9 +0000\ndata 1\nm\n"
    for line, name in zip([b"from "] + 2 * [b"merge "], names):
        stream += line + name
    stream += b"M 100644 inline a/merged\ndata 1\n1\n\ncommit refs/heads/main\ncommitter A <a@x> 9 +0000\ndata 1\nn\n"
    stream += b"from :1\nmerge " + random.choice(names + [b":1\n"]) + b"M 100644 inline a/n\ndata 0\n"
    return text, stream if random.random() < 0.3 else mutated(stream)


def build():
    """Builds the program where it isn't there."""
    if not os.access(PROJ, os.X_OK) and shutil.which("rt"):
        none = subprocess.DEVNULL
        subprocess.run(["rt", "run", "--", "name"], cwd=CRATE, stdin=none, stdout=none, stderr=none, check=False)
    if not os.access(PROJ, os.X_OK):
        sys.exit("mutations: the program is not built")


def main():
    build()
    work = tempfile.mkdtemp()
    try:
        odd_words(work)
        seeds = [os.path.join(work, "seed%d" % i) for i in range(3)]
        for seed in seeds:
            for stream in STREAMS:
                run([seed, "import", "--force"], stream)
            run([seed, "project", MAIN, ":/a"], b"")
        run([seeds[1], "rule", "2"], b"")
        run([seeds[1], "project", MAIN, ":[x=:/a,y=:/c]"], b"")
        journals = [open(seed, "rb").read() for seed in seeds]
        store = os.path.join(work, "store")
        shutil.copy(seeds[0], store)
        found = certificates(store)
        counts = {}
        for i in range(INPUTS):
            kind = i % 6
            if i % 600 == 0:
                shutil.copy(random.choice(seeds), store)
            if kind == 0:
                status = run([store, "import"] + random.choice([[], ["--force"]]), mutated(random.choice(STREAMS)))
            elif kind == 1:
                if random.random() < 0.5:
                    text, stream = merge(store)
                    status = run([store, "push", "--merges", MAIN, text], stream)
                else:
                    words = [store, "push", MAIN, random.choice([":/a", "::a/", ":nop"])]
                    status = run(words, mutated(random.choice(STREAMS)))
            elif kind == 2:
                status = run([store, "batch"], batch())
            elif kind == 3:
                other = os.path.join(work, "other")
                with open(other, "wb") as out:
                    out.write(mutated(random.choice(journals)))
                if not loads(other):
                    counts["refused journals"] = counts.get("refused journals", 0) + 1
                    continue
                status = run([other, "batch"], batch())
                if not loads(other):
                    fail("a journal that loaded does not", ["batch"], b"")
                continue
            elif kind == 5:
                status = verify(found)
            else:
                text = mutated(random.choice(FILTERS)).replace(b"\0", b"")
                words = random.choice([["project"], ["export"], ["export", "--tags"], ["tags"]])
                status = run([store] + words + [MAIN, text], b"")
            counts[status] = counts.get(status, 0) + 1
            if kind < 4 and not loads(store):
                fail("a store that loaded does not", ["status %d" % status], b"")
        counted = ", ".join("%s: %d" % (key, counts[key]) for key in sorted(counts, key=str))
        print("mutations: %d inputs, none ended by a signal, each store loads (%s)" % (INPUTS, counted))
    finally:
        shutil.rmtree(work)


main()

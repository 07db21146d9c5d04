#!/usr/bin/env python3
"""Tries the built program end to end, over real files: every form of words, each status, files at the limit of
length, names that cannot be read, and outputs that fail. It also runs the commands that README.md and docs/ show, and
compares what they print with what stands there.

    tests/end_to_end.py [PROGRAM]

PROGRAM is the built program, by default crates/wcet/out/wcet, which the merge gate and bin/wcet leave there. The last
line is 'N passed, M failed'. Expected lines were worked out by hand from docs/FORMATS.md and docs/MODEL.md.
"""
import os
import pathlib
import re
import shutil
import struct
import subprocess
import sys
import tempfile

TOP = pathlib.Path(__file__).resolve().parent.parent
PROGRAM = pathlib.Path(sys.argv[1] if len(sys.argv) > 1 else TOP / "crates/wcet/out/wcet").resolve()
EXAMPLES = TOP / "examples"
# The greatest length of a file, in bytes.
LONGEST = 16_777_216

# mov r0, #1 and svc 0, as bytes of a file of raw words.
TWO_WORDS = bytes.fromhex("0100a0e3 000000ef")

passed, failed = 0, 0


def judge(name, found, wanted):
    global passed, failed
    if found == wanted:
        passed += 1
    else:
        failed += 1
        print(f"FAILED: {name}\n  wanted {wanted!r}\n  found  {found!r}")


def run(words, **how):
    """Returns the status and what was printed on the standard output and error."""
    done = subprocess.run([str(PROGRAM), *words], stdin=subprocess.DEVNULL, stdout=subprocess.PIPE, stderr=subprocess.PIPE, timeout=100, **how)
    return done.returncode, done.stdout, done.stderr


def expect(name, words, status, line):
    """The program prints this one line and ends with this status, and writes nothing to the standard error."""
    judge(name, run(words), (status, line.encode() + b"\n", b""))


def put(name, content):
    pathlib.Path(name).write_bytes(content)


def try_forms():
    for words in [
        [], ["--help"], ["help"], ["Flat", "two.bin"], ["flat"], ["flat", "two.bin", "two.bin"], ["flat", "two.bin", "entry", "main"],
        ["run"], ["run", "a", "b", "c", "d"], ["run", "a", "b", "c", "d", "1", "2"], ["run", "a", "b", "c", "d", "1", "entry"],
        ["run", "a", "b", "c", "d", "1", "entry", "main", "x"], ["run", "a", "b", "c", "d", "1", "Entry", "main"],
        ["run", "a", "b", "c", "d", "01"], ["run", "a", "b", "c", "d", "-1"], ["run", "a", "b", "c", "d", ""],
        ["check"], ["check", "a", "b", "c"], ["check", "a", "b", "c", "d", "e"], ["check", "a", "b", "c", "d", "entry"],
        ["check", "a", "b", "c", "d", "entry", "main", "x"], ["check", "a", "b", "c", "d", "start", "main"], ["Check", "a", "b", "c", "d"],
        ["migrate"], ["migrate", "a"], ["migrate", "a", "b", "c"], ["migrate", "a", "b", "entry", "main"], ["Migrate", "a", "b"],
        ["run", "a", "b", "c", "d", "1000000001"], ["run", "a", "b", "c", "d", "ten"], [b"\xff"], ["flat", b"\xff\xfe"],
    ]:
        expect(f"form {words}", words, 1, "usage")


def try_flat():
    put("two.bin", TWO_WORDS)
    put("empty.bin", b"")
    put("short.bin", TWO_WORDS[:6])
    put("foreign.bin", b"\xff" * 4)
    put("longest.bin", TWO_WORDS + bytes(LONGEST - len(TWO_WORDS)))
    put("too-long.bin", TWO_WORDS + bytes(LONGEST + 1 - len(TWO_WORDS)))
    expect("flat", ["flat", "two.bin"], 0, "bound 20")
    expect("flat of no bytes", ["flat", "empty.bin"], 4, "image LeavesCode 00008000")
    expect("flat of a word and a half", ["flat", "short.bin"], 4, "image LeavesCode 00008004")
    expect("flat of a foreign word", ["flat", "foreign.bin"], 4, "image Unsupported 00008000 ffffffff")
    expect("flat of the longest file", ["flat", "longest.bin"], 0, "bound 20")
    expect("flat of one byte more", ["flat", "too-long.bin"], 10, "large file too-long.bin")


def try_names():
    os.mkdir("folder")
    expect("no such file", ["flat", "none.bin"], 2, "read none.bin")
    expect("a folder", ["flat", "folder"], 2, "read folder")
    expect("no name", ["flat", ""], 2, "read ")
    expect("a name with a line end", ["flat", "a\nb"], 2, "read a\nb")
    # It opens, and its first byte cannot be read.
    expect("a file that fails at the first read", ["flat", "/proc/self/mem"], 2, "read /proc/self/mem")
    if os.geteuid():
        put("closed.bin", TWO_WORDS)
        os.chmod("closed.bin", 0)
        expect("a file without permission", ["flat", "closed.bin"], 2, "read closed.bin")
    long_name = "n" * 200 + "/" + "m" * 200
    expect("a long name", ["flat", long_name], 2, "read " + long_name)
    expect("a file by an absolute name", ["flat", os.path.abspath("two.bin")], 0, "bound 20")


def run_words(**changed):
    """The words of a run of the example that sums, with some of them changed."""
    words = {"image": EXAMPLES / "sum/image.elf", "facts": EXAMPLES / "sum/facts.ffx", "machine": EXAMPLES / "m1.toml", "start": EXAMPLES / "sum/start.txt", "most": "10000"}
    entry = changed.pop("entry", None)
    words.update(changed)
    return ["run", *(str(words[it]) for it in ("image", "facts", "machine", "start", "most"))] + (["entry", entry] if entry is not None else [])


def try_run():
    expect("run to its end", run_words(), 0, "time 143 steps 55 end ended")
    expect("run of no instruction", run_words(most="0"), 0, "time 0 steps 0 end limit")
    expect("run of a billion at most", run_words(most="1000000000"), 0, "time 143 steps 55 end ended")
    expect("run of one function", run_words(start=EXAMPLES / "sum/function.txt", entry="sum"), 0, "time 61 steps 23 end ended")
    expect("run from a warm cache", run_words(start=EXAMPLES / "sum/warm.txt"), 0, "time 121 steps 55 end ended")
    expect("run that breaks a fact", run_words(facts=EXAMPLES / "sum/wrong.ffx"), 11, "breaks loop 00008014 28")
    expect("no such entry", run_words(entry="none"), 4, "image NoEntry none")
    expect("no executable", run_words(image="two.bin"), 4, "image Short 8")
    expect("a loop without a fact", run_words(facts=EXAMPLES / "none.ffx"), 4, "image LoopNoBound 00008014")
    expect("recursion", run_words(image=EXAMPLES / "recursion/image.elf", facts=EXAMPLES / "recursion/facts.ffx", start=EXAMPLES / "recursion/start.txt"), 4, "image Recursion 00008028")
    expect("facts of no bytes", run_words(facts="empty.bin"), 5, "facts Syntax 0")
    expect("a description of no bytes", run_words(machine="empty.bin"), 6, "machine Missing width")
    put("no-end.txt", b"wx-start 1\n")
    expect("a start without its end", run_words(start="no-end.txt"), 12, "start line 2")
    put("no-cache.txt", b"wx-start 1\nset 0 00000000 00000000\nend\n")
    expect("a start whose cache is none", run_words(start="no-cache.txt"), 12, "start set 0")
    # Files are read in the order of the words, and the first that fails decides, before any content is looked at.
    expect("the second file is missing", run_words(image="empty.bin", facts="none"), 2, "read none")
    expect("the first of two that are missing", run_words(facts="none", machine="nothing"), 2, "read none")
    expect("the last file is missing", run_words(image="empty.bin", start="none"), 2, "read none")
    expect("a long file before a missing one", run_words(image="too-long.bin", facts="none"), 10, "large file too-long.bin")
    expect("a missing file before a long one", run_words(image="none", facts="too-long.bin"), 2, "read none")
    expect("the image before the facts", run_words(image="empty.bin", facts="empty.bin"), 4, "image Short 0")


def elf_of(words, length=None):
    """An executable with these words of code from address 0x8000 on, where it begins; its file has the length."""
    code = b"".join(word.to_bytes(4, "little") for word in words)
    header = b"\x7fELF\x01\x01\x01" + bytes(9) + struct.pack("<HHIIIIIHHHHHH", 2, 40, 1, 0x8000, 52, 0, 0, 52, 32, 1, 0, 0, 0)
    load = struct.pack("<IIIIIIII", 1, 84, 0x8000, 0x8000, len(code), len(code), 5, 4)
    file = header + load + code
    return file + bytes((length or len(file)) - len(file))


def straight_time(count):
    """The time on the machine of the examples, from an empty cache, of so many moves and the call of the supervisor behind
    them: the recurrence of docs/MODEL.md for a width of 1 and a queue of 2, where each fourth fetch misses."""
    fetched = [0, 0]
    decoded = [0, 0]
    begun = ended = done = 0
    for number in range(count + 1):
        begin = max(fetched[-1], decoded[-2])
        fetched.append(max(begin + (9 if number % 4 == 0 else 1), fetched[-1]))
        decoded.append(max(fetched[-1], decoded[-1], begun))
        begun = max(decoded[-1] + 1, begun + 1)
        ended = begun + 1
        done = max(ended, done + 1)
        del fetched[:-2], decoded[:-2]
    return done


def try_sizes():
    move, end, call, push, pop, back = 0xE3A00000, 0xEF000000, 0xEB000000, 0xE92D4000, 0xE8BD8000, 0xE12FFF1E
    put("none.ffx", b"<flowfacts/>")
    put("cold.txt", b"wx-start 1\nend\n")

    def words(image, most="1000000000", **changed):
        return run_words(image=image, **{"facts": "none.ffx", "start": "cold.txt", "most": most, **changed})

    put("longest.elf", elf_of([move, end], LONGEST))
    put("too-long.elf", elf_of([move, end], LONGEST + 1))
    expect("the longest executable", words("longest.elf"), 0, "time 12 steps 2 end ended")
    expect("an executable of one byte more", words("too-long.elf"), 10, "large file too-long.elf")

    straight = 65535
    put("straight.elf", elf_of([move] * straight + [end]))
    expect("65,536 instructions that are reached", words("straight.elf"), 0, f"time {straight_time(straight)} steps {straight + 1} end ended")

    # Each function saves lr, calls the next one, which stands behind it, and returns; sp begins above the code.
    depth = 3000
    put("deep.elf", elf_of([call, end] + [push, call, pop] * depth + [back]))
    put("stack.txt", b"wx-start 1\nreg 13 40000000\nend\n")
    status, line, error = run(words("deep.elf", start="stack.txt"))
    judge("3,000 open calls", (status, line.split()[2:], error), (0, [b"steps", b"%d" % (3 * depth + 3), b"end", b"ended"], b""))

    put("two.elf", elf_of([move, end]))
    put("sets.toml", (EXAMPLES / "m1.toml").read_bytes().replace(b"sets = 2", b"sets = 1024"))
    put("sets.txt", b"wx-start 1\n" + b"".join(b"set %d %08x\n" % (number, number + 1024 * (number == 0) * 2) for number in range(1024)) + b"end\n")
    expect("a cache of 1,024 sets", words("two.elf", machine="sets.toml", start="sets.txt"), 0, "time 4 steps 2 end ended")
    put("bytes.txt", b"wx-start 1\n" + b"".join(b"byte %08x 5a\n" % (0x20000000 + place) for place in range(65536)) + b"end\n")
    expect("a start of 65,536 bytes", words("two.elf", start="bytes.txt"), 0, "time 12 steps 2 end ended")
    put("loops.ffx", b"<flowfacts>" + b"".join(b'<loop address="0x%x" maxcount="1"/>' % (0x10000 + 4 * place) for place in range(65536)) + b"</flowfacts>")
    expect("facts on 65,536 loops", words("two.elf", facts="loops.ffx"), 0, "time 12 steps 2 end ended")

    expect("an entry's name of a kilobyte", words("two.elf", entry="n" * 1024), 4, "image NoEntry " + "n" * 1024)
    long_name = "/".join(["d" * 200] * 5) + "/two.bin"
    os.makedirs(os.path.dirname(long_name))
    put(long_name, TWO_WORDS)
    expect("a file's name of a kilobyte", ["flat", long_name], 0, "bound 20")


def try_outputs():
    with open("/dev/full", "wb") as full:
        done = subprocess.run([str(PROGRAM), "flat", "two.bin"], stdout=full, stderr=subprocess.PIPE, timeout=100)
        judge("an output that is full", (done.returncode, done.stderr), (3, b""))
    done = subprocess.run(["sh", "-c", 'exec "$0" flat two.bin >&-', str(PROGRAM)], stderr=subprocess.PIPE, timeout=100)
    judge("an output that is closed", (done.returncode, done.stderr), (3, b""))
    done = subprocess.run(["sh", "-c", 'exec "$0" flat two.bin <&-', str(PROGRAM)], stdout=subprocess.PIPE, timeout=100)
    judge("an input that is closed", (done.returncode, done.stdout), (0, b"bound 20\n"))
    with open("line.txt", "wb") as out:
        done = subprocess.run([str(PROGRAM), "flat", "two.bin"], stdout=out, timeout=100)
    judge("an output that is a file", (done.returncode, pathlib.Path("line.txt").read_bytes()), (0, b"bound 20\n"))


# The certificate of a loop of two nodes and the words around it, in both versions.
CERT_ONE = b"""wx-cert 1
node 0 1
vec 42
node 1 2
vec 5
vec 5 11:1 14:2 16:2 19:2
node 2 1
vec 3 11:1 14:2 16:2 19:1 34:1
charge 00000800 run 8
multiplier 0 4
bound 50
end
"""
CERT_TWO = b"""wx-cert 2
vectors 3
v
v 11:1 14:2 16:2 19:1 34:1
v 11:1 14:2 16:2 19:2
node 0 42:0
node 1 5:0 5:2
node 2 3:1
charge 00000800 run 8
multiplier 0 4
bound 50
end
"""


def migrate(name, words, status, line, **files):
    """Migrates, and compares what files hold afterwards; None is a file that is not there."""
    expect(name, ["migrate", *words], status, line)
    for file, content in files.items():
        path = pathlib.Path("certs") / file
        judge(f"{name}: {file}", path.read_bytes() if path.exists() else None, content)
    judge(f"{name}: nothing else is left", [path.name for path in pathlib.Path("certs").glob(".wcet*")], [])


def try_migrate():
    os.mkdir("certs")
    put("certs/one", CERT_ONE)
    migrate("migrate version 1", ["certs/one", "certs/new"], 0, "migrated 3 3", one=CERT_ONE, new=CERT_TWO)
    migrate("migrate version 2 over a file", ["certs/new", "certs/new"], 0, "migrated 3 3", new=CERT_TWO)
    migrate("migrate a file over itself", ["certs/one", "certs/one"], 0, "migrated 3 3", one=CERT_TWO)
    put("certs/one", CERT_ONE[:-4])
    migrate("migrate a certificate that is cut off", ["certs/one", "certs/new"], 7, "certificate NoEnd", one=CERT_ONE[:-4], new=CERT_TWO)
    put("certs/one", CERT_ONE.replace(b"bound 50", b"bound 050"))
    migrate("migrate a bad number over itself", ["certs/one", "certs/one"], 7, "certificate Number 11", one=CERT_ONE.replace(b"bound 50", b"bound 050"))
    put("certs/one", CERT_TWO.replace(b"vectors 3", b"vectors 4").replace(b"19:2\n", b"19:2\nv 11:1 14:2 16:2 19:2\n"))
    migrate("migrate a vector given twice", ["certs/one", "certs/other"], 7, "certificate Order 6", other=None)
    migrate("migrate no certificate", ["two.bin", "certs/other"], 7, "certificate Syntax 0", other=None)
    migrate("migrate no file", ["certs/none", "certs/other"], 2, "read certs/none", other=None)
    migrate("migrate a file that is too long", ["too-long.bin", "certs/other"], 10, "large file too-long.bin", other=None)
    put("certs/one", CERT_ONE)
    migrate("migrate into a folder that is not there", ["certs/one", "certs/none/new"], 3, "write certs/none/new", one=CERT_ONE)
    migrate("migrate over a folder", ["certs/one", "certs"], 3, "write certs", one=CERT_ONE)
    migrate("migrate onto a full device", ["certs/one", "/dev/full"], 3, "write /dev/full", one=CERT_ONE)
    if os.geteuid():
        put("certs/closed", CERT_TWO)
        os.chmod("certs/closed", 0o444)
        migrate("migrate over a file without permission", ["certs/one", "certs/closed"], 3, "write certs/closed", closed=CERT_TWO)
    with open("/dev/full", "wb") as full:
        done = subprocess.run([str(PROGRAM), "migrate", "certs/one", "certs/kept"], stdout=full, stderr=subprocess.PIPE, timeout=100)
    judge("migrate with an output that is full", (done.returncode, done.stderr, pathlib.Path("certs/kept").read_bytes()), (3, b"", CERT_TWO))


def with_symbol(name, value, words):
    """An executable with these words of code from address 0x8000 on, where it begins, and one symbol."""
    code = b"".join(word.to_bytes(4, "little") for word in words)
    names = b"\0" + name.encode() + b"\0"
    symbols = bytes(16) + struct.pack("<IIIBBH", 1, value, 8, 0x12, 0, 1)
    at = 84 + len(code)
    sections = bytes(40) + struct.pack("<10I", 0, 2, 0, 0, at, len(symbols), 2, 1, 4, 16) + struct.pack("<10I", 0, 3, 0, 0, at + len(symbols), len(names), 0, 0, 1, 0)
    header = b"\x7fELF\x01\x01\x01" + bytes(9) + struct.pack("<HHIIIIIHHHHHH", 2, 40, 1, 0x8000, 52, at + len(symbols) + len(names), 0, 52, 32, 1, 40, 3, 0)
    load = struct.pack("<IIIIIIII", 1, 84, 0x8000, 0x8000, len(code), len(code), 5, 4)
    return header + load + code + symbols + names + sections


def check_words(**changed):
    """The words of a check of the loop's certificate, with some of them changed."""
    words = {"image": "checked/image", "facts": "checked/facts", "machine": EXAMPLES / "m1.toml", "certificate": "checked/one"}
    entry = changed.pop("entry", None)
    words.update(changed)
    return ["check", *(str(words[it]) for it in ("image", "facts", "machine", "certificate"))] + (["entry", entry] if entry is not None else [])


def try_check():
    os.mkdir("checked")
    put("checked/image", elf_of([0xE3A0000A, 0xE2500001, 0x1AFFFFFD, 0xEF000000]))
    put("checked/facts", b'<flowfacts><loop address="0x8004" maxcount="9"/></flowfacts>')
    put("checked/one", CERT_ONE)
    put("checked/two", CERT_TWO)
    expect("check version 1", check_words(), 0, "bound 50")
    expect("check version 2", check_words(certificate="checked/two"), 0, "bound 50")
    put("checked/low", CERT_ONE.replace(b"vec 42", b"vec 41"))
    expect("a certificate that pays too little", check_words(certificate="checked/low"), 8, "rejected 3 0 0")
    put("checked/less", CERT_ONE.replace(b"bound 50", b"bound 49"))
    expect("a certificate with a lower bound", check_words(certificate="checked/less"), 8, "rejected 5 0 0")
    expect("a certificate of another program", check_words(image="two.elf", facts="none.ffx"), 8, "rejected 0 0 0")
    put("checked/cut", CERT_ONE[:-4])
    expect("a certificate that is cut off", check_words(certificate="checked/cut"), 7, "certificate NoEnd")
    expect("no certificate", check_words(certificate="two.bin"), 7, "certificate Syntax 0")
    # The function `two` lies behind the image's entry and takes one cycle more than what stands there.
    put("checked/two.elf", with_symbol("two", 0x8004, [0xEF000000, 0xE3A00001, 0xEF000000]))
    put("checked/11", b"wx-cert 1\nnode 0 1\nvec 3\ncharge 00000800 run 8\nbound 11\nend\n")
    put("checked/12", b"wx-cert 1\nnode 0 1\nvec 4\ncharge 00000800 run 8\nbound 12\nend\n")
    two = {"image": "checked/two.elf", "facts": "none.ffx"}
    expect("check from the image's entry", check_words(**two, certificate="checked/11"), 0, "bound 11")
    expect("check from a named entry", check_words(**two, certificate="checked/12", entry="two"), 0, "bound 12")
    expect("a certificate for another entry", check_words(**two, certificate="checked/11", entry="two"), 8, "rejected 2 0 0")
    expect("no such entry to check from", check_words(entry="two"), 4, "image NoEntry two")
    expect("check of no executable", check_words(image="two.bin"), 4, "image Short 8")
    expect("check of a loop without a fact", check_words(facts="none.ffx"), 4, "image LoopNoBound 00008004")
    expect("check with facts of no bytes", check_words(facts="empty.bin"), 5, "facts Syntax 0")
    expect("check with a description of no bytes", check_words(machine="empty.bin"), 6, "machine Missing width")
    expect("check with no certificate's file", check_words(image="empty.bin", certificate="none"), 2, "read none")
    expect("check with a certificate that is too long", check_words(image="empty.bin", certificate="too-long.bin"), 10, "large file too-long.bin")
    put("checked/long", elf_of([0xEAFFFFFF] * 4095 + [0xEF000000]))
    expect("a program of 4,096 nodes", check_words(image="checked/long", facts="none.ffx"), 8, "rejected 0 0 0")
    put("checked/longer", elf_of([0xEAFFFFFF] * 4096 + [0xEF000000]))
    expect("a program of 4,097 nodes", check_words(image="checked/longer", facts="none.ffx"), 10, "large nodes")
    with open("/dev/full", "wb") as full:
        done = subprocess.run([str(PROGRAM), *check_words()], stdout=full, stderr=subprocess.PIPE, timeout=100)
        judge("check with an output that is full", (done.returncode, done.stderr), (3, b""))


def sessions(text):
    """Gives each command that a document shows, with the lines that it shows as printed."""
    command, lines = None, []
    for line in text.splitlines() + [""]:
        shown = re.match(r"    \$ (.*)", line)
        if shown or not line.startswith("    "):
            if command:
                yield command, lines
            command, lines = shown and shown.group(1), []
        else:
            lines.append(line[4:])


def try_documents():
    os.mkdir("bin")
    os.symlink(EXAMPLES, "examples")
    put("bin/wcet", f'#!/bin/sh\nexec "{PROGRAM}" "$@"\n'.encode())
    os.chmod("bin/wcet", 0o755)
    for document in [TOP / "README.md", *sorted((TOP / "docs").glob("*.md"))]:
        for command, lines in sessions(document.read_text()):
            done = subprocess.run(["sh", "-c", command], stdout=subprocess.PIPE, stderr=subprocess.STDOUT, timeout=100)
            judge(f"{document.name}: {command}", done.stdout.decode(errors="replace").splitlines(), lines)


def main():
    if not PROGRAM.is_file():
        print(f"no program at {PROGRAM}: run rt ci or bin/wcet first\n0 passed, 1 failed")
        return 1
    room = tempfile.mkdtemp()
    try:
        os.chdir(room)
        for group in (try_forms, try_flat, try_names, try_run, try_sizes, try_outputs, try_migrate, try_check, try_documents):
            group()
    finally:
        os.chdir("/")
        shutil.rmtree(room)
    print(f"{passed} passed, {failed} failed")
    return 1 if failed else 0


if __name__ == "__main__":
    sys.exit(main())

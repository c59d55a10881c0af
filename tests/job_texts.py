"""Tests the texts and the files of jobs: ./magpierack job write, read and check. Their bytes are held against those written in cases.py,
their numbers against the library's and the program's. What is written is written whole or not at all, and never over what was read."""
import os
import random
import re
import resource
import shutil
import subprocess
import threading

from c_examples import library_says
from cases import (
    FILM, GREATEST_AMOUNT, GREATEST_FRAME, LISTING, MAGPIERACK, NODE, PROGRAM, call, coded, expect_kept, extreme_jobs, listed,
    output_folder, random_job, run, told)
from tally import BOUND, ROOT, settle

import files  # From tools/, which cases.py puts on the path.

DONE = (0, b"", "")


def test_round_trip(folder):
    """Text to bytes to text to bytes: the bytes are those written here, and the second text is the first that was read back."""
    rng = random.Random(7)
    cases = [(f"random job {k}", *random_job(rng)) for k in range(60)] + list(extreme_jobs())
    wild = [[rng.randrange(256), rng.randrange(65_536), rng.randrange(2**64), rng.randrange(2**64)] for _ in range(63)]
    cases.append(("fields that fit and break the rules", wild, [2**32 - 1, 0, 5]))
    text, bytes_, again, more = (folder / name for name in ("a.txt", "a.job", "b.txt", "b.job"))
    for name, records, frames in cases:
        text.write_text(told(records, frames))
        steps = ("write", text, bytes_), ("read", bytes_, again), ("write", again, more)
        statuses = [call("job", *step)[0] for step in steps]
        settle(f"{name}, bytes", bytes_.read_bytes() == coded(records, frames), bytes_.read_bytes()[:99])
        settle(f"{name}, round trip", more.read_bytes() == bytes_.read_bytes(), more.read_bytes()[:99])
        first = again.read_bytes()
        call("job", "read", more, again)
        expected = 1 if records is wild else 0
        settle(f"{name}, second text", (again.read_bytes(), set(statuses)) == (first, {expected}), statuses)
    for name in (LISTING, FILM):
        call("job", "read", name, again)
        settle(f"{name.name}, back and forth", call("job", "write", again, more) == DONE and more.read_bytes() == name.read_bytes())


def test_examples(folder):
    """The examples' jobs are their texts written."""
    settle("film.txt is what film.py prints", run(ROOT / "examples/film.py")[1] == (ROOT / "examples/film.txt").read_bytes())
    for name in ("film", "short"):
        done = call("job", "write", ROOT / f"examples/{name}.txt", folder / "example.job")
        same = (folder / "example.job").read_bytes() == (ROOT / f"examples/{name}.job").read_bytes()
        settle(f"{name}.job is {name}.txt written", done == DONE and same, done)


# A text, the line that is wrong, and what is said of it.
WRONG = [
    ("", 1, "no film"),
    (NODE, 1, "no film"),
    (f"{NODE}\nfilms a\n", 2, "'films a' is not understood"),
    (f"{NODE}\nframes 3\n", 2, "not understood"),
    ("node\nframes\n1", 1, "number is missing"),
    ("node 0 parent 0 delay 0 memory 4 rate 5\nframes\n1", 1, "node 0 is the root"),
    ("node 255 parent 0 delay 0 memory 4 rate 5\nframes\n1", 1, "node 255 can't be counted"),
    ("node 256 parent 0 delay 0 memory 4 rate 5\nframes\n1", 1, "node 256 does not fit in 1 byte, which"),
    ("node one parent 0 delay 0 memory 4 rate 5\nframes\n1", 1, "node 'one' is not a whole number"),
    (f"# a\n\n{NODE}\n{NODE}\nframes\n1", 4, "node 1 has a line already, t.txt:3"),
    (f"{NODE}\nnode 3 parent 1 delay 0 memory 4 rate 5\nframes\n1", 2, "node 3 has a line, but node 2 has none"),
    ("node 1 delay 0 memory 4 rate 5\nframes\n1", 1, "parent is missing"),
    ("node 1\nframes\n1", 1, "parent is missing"),
    ("node 1 parent 0 delay 0 memory 4 rate\nframes\n1", 1, "rate has no number"),
    (f"{NODE} rate 6\nframes\n1", 1, "rate is given twice"),
    (f"{NODE} speed 6\nframes\n1", 1, "'speed' is not one of parent, delay, memory, rate"),
    ("node 1 parent -1 delay 0 memory 4 rate 5\nframes\n1", 1, "parent '-1' is not a whole number"),
    ("node 1 parent 256 delay 0 memory 4 rate 5\nframes\n1", 1, "parent 256 does not fit in 1 byte, which holds at most 255"),
    ("node 1 parent 0 delay 65536 memory 4 rate 5\nframes\n1", 1, "delay 65536 does not fit in 2 bytes, which hold at most 65535"),
    (f"node 1 parent 0 delay 0 memory {2**64} rate 5\nframes\n1", 1, "does not fit in 8 bytes"),
    (f"node 1 parent 0 delay 0 memory 4 rate {'9' * 5_000}\nframes\n1", 1, "does not fit in 8 bytes"),
    ("node 1 parent 0 delay 0 memory 4.5 rate 5\nframes\n1", 1, "memory '4.5' is not a whole number"),
    ("node 1 parent 0 delay 0 memory \u0664 rate 5\nframes\n1", 1, "is not a whole number"),
    (f"{NODE}\nframes\n7\n\n# no size\nN/A\n", 6, "size 'N/A' is not a whole number"),
    (f"{NODE}\nframes\n7\n{2**32}\n", 4, "size 4294967296 does not fit in 4 bytes"),
    (f"{NODE}\nframes\n7 8\n", 3, "size '7 8' is not a whole number"),
    (f"{NODE}\r\nframes\r\n7\r\n1,000\r\n", 4, "size '1,000' is not a whole number"),
    (f"{NODE}\nframes\n7\n{NODE}\n", 4, "is not a whole number"),
    (f"{NODE}\nfilm\n", 2, "the film's file is missing"),
    (f"{NODE}\nfilm none.txt\n", 2, "none.txt: can't be read: No such file or directory"),
    (f"film sizes.txt\n{NODE}\nframes\n7\n", 3, "the film is given already, t.txt:1"),
    (f"{NODE}\nfilm .\n", 2, "can't be read: Is a directory"),
    (f"{NODE}\nfilms \x1b[1m\x07\n", 2, r"'films \x1b[1m\x07' is not understood"),
]
# The same of films: lines below the line 'frames', which is the second.
WRONG_FILMS = [
    ("4\nframe,video,123\n", 4, "size 'frame,video,123' is not a whole number; a line has one size"),
    ("4,5\n", 3, "size '4,5' is not a whole number; a line has one size"),
    ("frame|pkt_size=1|size=2\n", 3, "a line has one size"),
    ("frame|stream_index=0|key_frame=1\n", 3, "a line has one size"),
    ("frame,side_data,\n", 3, "a line has one size"),
    ("pkt_size=\n", 3, "size '' is not a whole number"),
    ("pkt_size=N/A\n", 3, "size 'N/A' is not a whole number"),
    ("frame|media_type=audio|pkt_size=1\n", 3, "a frame of audio, not of video; give ffprobe '-select_streams v:0'"),
    ("packet|codec_type=subtitle|size=1\n", 3, "a frame of subtitle, not of video"),
    ("[FRAME]\npkt_size=4\n[/FRAME]\n[FRAME]\nmedia_type=audio\npkt_size=4\n[/FRAME]\n", 7, "a frame of audio, not of video"),
    ("[PACKET]\nsize=1\n[/PACKET]\n[PACKET]\ncodec_type=data\nsize=4\n[/PACKET]\n", 7, "a frame of data, not of video"),
    ("4\n[FRAME]\nmedia_type=video\n[/FRAME]\n5\n", 4, "[FRAME] has no line 'size=' or 'pkt_size='"),
    ("[PACKET]\n[SIDE_DATA]\nsize=9\n[/SIDE_DATA]\n[/PACKET]\n", 3, "[PACKET] has no line 'size='"),
    ("[FRAME]\npkt_size=x\n[/FRAME]\n", 4, "size 'x' is not a whole number"),
    ("[FRAME]\n4\n[/FRAME]\n", 3, "[FRAME] has no line"),
    ("[/FRAME]\n", 3, "size '[/FRAME]' is not a whole number"),
    ("[FRAME]\npkt_size=4\n[FRAME]\npkt_size=9\n[/FRAME]\n", 3, "[FRAME] is not ended by [/FRAME]"),
    ("4\n[PACKET]\nsize=4\n", 4, "[PACKET] is not ended by [/PACKET]"),
]


def test_errors(folder):
    """Each error names the file and the line, and nothing is written."""
    (folder / "sizes.txt").write_text("7\n8\n")
    (folder / "bad-sizes.txt").write_text("7\n8\nx\n")
    out = folder / "out.job"
    out.write_bytes(b"as it was")
    for text, line, what in WRONG + [(f"{NODE}\nframes\n{film}", line, what) for film, line, what in WRONG_FILMS]:
        (folder / "t.txt").write_text(text)
        status, printed, said = call("job", "write", "t.txt", out, cwd=folder)
        right = (status, printed) == (2, b"") and said.startswith(f"t.txt:{line}: ") and what in said and said.count("\n") == 1
        settle(f"wrong text {text[:90]!r}", right and len(said) < 600 and out.read_bytes() == b"as it was", (status, said))
    (folder / "t.txt").write_text(f"{NODE}\nfilm bad-sizes.txt\n")
    done = call("job", "write", "t.txt", out, cwd=folder)
    settle("an error in the film's file", done == (2, b"", "bad-sizes.txt:3: size 'x' is not a whole number\n"), done)
    for words in (("write", "none", out), ("read", "none", out), ("check", "none")):
        done = call("job", *words, cwd=folder)
        settle(f"{words[0]} of no file", done == (2, b"", "none: can't be read: No such file or directory\n"), done)
    (folder / "t.txt").write_text(f"{NODE}\nframes\n1\n")
    done = call("job", "write", "t.txt", folder / "t.txt", cwd=folder)
    settle("the text isn't overwritten", done[0] == 2 and (folder / "t.txt").read_text()[0] == "n", done)
    done = call("job", "write", "t.txt", folder, cwd=folder)
    settle("a folder as output", done == (2, b"", f"{folder}: can't be written: Is a directory\n"), done)


def test_usage(folder):
    """Wrong words get status 2 and one line, which names the help."""
    own = output_folder(folder, "usage")
    for words, what in (
        ((), "required: ACTION"),
        (("write",), "required: TEXT, JOB"),
        (("write", "a.txt"), "required: JOB"),
        (("write", "a.txt", "b.job", "c.job"), "unrecognized arguments: c.job"),
        (("make", "a.txt", "b.job"), "invalid choice: 'make'"),
        (("check",), "required: JOB"),
        (("check", "--all", "a.job"), "unrecognized arguments: --all"),
    ):
        expect_kept(f"usage of {words}", own, what, call, "job", *words)
        settle(f"usage of {words} names the help", "--help' tells more\n" in call("job", *words, cwd=own)[2])
    for words in (("--help",), ("job", "-h"), ("job", "write", "--help")):
        status, out, said = call(*words)
        settle(f"help of {words}", (status, said) == (0, "") and b"./magpierack job write examples/film.txt film.job" in out, out)
    settle("the help shows a text", b"node 1  parent 0" in run(MAGPIERACK, "job", "write", "--help")[1])


def test_forms(folder):
    """Other ways to write the same job."""
    expected = coded([(0, 0, 4, 5), (0, 1, 6, 7)], [4, 10, 1])
    other = "node 2 rate 7 memory 6 delay 1 parent 0"
    (folder / "sizes.txt").write_text("size=4\npkt_size=10\n1")
    (folder / "my film").write_text("# three sizes\n4\n10\n\n1\n")
    forms = {
        "nodes and fields in another order": f"{other}\n{NODE}\nframes\n4\n10\n1\n",
        "a delay left out": f"node 1 parent 0 memory 4 rate 5\n{other}\nframes\n4\n10\n1\n",
        "spaces, zeros and comments": f"\t{NODE}   # a box\n  {other} # a screen\n frames #\n 04 # first\n\n 10\n# 5\n1",
        "lines of Windows": f"\ufeff{NODE}\r\n{other}\r\nframes\r\n4\r\n10\r\n1\r\n",
        "a film of its own": f"{NODE}\n{other}\nfilm sizes.txt\n",
        "a film before the tree": f"film sizes.txt\n{NODE}\n{other}\n",
        "a film's name with a space, and a comment": f"{NODE}\n{other}\nfilm my film   # three sizes\n",
    }
    for name, text in forms.items():
        (folder / "t.txt").write_bytes(text.encode())
        done = call("job", "write", folder / "t.txt", folder / "t.job", cwd="/")
        settle(name, done == DONE and (folder / "t.job").read_bytes() == expected, done)
    for left, record in (("", (0, 0, 0, 0)), ("delay 3", (0, 3, 0, 0)), ("memory 3", (0, 0, 3, 0)), ("rate 3", (0, 0, 0, 3))):
        done = call("job", "write", "-", "-", stdin=f"node 1 {left} parent 0\nframes\n9".encode())
        settle(f"what is left out is 0, {left}", done == (0, coded([record], [9]), ""), done)
    (folder / "t.txt").write_text(f"{NODE}\n{other}\nfilm -\n")
    done = run(MAGPIERACK, "job", "write", folder / "t.txt", "-", stdin=b"4\n10\n1\n")
    settle("a film on standard input", done == (0, expected, ""), done)
    for words in (("-", "-"), ("/dev/stdin", "-")):
        done = run(MAGPIERACK, "job", "write", *words, stdin=forms["lines of Windows"].encode())
        settle(f"standard input as {words[0]}, and output", done == (0, expected, ""), done)
    status, out, said = run(MAGPIERACK, "job", "read", "-", "-", stdin=expected)
    settle("read from standard input", (status, said) == (0, "") and call("job", "write", "-", "-", stdin=out)[1] == expected, out)
    status, out, said = call("job", "write", "-", "-", stdin=b"film -")
    settle("text and film on standard input", (status, out) == (2, b"") and said.startswith("standard input:1: "), said)


# The sizes 4, 10 and 1 as ffprobe prints them.
FILMS = {
    "numbers, commas at the end": "4,\n\n10,\n1\n",
    "csv of frames": "frame,4\nframe,10,\nframe,1\n",
    "csv of packets": "packet,4\npacket,10,\npacket,1\n",
    "csv with side data": "frame,4,side_data,\n\nframe,10\nframe,1,side_data,\nside_data,\n\n",
    "csv with side data of a kind": "frame,4,side_data,H.26[45] User Data Unregistered SEI message\nframe,10\nside_data,5\nframe,1\n",
    "compact of frames": "frame|pkt_size=4\nframe|pkt_size=10\nframe|pkt_size=1\n",
    "compact of packets": "packet|size=4\npacket|size=10\npacket|size=1\n",
    "compact with side data": "frame|pkt_size=4|side_data|\nside_data|\n\nframe|pkt_size=10|side_data|size=7\nframe|pkt_size=1\n",
    "compact without names": "frame|4\n10|\n\n1\n",
    "compact with several fields": "frame|media_type=video|pkt_size=4|width=128\npkt_size=10|pict_type=B\nkey_frame=0|pkt_size=1\n",
    "sections of frames": """[FRAME]
media_type=video
stream_index=0
pkt_size=4
width=128
[SIDE_DATA]
side_data_type=H.26[45] User Data Unregistered SEI message
size=99
[/SIDE_DATA]
pict_type=I
[/FRAME]
[FRAME]
[SIDE_DATA]
[/SIDE_DATA]
pkt_size=10
[/FRAME]
[FRAME]
pkt_size=1
[/FRAME]
""",
    "sections of packets": "[PACKET]\ncodec_type=video\nsize=4\n[/PACKET]\n[PACKET]\nsize=10\npos=48\n[/PACKET]\n1\n",
    "sections of Windows": "[PACKET]\r\nsize=4\r\n[/PACKET]\r\n\r\n[PACKET]\r\nsize= 10\r\n[/PACKET]\r\n1\r\n",
}


def test_films(folder):
    """The sizes of a film as ffprobe prints them, below 'frames' and in a file of their own."""
    expected = coded([(0, 0, 4, 5)], [4, 10, 1])
    for name, film in FILMS.items():
        (folder / "film.sizes").write_bytes(film.encode())
        for text in (f"{NODE}\nframes\n{film}", f"{NODE}\nfilm film.sizes\n"):
            (folder / "t.txt").write_bytes(text.encode())
            done = call("job", "write", folder / "t.txt", "-")
            settle(f"{name}, {text[len(NODE) + 1:].split()[0]}", done == (0, expected, ""), done)


# What a command reads, and the command, whose output is to follow.
WRITERS = [
    ("a.txt", ["job", "write", "a.txt"]),
    ("sizes", ["job", "write", "a.txt"]),
    ("a.job", ["job", "read", "a.job"]),
    ("a.job", ["job", "put-back", "a.job"]),
    ("a.job", ["plan", "a.job", "--csv", "--out"]),
    ("a.job", ["picture", "a.job", "1", "--out"]),
]


def test_same_file(folder):
    """No command writes over what it reads, by whatever name."""
    own = output_folder(folder, "same")
    what = "the same file as the input "
    for k, (name, words) in enumerate(WRITERS):
        (own / f"symbolic{k}").symlink_to(name)
        os.link(own / name, own / f"hard{k}")
        for other in (name, f"./{name}", f"../same/{name}", own / name, f"symbolic{k}", f"hard{k}"):
            expect_kept(f"{words[:2]} of {name} over itself as {other}", own, what, call, *words, other)
        with open(own / name, "ab") as end:
            expect_kept(f"{words[:2]} of {name} to its end", own, what, call, *words, "-", out=end)
    for words in (["job", "check", LISTING, "a.job"], ["table", "a.job"], ["plan", "a.job"]):
        with open(own / "a.job", "ab") as end:
            expect_kept(f"{words[0]} to the end of the job", own, what, call, *words, out=end)
    for name in ("-", "/dev/stdin"):
        with open(own / "a.job", "rb") as start:
            done = subprocess.run([MAGPIERACK, "job", "read", name, "a.job"], stdin=start, capture_output=True, cwd=own)
        kept = (own / "a.job").read_bytes() == FILM.read_bytes()
        settle(f"a job on standard input, {name}, over itself", done.returncode == 2 and kept and what.encode() in done.stderr, done)


def test_whole_or_not(folder):
    """A write that fails leaves the file that was there, or none, and nothing beside it."""
    own = output_folder(folder, "whole")
    (own / "old").write_text("as it was")
    (own / "long.txt").write_text(told([(0, 0, 4, 5)], range(500)))

    def small():
        resource.setrlimit(resource.RLIMIT_FSIZE, (1_000, 1_000))

    for words in (["job", "write", "long.txt"], ["job", "read", "a.job"], ["picture", "a.job", "1", "--out"]):
        for out in ("old", "new"):
            what = f"{out}: can't be written: File too large"
            expect_kept(f"{words[:2]} to {out} past the most bytes of a file", own, what, call, *words, out, before=small)
        expect_kept(f"{words[:2]} to no folder", own, "none/new: can't be written: no file can be made in ", call, *words, "none/new")
    for words in (["job", "write", "long.txt", "-"], ["job", "check", "a.job"], ["picture", "a.job", "1"], ["table", "a.job"], ["--help"]):
        with open("/dev/full", "wb") as full:
            expect_kept(f"{words[:2]} to a full output", own, "standard output: can't be written: No space left", call, *words, out=full)
    # A process that meets the modes must reach the tools.
    shutil.copy(MAGPIERACK, own)
    shutil.copytree(ROOT / "tools", own / "tools")
    folder.chmod(0o755)
    script = own / "magpierack"
    if run(script, "--help", **BOUND)[0] != 0:
        print("files and folders that can't be written: LEFT OUT, as nobody can't run the tools here")
        return
    words = (script, "job", "write", "a.txt")
    own.chmod(0o555)
    expect_kept("a folder that can't be written", own, "new: can't be written: no file can be made in ", run, *words, "new", **BOUND)
    own.chmod(0o777)
    (own / "old").chmod(0o444)
    expect_kept("a file that can't be written", own, "old: can't be written: Permission denied", run, *words, "old", **BOUND)


def test_modes(folder):
    """A new file's mode is by the umask, a file that was there keeps its own, and a link stays one."""
    own = output_folder(folder, "modes")
    expected = coded([(0, 0, 4, 5)], [4, 10])
    (own / "old").write_text("as it was")
    (own / "old").chmod(0o604)
    (own / "link").symlink_to("old")
    (own / "loose").symlink_to("made")
    for name, real, mode in (("new", "new", 0o640), ("old", "old", 0o604), ("link", "old", 0o604), ("loose", "made", 0o640)):
        done = call("job", "write", "a.txt", name, cwd=own, before=lambda: os.umask(0o027))
        found = (own / real).stat().st_mode & 0o7777
        right = done == DONE and (own / real).read_bytes() == expected and found == mode
        settle(f"{name}, mode {mode:o}", right and (own / name).is_symlink() == (name != real), (done, oct(found)))
    names = {"a.job", "a.txt", "sizes", "old", "link", "loose", "made", "new"}
    settle("nothing is left beside them", listed(own).keys() == names, listed(own).keys())


def test_special(folder):
    """What is no file of its own is written to as it is: a pipe, by its name or as standard output, and the file that is standard output.
    No name in /dev is given to a command here, as one that is wrong could replace it where the tests are root's."""
    own = output_folder(folder, "special")
    expected = call("job", "read", LISTING, "-")[1]
    (own / "out").symlink_to("/proc/self/fd/1")
    for name in ("/proc/self/fd/1", "out"):
        done = run(MAGPIERACK, "job", "read", LISTING, name, cwd=own)
        settle(f"{name} into a pipe", expected and done == (0, expected, ""), done)
        with open(own / "file", "w+b") as file:
            done = subprocess.run([MAGPIERACK, "job", "read", LISTING, name], stdout=file, cwd=own)
            file.seek(0)
            settle(f"{name} into a file that is open", (done.returncode, file.read()) == (0, expected), done)
    names = ("/dev/stdout", "/dev/full", "/dev/fd/1", own / "out", own, own / "a.job", own / "none")
    special = [files.is_special(name) for name in names]
    settle("what is special", special == [True] * 5 + [False] * 2, special)
    os.mkfifo(own / "pipe")
    found = []
    reader = threading.Thread(target=lambda: found.append((own / "pipe").read_bytes()), daemon=True)
    reader.start()
    done = run(MAGPIERACK, "job", "read", LISTING, "pipe", cwd=own)
    reader.join(10)
    settle("a pipe by its name", (done, found) == (DONE, [expected]) and (own / "pipe").is_fifo(), (done, found))


def breaking():
    """Texts that fit their fields and break a rule: the number, the line that is named, records and frames."""
    one = (0, 0, 1, 1)
    yield "no nodes", 4, 1, [], [5]
    yield "65 nodes", 4, 64, [one] * 64, [5]
    yield "255 nodes", 4, 64, [one] * 254, [5]
    yield "no frames", 5, 2, [one], []
    yield "65,537 frames", 5, 65_539, [one], [1] * 65_537
    yield "a parent that is its own", 7, 1, [(1, 0, 1, 1)], [5]
    yield "a parent above its child", 7, 2, [one, (3, 0, 1, 1), one], [5]
    yield "a parent without a record", 7, 1, [(200, 0, 1, 1)], [5]
    yield "a leaf's delay of 4,097", 8, 2, [one, (0, 4_097, 1, 1)], [5]
    yield "an inner node's delay", 8, 1, [(0, 1, 1, 1), (1, 0, 1, 1)], [5]
    yield "a memory too large", 9, 1, [(0, 0, GREATEST_AMOUNT + 1, 1)], [5]
    yield "a rate too large", 9, 2, [one, (0, 0, 1, GREATEST_AMOUNT + 1)], [5]
    yield "a rate far too large", 9, 2, [one, (0, 0, 1, 2**64 - 1)], [5]
    yield "a frame too large", 10, 4, [one], [5, GREATEST_FRAME + 1]
    yield "8 before 10", 8, 1, [(0, 5_000, 1, 1)], [2**32 - 1]


def test_breaking(folder):
    """A job that document 01 refuses is written all the same, with its number and the line; the library gives that number."""
    text, out = folder / "t.txt", folder / "t.job"
    for name, number, line, records, frames in breaking():
        text.write_text(told(records, frames))
        status, _, said = call("job", "write", text, out)
        lines = said.splitlines()
        right = status == 1 and lines[0].startswith(f"{text}:{line}: warning: refusal {number}: ")
        settle(f"{name}, warned", right and lines[-1] == f"{text}: the job is refused by {number}", said)
        written = out.read_bytes()
        settle(f"{name}, written", written == coded(records, frames) and library_says(written) == number, library_says(written))
        status, _, said = call("job", "read", out, folder / "back.txt")
        if number < 7:
            settle(f"{name}, not read", status == 2 and f"refused by {number} and can't be read" in said, said)
        else:
            noted = f"# refusal {number}: " in (folder / "back.txt").read_text()
            settle(f"{name}, read with a note", status == 1 and noted and f"refused by {number}" in said, said)
    for name, records, frames in extreme_jobs():
        text.write_text(told(records, frames))
        settle(f"{name}, accepted", call("job", "write", text, out) == DONE and library_says(out.read_bytes()) == 0)


def damaged(rng, k):
    """A job with something wrong, most often."""
    records, frames = random_job(rng)
    records = [list(record) for record in records]
    kind = k % 13
    other = {}
    if kind == 0:
        other["mark"] = rng.choice((b"RLX", b"rly", bytes(3)))
    elif kind == 1:
        other["version"] = rng.choice((0, 2, 256))
    elif kind == 2:
        other["nodes"] = rng.choice((0, 1, 65, 255, len(records) + 2))
    elif kind == 3:
        other["count"] = rng.choice((0, 65_537, 2**32 - 1, len(frames) + 1))
    elif kind == 4:
        rng.choice(records)[0] = rng.randrange(256)
    elif kind == 5:
        rng.choice(records)[1] = rng.choice((1, 4_096, 4_097, 65_535))
    elif kind == 6:
        rng.choice(records)[rng.choice((2, 3))] = GREATEST_AMOUNT + rng.choice((0, 1, 2**44))
    elif kind == 7:
        frames[rng.randrange(len(frames))] = GREATEST_FRAME + rng.choice((0, 1, 2**31))
    out = bytearray(coded(records, frames, **other))
    if kind == 8:
        return bytes(out[:rng.randrange(len(out))])
    if kind == 9:
        return bytes(out[:rng.randrange(10)])
    if kind == 10:
        return bytes(out) + bytes(rng.randrange(1, 30))
    if kind >= 11:
        for _ in range(rng.randint(1, 4)):
            out[rng.randrange(len(out))] = rng.choice((0, 1, 255, rng.randrange(256)))
    return bytes(out)


def test_damaged(folder):
    """job check, the library by way of C and the program agree on damaged jobs, and every number comes up."""
    rng = random.Random(11)
    jobs = [damaged(rng, k) for k in range(520)]
    (folder / "damaged").mkdir()
    for k, bytes_ in enumerate(jobs):
        (folder / f"damaged/{k}.job").write_bytes(bytes_)
    names = [f"damaged/{k}.job" for k in range(len(jobs))]
    status, out, said = call("job", "check", *names, cwd=folder)
    settle("check of many jobs", (status, said, out.count(b"\n")) == (1, "", len(jobs)), (status, said))
    seen = set()
    for name, bytes_, line in zip(names, jobs, out.decode().splitlines()):
        found = re.fullmatch(re.escape(name) + r": ([0-9]+) (accepted|refused): .+", line)
        number = int(found.group(1)) if found else None
        printed = run(PROGRAM, stdin=bytes_)[1].decode().split("\n")[0].split(" ")[0]
        program = int(printed) if 1 <= int(printed) <= 10 else 0
        settle(f"{name}: {line}", number == library_says(bytes_) == program, (number, printed))
        seen.add(number)
    settle("every number comes up", seen == set(range(11)), seen)
    done = call("job", "check", LISTING)
    settle("check of one job", done == (0, b"0 accepted: 4 nodes, 3 frames, 15 bytes\n", ""), done)
    (folder / "wide.job").write_bytes(coded([(0, 0, 0, 0)], [0] * 4_096))
    settle("check tells of 15", b"refuses it by 15" in call("job", "check", folder / "wide.job")[1])
    status, out, said = call("job", "check", LISTING, "none", names[0], cwd=folder)
    settle("check of no file beside jobs", (status, out.count(b"\n"), said.count("none: can't be read")) == (2, 2, 1), (out, said))


TESTS = (
    test_round_trip, test_examples, test_errors, test_usage, test_forms, test_films, test_same_file, test_whole_or_not, test_modes,
    test_special, test_breaking, test_damaged,
)

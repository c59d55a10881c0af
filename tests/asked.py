"""Tests what ./magpierack answers by plan, why, radio and leaf, against the program and against the rules read once more."""
import csv
import io
import itertools
import json
import random
import re
import shlex
import xml.etree.ElementTree as ET

from cases import FILM, GREATEST_AMOUNT, GREATEST_FRAME, LISTING, SHORT, call, coded, frames_of, random_job
from own import Answers, Rules, constant_rate, figure, read, slow_job, starving_job
from tally import ROOT, settle


def cells(text, heading):
    """The rows of the table for people that begins with these words, each a list of cells."""
    lines = text.splitlines()
    at = next((k for k, line in enumerate(lines) if " ".join(line.split()).startswith(heading)), len(lines))
    return [re.split(r"\s{2,}", line) for line in itertools.takewhile(str.strip, lines[at + 1:])]


def parsed_csv(data):
    return list(csv.reader(io.StringIO(data.decode("utf-8", "surrogateescape"), newline="")))


def is_share(cell, part, whole):
    """Whether a cell has the share in hundredths."""
    return cell == "-" if whole == 0 else cell[-1:] == "%" and abs(int(cell[:-1]) - 100 * part / whole) <= 0.5


def jobs_to_plan():
    rng = random.Random(101)
    yield from ((file.name, file.read_bytes()) for file in (LISTING, FILM, SHORT))
    yield "zeros", coded([(0, 3, 0, 0)], [0, 0])
    yield "12 and 13", coded([(0, 0, 4, 5), (1, 0, 0, 0), (1, 1, 5, 4)], [4, 10, 1])
    yield from ((f"random job {k}", coded(*random_job(rng))) for k in range(12))
    yield from ((f"starving job {k}", coded(*starving_job(rng))) for k in range(6))


def test_plan_forms(folder):
    """The lines are the program's; CSV and JSON have its rows; one question alone has its own status."""
    file, seen = folder / "a.job", set()
    for name, data in jobs_to_plan():
        file.write_bytes(data)
        due = Answers(data)
        (memory, rate), seen = due.numbers(), seen | {due.numbers()}
        status, out, said = call("plan", "--lines", file)
        settle(f"{name}, lines", (status, out) == (due.status, due.text), (status, out[:99]))
        words = [f"{file}: from {question}: refused by {number}: "
                 for question, number in (("memories", memory), ("rates", rate)) if number]
        right = len(said.splitlines()) == len(words) and all(line.startswith(word) for line, word in zip(said.splitlines(), words))
        settle(f"{name}, what is said", right, said)
        found = call("plan", "--csv", file)
        header = ["slot", *(f"node{i}" for i in range(1, len(due.rows) + 1))]
        rows = [header, *([str(word) for word in (k, *column)] for k, column in enumerate(zip(*due.rows)))] if due.rows else []
        settle(f"{name}, CSV", (found[0], parsed_csv(found[1])) == (1 if memory else 0, rows), found)
        status, out, _ = call("plan", "--json", file)
        settle(f"{name}, JSON", status == due.status and is_json_of(json.loads(out), file, data, due), out[:99])
        for question, number, text in (("memories", memory, due.lines[:-1]), ("rates", rate, due.lines[-1:])):
            status, out, said = call("plan", "--from", question, "--lines", file)
            right = (status, [[int(word) for word in line.split()] for line in out.splitlines()]) == (1 if number else 0, text)
            settle(f"{name}, from {question} alone", right and len(said.splitlines()) == status, (status, out[:99], said))
    settle("both questions answered and refused", {(0, 0), (12, 0), (0, 13), (12, 13)} <= seen, seen)


def is_json_of(found, file, data, due):
    """Whether the JSON has the program's answers."""
    links = [{"node": i, "peak": peak, "row": row} for i, (peak, row) in enumerate(zip(due.peaks, due.rows), 1)]
    plan = {"last_slot": due.memory[1], "total": due.memory[2], "links": links} if due.rows else {}
    sizing = {} if due.rate[0] else {"delay": due.rate[1], "total": due.rate[2], "memories": due.memories}
    texts = [found[name].pop("text") for name in ("from_memories", "from_rates")]
    version = re.search('RELAY_VERSION_TEXT "(.*)"', (ROOT / "include/relay.h").read_text())[1]
    rest = {"job": str(file), "version": version, "nodes": data[5], "frames": len(frames_of(data))}
    return all(texts) and found == {
        **rest, "from_memories": {"number": due.memory[0], **plan}, "from_rates": {"number": due.rate[0], **sizing}}


def test_plan_table(folder):
    """The table for people has every peak, memory and what is held; the wait, the total and every memory from rates."""
    file = folder / "a.job"
    for name, data in jobs_to_plan():
        file.write_bytes(data)
        due, rules = Answers(data), Rules(*read(data))
        status, out, _ = call("plan", file)
        text, held = out.decode(), rules.held(due.rows) if due.rows else []
        right = len(rows := cells(text, "link into from")) == len(due.peaks)
        for i, row, peak, most in zip(rules.links, rows, due.peaks, held):
            before, leaf = max(rules.frames), i in rules.leaves
            first = [rules.called(i), str(rules.parent(i) or "store"), str(rules.delay(i)) if leaf else "-"]
            numbers = [f"{number:,}" for number in (rules.memory(i), most, before, peak)]
            right = right and row[:-1] == first + numbers and is_share(row[-1], peak, before)
        settle(f"{name}, the links", right and status == due.status, text)
        rows = cells(text, "link into rate")
        told = [] if due.rate[0] else [[rules.called(i), f"{rules.rate(i):,}", f"{need:,}"] for i, need in zip(rules.links, due.memories)]
        wait = due.rate[0] or re.search(r"wait ([\d,]+) slots?, and the memories total ([\d,]+) bytes?\.", text)
        right = rows == told and (due.rate[0] or [figure(word) for word in wait.groups()] == due.rate[1:3])
        settle(f"{name}, the memories from rates", right, text)
        right = all((f"From {question}: refused by {number}: " in text) == bool(number)
                    for question, number in zip(("memories", "rates"), due.numbers()))
        settle(f"{name}, refusals in their place", right, text)


def test_plan_longest(folder):
    """A job that is too large for the program: with memory 0 each frame goes in its slot, so the row is known."""
    rng = random.Random(17)
    frames = [rng.randrange(GREATEST_FRAME + 1) for _ in range(65_536)]
    row = [0] * 4_096 + [0, *itertools.accumulate(frames)]
    (folder / "long.job").write_bytes(coded([(0, 4_096, 0, GREATEST_AMOUNT)], frames))
    text = f"0 69632 {row[-1]}\n1 {max(frames)} {' '.join(map(str, row))}\n0 0 0 0\n"
    settle("the longest film, lines", call("plan", "--lines", folder / "long.job") == (0, text.encode(), ""))
    text = "slot,node1\n" + "".join(f"{k},{sent}\n" for k, sent in enumerate(row))
    settle("the longest film, CSV", call("plan", "--csv", folder / "long.job") == (0, text.encode(), ""))


Q = [(0, 0, 4, 5), (1, 0, 0, 10), (1, 1, 6, 4)]


def q(at=0, **other):
    """Tree Q with a node's field changed."""
    record = dict(zip(("parent", "delay", "memory", "rate"), Q[at]), **other)
    return coded([*Q[:at], tuple(record.values()), *Q[at + 1:]], [4, 10, 1])


# A job with one breach: its number, and a word of the field.
REFUSED = [
    (b"", 1, "length"), (b"RLY456789", 1, "length"), (coded(Q, [1], mark=b"RLX"), 2, "mark"), (coded(Q, [1], version=513), 3, "version"),
    (coded(Q, [1], nodes=1), 4, "node count"), (coded(Q, [1], nodes=65), 4, "node count"), (coded(Q, []), 5, "frame count"),
    (coded(Q, [1], count=65_537), 5, "frame count"), (coded(Q, [1]) + b"x", 6, "length"), (coded(Q, [1])[:-1], 6, "length"),
    (q(parent=1), 7, "parent of node 1"), (q(2, parent=7), 7, "parent of node 3"), (q(delay=1), 8, "delay of node 1"),
    (q(2, delay=4_097), 8, "delay of node 3"), (q(memory=GREATEST_AMOUNT + 1), 9, "memory of node 1"),
    (q(1, rate=2**64 - 1), 9, "rate of node 2"), (coded(Q, [4, GREATEST_FRAME + 1, 1]), 10, "frame 2"),
]


def test_plan_refused(folder):
    """A job refused by 1 to 10 is said to be so, with its number, its field and the command that tells more."""
    file = folder / "my film.job"
    for data, number, field in REFUSED:
        file.write_bytes(data)
        settle(f"{field}, {number} is the program's", Answers(data).numbers() == (number, number), Answers(data).numbers())
        for words in ([], ["--lines"], ["--csv"], ["--json"]):
            status, out, said = call("plan", *words, file, cwd=ROOT)
            right = said.startswith(f"{file}: refused by {number}: the ") and field in said and said.count("\n") == 1
            right = right and said.endswith(f"; './magpierack why {shlex.quote(str(file))}' tells more\n")
            printed = f"{number}\n".encode() if words == ["--lines"] else b""
            settle(f"{field}, {words}", right and (status, out) == (1, printed), (status, out, said))


def test_no_job(folder):
    """What can't be read is told in one line, by every command that reads a job."""
    commands = [["plan"], ["plan", "--lines"], ["why"], ["picture"], ["sheet", "--unit", "u"], ["job", "check"]]
    for name in ("none.job", "", ".", "a\0b", "x" * 5_000, "none/none.job"):
        for words in commands:
            status, out, said = call(*words, "--", name, cwd=folder)
            right = (status, out) == (2, b"") and said.count("\n") == 1 and re.search("can't be read|name too long", said)
            settle(f"{words} of {name[:20]!r}", right, (status, said))
    status, out, said = call("plan", "--csv", "--from", "rates", FILM)
    settle("plan --csv --from rates", (status, out) == (2, b"") and said.startswith("--csv has the plan"), (status, out, said))
    both = ["plan", "--lines", "--csv", FILM]
    for words in (["plan"], ["why"], ["plan", FILM, LISTING], ["plan", "--from", "x", FILM], both, ["x"], ["--x"]):
        status, out, said = call(*words, cwd=ROOT)
        settle(f"words {words}", (status, out) == (2, b"") and said.count("\n") == 1 and "--help' tells more" in said, (status, said))


def test_put_back(folder):
    """The library's answer, or one from elsewhere, written into the job's bytes here too; the plan of the new job is within the rates."""
    rng, file, out, refused = random.Random(151), folder / "a.job", folder / "b.job", 0
    for k in range(30):
        records, frames = slow_job(rng) if k % 3 == 0 else random_job(rng)
        due, rules = Answers(coded(records, frames)), Rules(records, frames)
        file.write_bytes(coded(records, frames))
        out.write_bytes(b"as it was")
        status, printed, said = call("job", "put-back", file, out)
        if due.rate[0]:
            refused += 1
            right = (status, printed, out.read_bytes()) == (1, b"", b"as it was")
            settle(f"put back {k}, refused", right and said.startswith(f"{file}: from rates: refused by 13: "), (status, said))
            continue
        back = coded(answered(rules, due.rate[1], due.memories), frames)
        settle(f"put back {k}", (status, printed, said, out.read_bytes()) == (0, b"", "", back), (status, said, out.read_bytes()))
        peaks = Answers(back).peaks
        right = len(peaks) == len(records) and all(peak <= rules.rate(i) for i, peak in enumerate(peaks, 1))
        settle(f"put back {k}, within the rates", right, peaks)
        memories = [rng.randrange(GREATEST_AMOUNT + 1) for _ in records]
        status, _, said = call("job", "put-back", file, out, "--delay", k * 141, "--memories", ",".join(map(str, memories)))
        right = (status, said, out.read_bytes()) == (0, "", coded(answered(rules, k * 141, memories), frames))
        settle(f"put back {k}, an answer from elsewhere", right, (status, said))
    settle("put back, refused and not", 0 < refused < 20, refused)
    for words, status, what in (
        (("--delay", "4097", "--memories", "0,6,6"), 1, "refused by 8"),
        (("--delay", "2", "--memories", f"0,6,{GREATEST_AMOUNT + 1}"), 1, "refused by 9"),
        (("--delay", "2", "--memories", "0,6"), 1, "refused by 11"),
        (("--delay", "2"), 2, "--delay and --memories are given together"),
        (("--delay", "x", "--memories", "0,6,6"), 2, "--delay 'x' is not a whole number"),
        (("--delay", "2", "--memories", "0,,6"), 2, "--memories '' is not a whole number"),
    ):
        found = call("job", "put-back", LISTING, folder / "none.job", *words)
        settle(f"put back, {words}", found[:2] == (status, b"") and what in found[2] and not (folder / "none.job").exists(), found)


def answered(rules, delay, memories):
    """The records with an answer of the rate question in them."""
    return [(rules.parent(i), delay if i in rules.leaves else 0, memory, rules.rate(i)) for i, memory in zip(rules.links, memories)]


STARVES = re.compile(r"Screen (\S+) starves first, in slot (\S+): by its end it is due (\S+) bytes? and can have got (\S+) at most, "
                     r"(\S+) too few\. Screen (\S+) starts (\S+) slots? later, and")


def why_starves(folder, data):
    """What why tells of 12: the figures of its sentence, and the least memory by node, None where none would do."""
    (folder / "a.job").write_bytes(data)
    status, out, said = call("why", folder / "a.job")
    text = out.decode()
    found = STARVES.search(" ".join(text.split()))
    rows = [re.fullmatch(r"(?:screen|box) (\d+), .*?  +([\d,]+)  +(none would|[\d,]+)", line) for line in text.splitlines()]
    table = {int(row[1]): (figure(row[2]), None if row[3] == "none would" else figure(row[3])) for row in rows if row}
    settle("why, its status", (status, said) == (1, "") and found and table, (status, text, said))
    return [figure(word) for word in found.groups()], table, text


def with_memory(records, frames, i, memory):
    return coded([(*record[:2], memory, record[3]) if j == i else record for j, record in enumerate(records, 1)], frames)


def test_why_memories(folder):
    """12: the screen, the slot and the bytes by the two curves of every link, the least memories by the program."""
    rng, jobs, none, several = random.Random(103), 0, 0, 0
    while jobs < 32:
        records, frames = starving_job(rng)
        if Answers(coded(records, frames)).memory[0] == 0:
            continue
        jobs += 1
        rules, name = Rules(records, frames), f"why, starving job {jobs}"
        (leaf, slot, due, come, missing, full, later), table, text = why_starves(folder, coded(records, frames))
        crossings = {i: rules.crossing(i) for i in rules.links}
        settle(f"{name}, slot", slot == min(found[0] for found in crossings.values() if found), (slot, crossings))
        most = max(rules.demand(i, slot) - rules.upper(i, slot) for i in rules.leaves)
        own = [rules.demand(leaf, slot), rules.upper(leaf, slot), rules.demand(leaf, slot) - rules.upper(leaf, slot)]
        settle(f"{name}, bytes", leaf in rules.leaves and [due, come, missing] == own and missing == most > 0, (own, most, text))
        right = later == rules.delay(full) - rules.delay(leaf) > 0
        settle(f"{name}, the later screen", right and is_room_at(rules, leaf, full, slot, come), text)
        due_nodes = {leaf, full, *rules.above(leaf), *rules.above(full)}
        has = {i: has for i, (has, _) in table.items()}
        settle(f"{name}, nodes", has == {i: rules.memory(i) for i in due_nodes}, (due_nodes, text))
        for i, (_, least) in table.items():
            tried = [(GREATEST_AMOUNT, 12)] if least is None else [(least, 0), (least - 1, 12)]
            found = [(memory, Answers(with_memory(records, frames, i, memory)).memory[0]) for memory, _ in tried]
            settle(f"{name}, node {i}", found == tried, (found, text))
        helps = any(least for _, least in table.values())
        settle(f"{name}, whether a node alone helps", helps != ("No node alone helps" in text), text)
        none, several = none + (not helps), several + (sum(bool(crossings[i]) for i in rules.leaves) > 1)
    settle("some jobs that no node alone helps, and some with several screens that starve", 32 > none > 3 and several > 3, (none, several))


def is_room_at(rules, leaf, full, slot, come):
    """Whether what can have come is what the later screen has played and the memories from it up to the lowest node above both."""
    path = [full, *rules.above(full)]
    both = next(i for i in path if i in rules.above(leaf))
    return come == rules.played(full, slot) + sum(rules.memory(i) for i in path[:path.index(both) + 1])


def test_why_rates(folder):
    """13: every link below the rate, and no other; with all of them raised to it there is an answer, with one less at one none."""
    rng, jobs = random.Random(107), 0
    while jobs < 25:
        records, frames = slow_job(rng)
        if Answers(coded(records, frames)).rate[0] == 0:
            continue
        jobs += 1
        rules = Rules(records, frames)
        (folder / "a.job").write_bytes(coded(records, frames))
        status, out, _ = call("why", folder / "a.job")
        text = out.decode()
        least = figure(re.search(r"Every link must carry (\S+) bytes? a slot at least", text)[1])
        part = text[text.index("From rates:"):]
        slow = [i for i in rules.links if rules.rate(i) < least]
        rows = [[rules.called(i), f"{rules.rate(i):,}", f"{least:,}"] for i in slow]
        settle(f"why, slow job {jobs}", status == 1 and cells(part, "link into") == rows and least == rules.least_rate(), text)
        raised = [(*record[:3], max(record[3], least)) for record in records]
        lower = [[(*record[:3], least - 1) if j == i else record for j, record in enumerate(raised, 1)] for i in slow]
        found = [Answers(coded(other, frames)).rate[0] for other in (raised, *lower)]
        settle(f"why, slow job {jobs}, the figures", found == [0] + [13] * len(slow), (found, text))


def number_at(data, place):
    """The bytes at a place as it is told, or all of them."""
    first, _, last = place.partition(" to ")
    return data[figure(first):figure(last or first) + 1]


def put(data, place, value):
    """The bytes with a value at a place as it is told."""
    first, width = figure(place.partition(" to ")[0]), len(number_at(data, place))
    return data[:first] + value.to_bytes(width, "big") + data[first + width:]


def why_bytes(folder, data):
    (folder / "a.job").write_bytes(data)
    status, out, said = call("why", folder / "a.job")
    return status, cells(out.decode(), "field"), out.decode()


def test_why_bytes(folder):
    """1 to 10: the bytes at the place hold the value; a value within the bound mends it, and one past it does not."""
    for data, number, field in REFUSED:
        status, rows, text = why_bytes(folder, data)
        settle(f"why, {field} {number}", status == 1 and len(rows) == 1 and rows[0][1] == str(number) and field in rows[0][0], text)
        _, _, place, value, bound = rows[0]
        if place == "all":
            due = figure(bound.removeprefix("at least ").split(" ")[0])
            found = [Answers(data[:size] + bytes(max(size - len(data), 0))).memory[0] for size in (due, due - 1)]
            settle(f"why, {field} {number}, length", figure(value) == len(data) and found[0] != number == found[1], (found, text))
        elif number == 2:
            right = bytes.fromhex(value) == number_at(data, place) and bytes.fromhex(bound.split(",")[0]) == b"RLY"
            settle("why, the mark", right and place == "0 to 2", text)
        else:
            ends = [figure(word) for word in bound.split(" to ")]
            settle(f"why, {field} {number}, value", int.from_bytes(number_at(data, place), "big") == figure(value), text)
            inside = [Answers(put(data, place, end)).memory[0] for end in ends]
            outside = [Answers(put(data, place, end)).memory[0] for end in (ends[0] - 1, ends[-1] + 1) if end >= 0]
            settle(f"why, {field} {number}, bound", number not in inside and set(outside) == {number}, (inside, outside, text))


def test_why_long(folder):
    """A file longer than any job is not read to its end, and no length is made up."""
    for more in (263_351 - 79, 263_352 - 79, 3_000_000):
        status, rows, text = why_bytes(folder, LISTING.read_bytes() + bytes(more))
        due = "263,351" if 79 + more == 263_351 else "more than 263,351"
        settle(f"why, {79 + more} bytes", (status, [row[3] for row in rows]) == (1, [due]), text)


def test_why_many_bytes(folder):
    """A job with many breaches: each line's bytes hold its value, and the number of lines left out is right."""
    rng = random.Random(109)
    for k in range(12):
        records = [(0, 0, 1, 1)] * 8
        frames = [rng.choice((1, GREATEST_FRAME + 1 + rng.randrange(99))) for _ in range(k)] + [5]
        bad = rng.sample(range(8), k % 4 + 1)
        for at in bad:
            records[at] = (0, 5_000 + k, GREATEST_AMOUNT + 1 + rng.randrange(9), 2**64 - 1)
        data, breaches = coded(records, frames), 3 * len(bad) + sum(size > GREATEST_FRAME for size in frames)
        status, rows, text = why_bytes(folder, data)
        more = re.search(r"and (\d+) more like these", text)
        rows = [row for row in rows if len(row) == 5]
        count = len(rows) + (int(more[1]) if more else 0)
        right = all(int.from_bytes(number_at(data, row[2]), "big") == figure(row[3]) for row in rows)
        right = right and len({row[2] for row in rows}) == len(rows)
        settle(f"why, {breaches} breaches", (status, count) == (1, breaches) and right, text)
        delays = [f"the delay of node {at + 1}, a screen" for at in sorted(bad)]
        settle(f"why, {breaches} breaches, the first", [row[0] for row in rows if row[1] == "8"] == delays, text)


def test_why_answered(_):
    for file in (LISTING, FILM):
        due = f"{file}\n\nFrom memories: answered.\n\nFrom rates: answered.\n"
        settle(f"why {file.name}", call("why", file) == (0, due.encode(), ""), call("why", file))


def test_why_confirms(folder):
    """Where the library, asked again, says something else, nothing is told but that there is a fault."""
    import library
    slow = folder / "slow.job"
    slow.write_bytes(coded([(0, 0, 0, 1)], [GREATEST_FRAME]))
    bad = folder / "bad.job"
    bad.write_bytes(REFUSED[-1][0])

    def after(name, calls, change):
        """A stand-in for a call of the library that says something else after so many calls."""
        own, count = getattr(library, name), itertools.count()

        def other(data):
            found = own(data)
            return change(found) if next(count) >= calls else found

        return lambda: setattr(library, name, other)

    refuse = lambda plan: library.Plan(0 if plan.number else 12, 0, 0, [], [])  # noqa: E731
    resize = lambda sizing: library.Sizing(0 if sizing.number else 13, 0, 0, [])  # noqa: E731
    cases = [(SHORT, after("plan", calls, refuse)) for calls in range(1, 8)] + [(slow, after("sizing", calls, resize)) for calls in (1, 2)]
    cases += [(bad, after("refusal", 1, lambda number: 10 if number == 0 else 0)), (LISTING, after("refusal", 0, lambda number: 7))]
    for file, before in cases:
        status, out, said = call("why", file, before=before)
        right = (status, out) == (2, b"") and "a fault of ours" in said and said.count("\n") == 1
        settle(f"why of {file.name}, another library", right, (status, out, said))


def radio_lines(frames, rates):
    """The cells that radio prints as CSV."""
    found = [constant_rate(frames, rate) for rate in rates]
    return [[str(rate), "0", *map(str, line)] if line else [str(rate), "13", "", ""] for rate, line in zip(rates, found)]


NAMED = re.compile(r"Rate (\S+) needs the least memory of these, (\S+) bytes?, with a wait of (\S+) slots?\.")


def test_radio(folder):
    """Each rate's delay and memory by search, of lists and ranges, each rate once and in order; the rate named needs least memory."""
    rng, file, bends = random.Random(113), folder / "a.job", 0
    many = [str(rng.randrange(80)) for _ in range(30)]
    asked = [(["4"], [4]), (["9", "4", "4", "0004"], [4, 9]), (many, sorted({int(word) for word in many})),
             (["10-20:3"], [10, 13, 16, 19]), (["10-20"], range(10, 21)), (["5-5"], [5]), (["0-320"], range(0, 321, 10)),
             (["3-103"], [3 + 100 * k // 32 for k in range(33)]),
             (["7", "1-9:4", "18446744073709551615", "0"], [0, 1, 5, 7, 9, 2**64 - 1])]
    for k in range(12):
        records, frames = random_job(rng)
        file.write_bytes(coded(records, frames))
        for words, rates in asked:
            lines = radio_lines(frames, rates)
            status, out, _ = call("radio", file, *words, "--csv")
            due = [["rate, bytes a slot", "number", "delay, slots", "memory, bytes"], *lines]
            settle(f"radio {k}, {words[:4]}", (status, parsed_csv(out)) == (1 if any(line[1] == "13" for line in lines) else 0, due), out)
        rates = range(0, 80, 2)
        lines = radio_lines(frames, rates)
        text = call("radio", file, "0-78:2")[1].decode()
        rows = [[figure(word) for word in row] for row in cells(text, "rate, bytes")]
        settle(f"radio {k}, for people", rows == [[int(word) for word in line if word] for line in lines], text)
        served = [line for line in lines if line[1] == "0"]
        least = min(served, key=lambda line: int(line[3]))
        named = NAMED.search(" ".join(text.split()))
        due = None if least in (served[0], served[-1]) else [int(least[at]) for at in (0, 3, 2)]
        settle(f"radio {k}, the rate named", (named and [figure(word) for word in named.groups()]) == due, (text, due))
        bends += named is not None
    settle("radio, rates named and not", 0 < bends < 12, bends)


def test_radio_picture(folder):
    """The picture is well-formed, and has a point for each rate that is served and a mark for each that isn't."""
    file, out = folder / "a.job", folder / "rates.svg"
    file.write_bytes(coded([(0, 0, 0, 0)], [4_098, 1]))
    for job, words in ((FILM, ["2000-20000:1000"]), (file, ["0-9", "4098"]), (file, ["0"]), (file, ["7"])):
        table = parsed_csv(call("radio", job, *words, "--picture", out, "--csv")[1])[1:]
        served = sum(line[1] == "0" for line in table)
        svg = ET.parse(out).getroot()
        for name in ("delay", "memory"):
            panel = next(part for part in svg.iter() if part.get("id") == f"{name}-panel")
            lines = [part for part in panel if part.get("id") == name]
            points = [len(part.get("d").split("L")) for part in lines]
            settle(f"radio's picture of {words}, {name}", points == ([served] if served else []), points)
            marks = sum(part.text == "×" for part in panel)
            settle(f"radio's picture of {words}, marks", marks == len(table) - served, marks)
        bent = [part.get("id") for part in svg.iter() if (part.get("id") or "").startswith("bend")]
        settle(f"radio's picture of {words}, the bend", len(bent) == 4 * (job is FILM), bent)


def test_radio_words(_):
    """Words that are no rates."""
    wrong = ["x", "", "-1", "5-", "-", "9-4", "5:2", "5:", "5-9:", "5-9:0", "5-9:x", "1.5", "\u0664", str(2**64), "9" * 999]
    for word in (*wrong, "0-10000:1", f"0-{2**64 - 1}:1"):
        status, out, said = call("radio", "--", FILM, word)
        settle(f"radio {word[:20]!r}", (status, out) == (2, b"") and said.count("\n") == 1 and len(said) < 600, (status, said))
    status, out, said = call("radio", FILM, "0-9999:1", "10000")
    settle("too many rates together", (status, out) == (2, b"") and "10,000" in said, said)
    settle("as many as may be", call("radio", LISTING, "0-9999:1", "--csv")[1].count(b"\n") == 10_001)
    settle("radio without rates", call("radio", FILM)[0] == 2)


TERM = re.compile(r"T\(k(?: - (\d+))?\)(?: ([+-]) ([\d,]+))?")


def term_of(cell, sums, slots):
    """The numbers that a term in words has over the slots."""
    found = TERM.fullmatch(cell)
    delay, more = int(found[1] or 0), figure(found[3] or "0") * (-1 if found[2] == "-" else 1)
    return [sums[min(max(k - delay, 0), len(sums) - 1)] + more for k in slots]


def test_leaf(folder):
    """What a leaf brings is what the rules give with that leaf alone; the slots bound are those in which that is the curve."""
    rng, file, bound_once = random.Random(127), folder / "a.job", 0
    for k in range(14):
        records, frames = starving_job(rng) if k % 2 else random_job(rng)
        file.write_bytes(coded(records, frames))
        rules = Rules(records, frames)
        slots, curves = range(rules.last + 1), {i: rules.curves(i) for i in rules.links}
        brought = {}
        for leaf in rules.leaves:
            own = Rules(records, frames, leaf)
            own.last = rules.last
            text = call("leaf", file, leaf)[1].decode()
            listing = parsed_csv(call("leaf", file, leaf, "--csv")[1])[1:]
            parts = re.split(r"(?m)^link into", text)[1:]
            for at, (name, part) in enumerate(zip(("lower", "upper"), parts)):
                for i, row in zip(rules.links, cells(f"link into{part}", "link into")):
                    due = own.curves(i)[at]
                    told = None if row[1] == "nothing" else term_of(row[1], rules.sums, slots)
                    right = told == due if told else {abs(value) for value in due} == {float("inf")}
                    settle(f"leaf {k}, {leaf} at {i}, {name}", row[0] == rules.called(i) and right, (row, due))
                    brought.setdefault((i, at), []).append(due)
                    bound = [s for s in slots if due[s] == curves[i][at][s] and 0 < due[s] < rules.sums[-1]]
                    found = [s for line in listing if line[:2] == [str(i), name] for s in range(int(line[4]), int(line[5]) + 1)]
                    settle(f"leaf {k}, {leaf} at {i}, {name}, bound", found == bound and figure(row[2]) == len(bound), (row, bound, found))
                    bound_once += bool(bound)
        expect_whole(f"leaf {k}", rules, curves, brought, Answers(coded(records, frames)))
    settle("leaves bind", bound_once > 40, bound_once)


def expect_whole(name, rules, curves, brought, due):
    """The terms of all leaves make the curves; the planned rows are between them, and the peaks are the least by the rules."""
    for i in rules.links:
        low = [max(0, *column) for column in zip(*brought[i, 0], [0] * (rules.last + 1))]
        high = [0] + [min(rules.sums[-1], *column) for column in zip(*brought[i, 1], [rules.sums[-1]] * (rules.last + 1))][1:]
        settle(f"{name}, the curves of {i}", [low, high] == list(curves[i]), (low, high))
        if due.rows:
            between = all(a <= sent <= b for a, sent, b in zip(curves[i][0], due.rows[i - 1], curves[i][1], strict=True))
            settle(f"{name}, the planned row of {i}", between and due.peaks[i - 1] == rules.least_peak(i), due.rows[i - 1])


def test_leaf_words(folder):
    """Nodes that are no screens; and the picture, whose pieces are as many as the stretches."""
    for word in ("0", "1", "7", "99", "x", "", "-1", str(2**64)):
        status, out, said = call("leaf", "--", FILM, word)
        settle(f"leaf {word!r}", (status, out) == (2, b"") and said.count("\n") == 1, (status, said))
    listing = parsed_csv(call("leaf", FILM, 5, "--csv", "--picture", folder / "leaf.svg")[1])[1:]
    svg = ET.parse(folder / "leaf.svg").getroot()
    for i, name in itertools.product(range(1, 7), ("lower", "upper")):
        part = next(part for part in svg.iter() if part.get("id") == f"{name}-{i}")
        due = sum(line[:2] == [str(i), name] for line in listing)
        settle(f"leaf's picture, {name} of {i}", part.get("d").count("Z") == due, part.get("d")[:99])


TESTS = [
    test_plan_forms, test_plan_table, test_plan_longest, test_plan_refused, test_no_job, test_put_back, test_why_memories,
    test_why_rates, test_why_bytes, test_why_long, test_why_many_bytes, test_why_answered, test_why_confirms, test_radio,
    test_radio_picture, test_radio_words, test_leaf, test_leaf_words,
]

"""The library by way of Python's ctypes, as relay.h declares it. Bytes and lists go in, numbers, lists and, for a plan, arrays come out."""
import array
import ctypes
from ctypes import POINTER, Structure, byref, c_char_p, c_size_t, c_uint8, c_uint64

TREE_LENGTH, LINE_LENGTH, MOST_CHILDREN = 65, 3, 63


def struct(name, **fields):
    return type(name, (Structure,), {"_fields_": list(fields.items())})


Sizes = struct("Sizes", number=c_uint64, nodes=c_size_t, frames=c_size_t, last_slot=c_size_t, plan_length=c_size_t)
Limits = struct(
    "Limits", fewest_nodes=c_size_t, most_nodes=c_size_t, fewest_frames=c_size_t, most_frames=c_size_t, longest_delay=c_size_t,
    greatest_memory=c_uint64, greatest_rate=c_uint64, greatest_frame=c_uint64, tree_length=c_size_t, most_rates=c_size_t,
    line_length=c_size_t, most_children=c_size_t)
Memory = struct("Memory", number=c_uint64, last_slot=c_uint64, total=c_uint64)
Row = struct("Row", start=c_size_t, length=c_size_t)
Rate = struct("Rate", number=c_uint64, delay=c_uint64, total=c_uint64)
Step = struct("Step", number=c_uint64, link=c_uint64)
Store = struct("Store", length=c_size_t, children=c_size_t, place=c_size_t, waiting=c_size_t * MOST_CHILDREN)

BYTES, NUMBERS = (POINTER(c_uint8), c_size_t), (POINTER(c_uint64), c_size_t)
CALLS = {
    "relay_version": (c_uint64, ()),
    "relay_text": (c_char_p, (c_uint64,)),
    "relay_library_limits": (Limits, ()),
    "relay_refusal": (c_uint64, BYTES),
    "relay_job_sizes": (Sizes, BYTES),
    "relay_memory_question": (Memory, BYTES + NUMBERS + NUMBERS),
    "relay_row_of": (Row, BYTES + (c_size_t, c_size_t)),
    "relay_rate_question": (Rate, BYTES + NUMBERS),
    "relay_constant_rates": (c_uint64, BYTES + NUMBERS + NUMBERS),
    "relay_put_back": (c_uint64, BYTES + (c_uint64,) + NUMBERS),
    "relay_step": (Step, NUMBERS + BYTES + NUMBERS + NUMBERS + NUMBERS),
    "relay_store_start": (c_uint64, (POINTER(Store), c_size_t, c_size_t)),
    "relay_store_append": (c_uint64, (POINTER(Store),) + BYTES + BYTES),
    "relay_store_take": (c_uint64, (POINTER(Store),) + BYTES + (c_size_t,) + BYTES),
}


def fields(struct):
    """A struct's numbers, in their order."""
    return [getattr(struct, name) for name, _ in struct._fields_]


def lent(kind, values):
    """Values as C has them, a pointer and a length; those of an array are the array's own, and what C writes stands in it."""
    if isinstance(values, array.array) and values:
        return (kind * len(values)).from_buffer(values), len(values)
    return (kind * len(values))(*values), len(values)


class Library:
    """Each method makes the call of its name; where it is lent something to fill, that comes after the answer's numbers."""

    def __init__(self, path):
        self.library = ctypes.CDLL(str(path))
        for name, (result, words) in CALLS.items():
            call = getattr(self.library, name)
            call.restype, call.argtypes = result, words

    def version(self):
        return self.library.relay_version()

    def text(self, number):
        return self.library.relay_text(number).decode()

    def limits(self):
        limits = self.library.relay_library_limits()
        return {name: getattr(limits, name) for name, _ in Limits._fields_}

    def refusal(self, job):
        return self.library.relay_refusal(*lent(c_uint8, array.array("B", job)))

    def job_sizes(self, job):
        return fields(self.library.relay_job_sizes(*lent(c_uint8, array.array("B", job))))

    def memory_question(self, job, plan_length, links):
        plan, peaks = array.array("Q", bytes(8 * plan_length)), lent(c_uint64, [0] * links)
        answer = self.library.relay_memory_question(*lent(c_uint8, array.array("B", job)), *lent(c_uint64, plan), *peaks)
        return fields(answer), plan, list(peaks[0])

    def row_of(self, job, plan_length, link):
        return fields(self.library.relay_row_of(*lent(c_uint8, job), plan_length, link))

    def rate_question(self, job, links):
        memories = lent(c_uint64, [0] * links)
        return fields(self.library.relay_rate_question(*lent(c_uint8, array.array("B", job)), *memories)), list(memories[0])

    def constant_rates(self, job, rates, length=None):
        lines = lent(c_uint64, [0] * (LINE_LENGTH * len(rates) if length is None else length))
        return self.library.relay_constant_rates(*lent(c_uint8, array.array("B", job)), *lent(c_uint64, rates), *lines), list(lines[0])

    def put_back(self, job, delay, memories):
        back = lent(c_uint8, array.array("B", job))
        return self.library.relay_put_back(*back, delay, *lent(c_uint64, memories)), bytes(back[0])

    def step(self, tree, job, plan, links):
        tree, sent, held = lent(c_uint64, tree), lent(c_uint64, [0] * links), lent(c_uint64, [0] * links)
        answer = self.library.relay_step(*tree, *lent(c_uint8, job), *lent(c_uint64, plan), *sent, *held)
        return fields(answer), list(tree[0]), list(sent[0]), list(held[0])

    def store_start(self, length, children):
        store = Store()
        return self.library.relay_store_start(byref(store), length, children), store

    def store_append(self, store, slice_, more):
        slice_ = lent(c_uint8, slice_)
        return self.library.relay_store_append(byref(store), *slice_, *lent(c_uint8, more)), bytes(slice_[0])

    def store_take(self, store, slice_, child, length):
        out = lent(c_uint8, bytes(length))
        return self.library.relay_store_take(byref(store), *lent(c_uint8, slice_), child, *out), bytes(out[0])

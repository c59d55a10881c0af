"""Files as all commands read and write them: what is written is written whole or not at all, and never over what was read."""
import contextlib
import errno
import os
import secrets
import stat

INPUT, OUTPUT, ERRORS = 0, 1, 2
# Where tools/start.sh puts standard input.
HANDED = 3
# The names of all files that were read and of those that were written; - is standard input or output.
read_names, written_names = [], []


class Problem(Exception):
    """What is wrong, in a sentence that names the place and says what to do. The status is the command's then."""
    status = 2


class Refused(Problem):
    """A refusal that ends the command."""
    status = 1


def hold_streams():
    """A stream that is closed becomes one that can't be read or written, so that no file which is opened later gets its number."""
    for stream, mode in ((INPUT, os.O_WRONLY), (OUTPUT, os.O_RDONLY), (ERRORS, os.O_RDONLY)):
        try:
            os.fstat(stream)
        except OSError:
            os.open(os.devnull, mode)


def take_streams():
    """Puts standard input in its place again, so that /dev/stdin names it too."""
    hold_streams()
    with contextlib.suppress(OSError):
        os.dup2(HANDED, INPUT)
        os.close(HANDED)


def reason(error):
    return getattr(error, "strerror", None) or str(error)


def spoken(name, stream="standard input"):
    """A file's name for people."""
    return stream if name == "-" else name or "''"


def read_file(name, most):
    """A file's bytes, of a longer one the first, one more than the most; - is standard input."""
    read_names.append(name)
    data = b""
    try:
        with open(INPUT if name == "-" else name, "rb", buffering=0, closefd=name != "-") as file:
            while len(data) <= most and (piece := os.read(file.fileno(), min(most + 1 - len(data), 1 << 20))):
                data += piece
    except (OSError, ValueError) as error:
        raise Problem(f"{spoken(name)}: can't be read: {reason(error)}") from None
    return data


def write_file(name, data):
    """Writes a file, whole or not at all; - is standard output. A file that was read, or written before, is left alone. What is no regular
    file, or is open already and named so, as by /dev/stdout, is written to as it is."""
    shown = spoken(name, "standard output")
    own = identity(name, OUTPUT)
    used = [("input", other, INPUT) for other in read_names] + [("output", other, OUTPUT) for other in written_names]
    for what, other, stream in used:
        if (own is not None and own == identity(other, stream)) or (what, other) == ("output", name):
            raise Problem(f"{shown}: the same file as the {what} {other}, which would be lost; name another")
    written_names.append(name)
    try:
        if name == "-":
            write_to(OUTPUT, data, closefd=False)
        elif is_special(name):
            write_to(name, data)
        else:
            replace_file(os.path.realpath(name), data)
    except (OSError, ValueError) as error:
        raise Problem(f"{shown}: can't be written: {reason(error)}") from None


def write_picture(name, drawn):
    """Writes a picture or a page, which a terminal could not show."""
    if name == "-" and os.isatty(OUTPUT):
        raise Problem("standard output is a terminal, which can't show it; add '--out FILE', or '> FILE'")
    write_file(name, drawn.encode("utf-8"))


def identity(name, stream):
    """The device and the inode of a regular file, else None; - is the stream of that number."""
    try:
        found = os.fstat(stream) if name == "-" else os.stat(name)
    except (OSError, ValueError):
        return None
    return (found.st_dev, found.st_ino) if stat.S_ISREG(found.st_mode) else None


def is_special(name):
    """Whether there is something by that name that isn't a regular file, or a link on the way leads through /proc to an open file."""
    if os.path.exists(name) and identity(name, OUTPUT) is None:
        return True
    path = os.path.abspath(name)
    for _ in range(40):
        folder = os.path.realpath(os.path.dirname(path))
        if f"{folder}/".startswith("/proc/"):
            return True
        path = os.path.join(folder, os.path.basename(path))
        if not os.path.islink(path):
            break
        path = os.path.join(folder, os.readlink(path))
    return False


def write_to(file, data, **other):
    with open(file, "wb", **other) as out:
        out.write(data)


def replace_file(path, data):
    """Writes a file beside the path, and then gives it the path's name. A file that was there hands on its mode and, where it can be, its
    owner; one that may not be written to is not replaced."""
    old = os.stat(path) if os.path.exists(path) else None
    if old and not os.access(path, os.W_OK):
        raise PermissionError(errno.EACCES, os.strerror(errno.EACCES))
    folder = os.path.dirname(path)
    new = os.path.join(folder, f".{secrets.token_hex(8)}.new")
    try:
        with open(made_file(new, folder), "wb") as file:
            file.write(data)
            file.flush()
            if old:
                with contextlib.suppress(OSError):
                    os.fchown(file.fileno(), old.st_uid, old.st_gid)
                os.fchmod(file.fileno(), old.st_mode & 0o777)
            os.fsync(file.fileno())
        os.rename(new, path)
    except BaseException:
        with contextlib.suppress(OSError):  # It may not have been made, or have its new name already.
            os.unlink(new)
        raise


def made_file(path, folder):
    """The descriptor of a new file."""
    try:
        return os.open(path, os.O_WRONLY | os.O_CREAT | os.O_EXCL, 0o666)
    except OSError as error:
        raise OSError(error.errno, f"no file can be made in {folder}: {error.strerror}") from None

"""The command `dspec paths` of gdb: the open paths of each thread with their records, of a live process or a core file; `dspec paths N` shows one path. It reads memory, and calls nothing in
the program. A tracer's memory is laid out as the file of one with `survive`, so it is copied to such a file, which dspec-salvage reads, the same build of it as the program's library; babeltrace2
shows what that finds. DSPEC_SALVAGE names another dspec-salvage than the one on the path."""
import os
import re
import shutil
import struct
import subprocess
import tempfile

import gdb

# As tracer/survive.h has them: where a memory may be, and what its head begins with: magic, four sizes, the build's name, its address and its size.
FIRST, APART, PLACES = 0x510000000000, 0x1000000000, 64
MAGIC = 0x3176697673706564
HEAD = struct.Struct("<Q4I64s2Q")
PART = 1 << 20
EVENT = re.compile(r"^\[([^\]]*)\].*? (\w+): \{ cpu_id = \d+ \}, \{ dspec_path = (\d+)(?:, (.*))? \}$")


def read(at, size):
    """Bytes of the program's memory; None where there is none."""
    try:
        return bytes(gdb.selected_inferior().read_memory(at, size))
    except gdb.MemoryError:
        return None


def memories():
    """Where the tracers' memories are, and how many bytes each has."""
    for place in range(PLACES):
        head = read(FIRST + place * APART, HEAD.size)
        words = HEAD.unpack(head) if head else (0,)
        if words[0] == MAGIC and words[6] == FIRST + place * APART and words[7] <= APART:
            yield words[6], words[7]


def copy_to(name, at, size):
    """Copies a memory to a file: what isn't in a core is zeros. Whether its beginning is there."""
    with open(name, "wb") as file:
        for part in range(0, size, PART):
            length = min(PART, size - part)
            found = read(at + part, length)
            if found is not None:
                file.seek(part)
                file.write(found)
        file.truncate(size)


def tool(name, variable):
    found = os.environ.get(variable) or shutil.which(name)
    if found is None:
        raise gdb.GdbError(f"{name} isn't on the path: install it, or set {variable}")
    return found


def events_of(folder):
    """The events of open paths in a folder, as babeltrace2 shows them: when, name, path and fields."""
    ran = subprocess.run([tool("babeltrace2", "BABELTRACE2"), folder], capture_output=True, text=True, errors="replace", check=False)
    if ran.returncode != 0:
        raise gdb.GdbError(f"babeltrace2 can't read {folder}: {ran.stderr.strip()}")
    return [found.groups() for found in map(EVENT.match, ran.stdout.splitlines()) if found]


class OpenPath:
    def __init__(self, number):
        self.number, self.records, self.why, self.thread, self.key = number, [], "undecided", 0, 0


def paths_of(events):
    """The open paths by their order: each has its records, up to the event that ends it."""
    paths = {}
    for when, name, number, fields in events:
        path = paths.setdefault(int(number), OpenPath(int(number)))
        values = dict(re.findall(r"(\w+) = (\d+)", fields or ""))
        if name == "dspec_kept":
            path.thread, path.key = int(values["thread"]), int(values["key_high"]) << 64 | int(values["key_low"])
            path.why = re.search(r'why = \( "(\w+)"', fields)[1]
        elif name != "dspec_undecided":
            path.records.append((when, re.sub("^undecided_", "", name), fields or ""))
    return list(paths.values())


def salvaged(at, size):
    """The open and parked paths of a memory."""
    with tempfile.TemporaryDirectory(prefix="dspec-gdb-") as work:
        file, found = os.path.join(work, "memory"), os.path.join(work, "found")
        copy_to(file, at, size)
        ran = subprocess.run([tool("dspec-salvage", "DSPEC_SALVAGE"), file, found], capture_output=True, text=True, check=False)
        if ran.stderr:
            print(ran.stderr.strip().replace(file, f"the memory at {at:#x}"))
        undecided = os.path.join(found, "undecided")
        return paths_of(events_of(undecided)) if os.path.isdir(undecided) else []


def names_of_threads():
    return {thread.ptid[1]: f"{thread.num} {thread.name or ''}".rstrip() for thread in gdb.selected_inferior().threads()}


def show(path):
    print(f"  path {path.number}: {path.why}" + (f", key {path.key:032x}" if path.key else ""))
    for when, name, fields in path.records:
        print(f"    {when} {name} {fields}")


def show_by_thread(paths):
    """Parked paths are no thread's any more."""
    names = names_of_threads()
    threads = sorted({path.thread for path in paths})
    for thread in threads:
        if thread == 0:
            print("parked:")
        else:
            print(f"thread {thread}" + (f" ({names[thread]}):" if thread in names else ", which isn't there any more:"))
        for path in (one for one in paths if one.thread == thread):
            show(path)


class Dspec(gdb.Command):
    """What the tracers of dspec have in this process or core."""

    def __init__(self):
        super().__init__("dspec", gdb.COMMAND_DATA, prefix=True)


class DspecPaths(gdb.Command):
    """The open paths of each thread with their records, and the parked ones: dspec paths [NUMBER]"""

    def __init__(self):
        super().__init__("dspec paths", gdb.COMMAND_DATA)

    def invoke(self, argument, from_tty):
        if argument and not argument.isdecimal():
            raise gdb.GdbError("usage: dspec paths [NUMBER]")
        found = list(memories())
        if not found:
            raise gdb.GdbError("no tracer is up in this process, or its memory isn't in the core (coredump_filter, for one with `survive`)")
        for at, size in found:
            paths = salvaged(at, size)
            if argument:
                paths = [path for path in paths if path.number == int(argument)]
            print(f"tracer at {at:#x}: {len(paths)} open or parked path{'' if len(paths) == 1 else 's'}")
            show_by_thread(paths)


Dspec()
DspecPaths()

"""What gdb says of a driver under Kazdrin (docs/DEBUG.md).

    gdb -ex 'source PATH/kazdrin.py' ./program

Texts, times, lists, operations and their parameters are printed as the kit's debugger does; frames of Kazdrin itself are left out of a backtrace (`bt -no-filters`
has them). The commands: kz ops, kz contexts, kz break pre|post MAJOR [DRIVER].
"""
import re

import gdb
import gdb.printing
from gdb.FrameDecorator import FrameDecorator

MAJORS = (
    "CREATE CREATE_NAMED_PIPE CLOSE READ WRITE QUERY_INFORMATION SET_INFORMATION QUERY_EA SET_EA FLUSH_BUFFERS QUERY_VOLUME_INFORMATION SET_VOLUME_INFORMATION "
    "DIRECTORY_CONTROL FILE_SYSTEM_CONTROL DEVICE_CONTROL INTERNAL_DEVICE_CONTROL SHUTDOWN LOCK_CONTROL CLEANUP CREATE_MAILSLOT QUERY_SECURITY SET_SECURITY POWER "
    "SYSTEM_CONTROL DEVICE_CHANGE QUERY_QUOTA SET_QUOTA PNP"
).split()
# The filter manager's own, from 0xff downwards.
OTHERS = {
    255: "ACQUIRE_FOR_SECTION_SYNCHRONIZATION", 254: "RELEASE_FOR_SECTION_SYNCHRONIZATION", 253: "ACQUIRE_FOR_MOD_WRITE", 252: "RELEASE_FOR_MOD_WRITE",
    251: "ACQUIRE_FOR_CC_FLUSH", 250: "RELEASE_FOR_CC_FLUSH", 249: "QUERY_OPEN", 243: "FAST_IO_CHECK_IF_POSSIBLE", 242: "NETWORK_QUERY_OPEN", 241: "MDL_READ",
    240: "MDL_READ_COMPLETE", 239: "PREPARE_MDL_WRITE", 238: "MDL_WRITE_COMPLETE", 237: "VOLUME_MOUNT", 236: "VOLUME_DISMOUNT",
}
# The member of FLT_PARAMETERS that belongs to a major function.
MEMBERS = {
    0: "Create", 3: "Read", 4: "Write", 5: "QueryFileInformation", 6: "SetFileInformation", 7: "QueryEa", 8: "SetEa", 10: "QueryVolumeInformation",
    11: "SetVolumeInformation", 12: "DirectoryControl", 13: "FileSystemControl", 14: "DeviceIoControl", 17: "LockControl", 20: "QuerySecurity", 21: "SetSecurity",
    25: "QueryQuota", 26: "SetQuota",
}
MOST = 4096  # of a list or a text
CONTEXTS = {1: "volume", 2: "instance", 4: "file", 8: "stream", 16: "stream handle", 32: "transaction", 64: "section"}


def major_name(number):
    return "IRP_MJ_" + (MAJORS[number] if number < len(MAJORS) else OTHERS.get(number, "0x%02x" % number))


def major_number(name):
    name = name.upper()
    name = name[len("IRP_MJ_"):] if name.startswith("IRP_MJ_") else name
    if name in MAJORS:
        return MAJORS.index(name)
    for number, other in OTHERS.items():
        if other == name:
            return number
    raise gdb.GdbError("%s is no major function: %s" % (name, ", ".join(MAJORS)))


def text_of(pointer, length):
    """UTF-16 text of that many bytes, or why there is none."""
    if not int(pointer):
        return "no buffer" if length else ""
    try:
        return bytes(gdb.selected_inferior().read_memory(int(pointer), min(length, MOST))).decode("utf-16-le", "replace")
    except gdb.MemoryError:
        return "<0x%x can't be read>" % int(pointer)


def quoted(text):
    return '"%s"' % text.replace("\\", "\\\\").replace('"', '\\"')


class UnicodeString:
    def __init__(self, value):
        self.value = value

    def to_string(self):
        return quoted(text_of(self.value["Buffer"], int(self.value["Length"])))


class LargeInteger:
    def __init__(self, value):
        self.value = value

    def to_string(self):
        return str(int(self.value["QuadPart"]))


class ListEntry:
    """A list's head, or an entry of one: how many there are beside it."""

    def __init__(self, value):
        self.value = value

    def to_string(self):
        here = int(self.value.address) if self.value.address is not None else 0
        at, count = self.value["Flink"], 0
        try:
            while int(at) and int(at) != here and count < MOST:
                at, count = at.dereference()["Flink"], count + 1
        except gdb.MemoryError:
            return "a list that is broken behind %d entries" % count
        if not int(at):
            return "no list yet"
        return "empty list" if not count else "list of %d, first 0x%x" % (count, int(self.value["Flink"]))


class IoParameterBlock:
    """The fields that matter, and of the parameters the member of the major function."""

    def __init__(self, value):
        self.value = value

    def to_string(self):
        return major_name(int(self.value["MajorFunction"]))

    def children(self):
        for name in ("MinorFunction", "IrpFlags", "OperationFlags"):
            if int(self.value[name]):
                yield name, self.value[name]
        yield "TargetFileObject", self.value["TargetFileObject"]
        yield "TargetInstance", self.value["TargetInstance"]
        member = MEMBERS.get(int(self.value["MajorFunction"]))
        if member:
            yield "Parameters." + member, self.value["Parameters"][member]


class CallbackData:
    def __init__(self, value):
        self.value = value

    def to_string(self):
        status = int(self.value["IoStatus"]["Status"]) & 0xFFFFFFFF
        return "%s, status 0x%08x, information %d" % (major_name(int(self.value["Iopb"]["MajorFunction"])), status, int(self.value["IoStatus"]["Information"]))

    def children(self):
        yield "Iopb", self.value["Iopb"].dereference()
        yield "Flags", self.value["Flags"]
        yield "RequestorMode", "UserMode" if int(self.value["RequestorMode"]) else "KernelMode"


def printers():
    made = gdb.printing.RegexpCollectionPrettyPrinter("kazdrin")
    for name, pattern, printer in (
        ("UNICODE_STRING", "^_UNICODE_STRING$", UnicodeString),
        ("LARGE_INTEGER", "^_U?LARGE_INTEGER$", LargeInteger),
        ("LIST_ENTRY", "^_LIST_ENTRY$", ListEntry),
        ("FLT_IO_PARAMETER_BLOCK", "^_FLT_IO_PARAMETER_BLOCK$", IoParameterBlock),
        ("FLT_CALLBACK_DATA", "^_FLT_CALLBACK_DATA$", CallbackData),
    ):
        made.add_printer(name, pattern, printer)
    return made


# ---- Backtraces
OWN = re.compile(r"(^|/)(host|explore|serve|fuzz|image|wire)/[^/]+(/[^/]+)?\.[cS]$|drivers\.c$|libc_start|/csu/|\.rt$")


def is_own(frame):
    """A frame of Kazdrin, and not of a driver or a program beside it."""
    place = frame.find_sal().symtab
    return place is None or OWN.search(place.filename) is not None


class OwnFrames:
    name, priority, enabled = "kazdrin", 100, True

    def filter(self, frames):
        leaves_out = False
        for frame in frames:
            if is_own(frame.inferior_frame()):
                leaves_out = True
                continue
            yield frame
        if leaves_out:
            gdb.write("(frames of Kazdrin aren't shown: bt -no-filters)\n")


# ---- The commands
def kz():
    try:
        return gdb.parse_and_eval("kz")
    except gdb.error:
        raise gdb.GdbError("this is no program that c/build.sh made, or it isn't running yet")


def each(first, next_name="next"):
    at = first
    while int(at):
        yield at.dereference()
        at = at[next_name]


def chars(value):
    return bytes(gdb.selected_inferior().read_memory(int(value.address), value.type.sizeof)).split(b"\0")[0].decode("utf-8", "replace")


def driver_of(filter_pointer):
    return filter_pointer["driver"]["name"].string() if int(filter_pointer) else "no filter"


class Kz(gdb.Command):
    """What Kazdrin knows: kz ops, kz contexts, kz break pre|post MAJOR [DRIVER]."""

    def __init__(self):
        super().__init__("kz", gdb.COMMAND_DATA, prefix=True)


class Ops(gdb.Command):
    """The operations that are under way: number, major function, path, and where each stands."""

    def __init__(self):
        super().__init__("kz ops", gdb.COMMAND_DATA)

    def invoke(self, words, from_tty):
        count = 0
        for op in each(kz()["ops"]):
            count += 1
            block = op["iopb"]
            name = major_name(int(block["MajorFunction"])) if int(block) else "event %d" % int(op["event"])
            stage = str(op["stage"]).replace("KZ_", "").replace("_", " ").lower()
            holder = ", instance %s" % chars(op["holder"]["name"]) if int(op["holder"]) else ""
            path = op["file"]["path"].string() if int(op["file"]) else ""
            request = ", line %d: %s" % (int(op["line"]), op["request"].string()) if int(op["request"]) else ""
            gdb.write("operation %d  %s  \\%s  %s%s%s\n" % (int(op["id"]), name, path, stage, holder, request))
        if not count:
            gdb.write("no operation is under way\n")


class Contexts(gdb.Command):
    """The contexts that aren't freed: kind, filter, and where the driver's own part lies."""

    def __init__(self):
        super().__init__("kz contexts", gdb.COMMAND_DATA)

    def invoke(self, words, from_tty):
        count = 0
        for context in each(kz()["context"]["live"]):
            count += 1
            kind = CONTEXTS.get(int(context["type"]), "0x%x" % int(context["type"]))
            state = "  in its cleanup" if context["is_in_cleanup"] else ""
            gdb.write("%s context of %s  at 0x%x%s\n" % (kind, driver_of(context["filter"]), int(context["body"]), state))
        if not count:
            gdb.write("no context is left\n")


def stop_in(address):
    """A breakpoint behind a function's entry, where its parameters can be read."""
    block = gdb.block_for_pc(address)
    function = block.function if block else None
    if function:
        gdb.Breakpoint(source=function.symtab.filename, function=function.name)
    else:
        gdb.Breakpoint("*0x%x" % address)


def break_at(table, wanted, is_pre, most=64):
    """A breakpoint at the callback of each entry of a registration's table that is for the major function."""
    for at in range(most):
        entry = table[at]
        number = int(entry["MajorFunction"])
        if number == 0x80:
            return
        routine = entry["PreOperation" if is_pre else "PostOperation"]
        if number == wanted and int(routine):
            stop_in(int(routine))


class Registers(gdb.Breakpoint):
    """A filter registers: its callbacks for the major function get breakpoints."""

    def __init__(self, wanted, is_pre, driver):
        super().__init__("FltRegisterFilter", internal=True)
        self.wanted, self.is_pre, self.driver, self.silent = wanted, is_pre, driver, True

    def stop(self):
        frame = gdb.newest_frame()
        table = frame.read_var("Registration")["OperationRegistration"]
        place = frame.older().find_sal().symtab
        stem = place.filename.rsplit("/", 1)[-1].rsplit(".", 1)[0] if place else ""
        if not self.driver or self.driver == stem:
            gdb.post_event(lambda: break_at(table, self.wanted, self.is_pre))
        return False


class Break(gdb.Command):
    """kz break pre|post MAJOR [DRIVER]: stops in the driver's callbacks for that major function, of filters that are loaded and of those to come."""

    def __init__(self):
        super().__init__("kz break", gdb.COMMAND_BREAKPOINTS)

    def invoke(self, words, from_tty):
        words = words.split()
        if len(words) not in (2, 3) or words[0] not in ("pre", "post"):
            raise gdb.GdbError("kz break pre|post MAJOR [DRIVER], as kz break pre WRITE")
        wanted, is_pre, driver = major_number(words[1]), words[0] == "pre", words[2] if len(words) == 3 else None
        Registers(wanted, is_pre, driver)
        if gdb.selected_inferior().pid:
            for at in range(int(kz()["filters_count"])):
                one = kz()["filters"][at]
                if int(one) and one["is_registered"] and driver in (None, driver_of(one)):
                    break_at(one["registration"]["OperationRegistration"], wanted, is_pre)


gdb.printing.register_pretty_printer(None, printers(), replace=True)
gdb.frame_filters[OwnFrames.name] = OwnFrames()
for command in (Kz, Ops, Contexts, Break):
    command()

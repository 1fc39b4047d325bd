# For gdb, which reads it by `-x tools/stopped.py`: the command `treskibben-save FOLDER` saves what a restore needs of a stopped
# process or of a core.
#
#   FOLDER/image        the bytes of the stack, from the lowest saved frame to the end of the highest
#   FOLDER/first        the address of its first byte; gdb's $first has it too
#   FOLDER/N.section    map number N of the program's .llvm_stackmaps, as it is in memory, where the addresses are those of the
#                       running program; a linker puts the maps of several objects one after the other
#   FOLDER/N.frames     the frames of the selected thread that stand at a record of that map, innermost first, each with
#                       the registers that its record names
#
# Maps without such a frame are left out. It is for sections of version 3, and for x86-64.
#
# The command `treskibben-load FOLDER..` puts back into the process what `treskibben restore --into FOLDER` made: the image of the
# last folder, and the registers of all. A frame's register is in memory where a frame below saved it; gdb finds it there and
# writes it there, by the program's unwind tables. So the image goes first: it still has the old ones there.

import os
import re
import struct

import gdb


# The registers that a pointer can be in, by DWARF number.
NAMES = {0: "rax", 1: "rdx", 2: "rcx", 3: "rbx", 4: "rsi", 5: "rdi"}
NAMES.update((number, "r%d" % number) for number in range(8, 16))

# The kind of a location that is a register.
REGISTER = 1


def aligned(at):
    return (at + 7) & ~7


def one_map(section, begin):
    """The end of the map that begins there, and the addresses of its records, each with the registers it names."""
    version, functions, constants, _ = struct.unpack_from("<B3xIII", section, begin)
    if version != 3:
        raise gdb.GdbError("version %d at byte %d of the section" % (version, begin))
    at, owners = begin + 16, []
    for _ in range(functions):
        address, _, count = struct.unpack_from("<QQQ", section, at)
        owners += [address] * count
        at += 24
    at += 8 * constants
    records = {}
    for owner in owners:
        _, offset, _, locations = struct.unpack_from("<QIHH", section, at)
        named = records.setdefault(owner + offset, set())
        for place in range(at + 16, at + 16 + 12 * locations, 12):
            kind, number = struct.unpack_from("<B3xH", section, place)
            if kind == REGISTER and number in NAMES:
                named.add(number)
        at = aligned(at + 16 + 12 * locations)
        (live_outs,) = struct.unpack_from("<2xH", section, at)
        at = aligned(at + 4 + 4 * live_outs)
    return at, records


def maps(section):
    """The maps of a linked section: the bytes and the records of each."""
    begin = 0
    while begin < len(section):
        try:
            end, records = one_map(section, begin)
        except struct.error:
            raise gdb.GdbError("the map at byte %d is cut" % begin)
        yield section[begin:end], records
        begin = end


def memory(first, end):
    return bytes(gdb.selected_inferior().read_memory(first, end - first))


def sections():
    """The stack map sections of the program and its shared objects, from memory."""
    files = gdb.execute("info files", to_string=True)
    for first, end in re.findall(r"^\s*(0x\w+) - (0x\w+) is \.llvm_stackmaps\b", files, re.M):
        yield memory(int(first, 16), int(end, 16))


def register(frame, name):
    return int(frame.read_register(name)) & (2**64 - 1)


def stack():
    """The frames of the selected thread: address, RBP, RSP, the end, which is the caller's RSP, and gdb's own."""
    frame = gdb.newest_frame()
    while frame.older() is not None:
        older = frame.older()
        yield frame.pc(), register(frame, "rbp"), register(frame, "rsp"), register(older, "rsp"), frame
        frame = older


def line(frame, named):
    """The line of a frame, with the registers that its record names."""
    told = ["%#x" % number for number in frame[:3]]
    told += ["%s=%#x" % (NAMES[number], register(frame[4], NAMES[number])) for number in sorted(named)]
    return " ".join(told) + "\n"


class Save(gdb.Command):
    """treskibben-save FOLDER: saves stack image, frames and stack maps for a restore."""

    def __init__(self):
        super().__init__("treskibben-save", gdb.COMMAND_DATA, gdb.COMPLETE_FILENAME)

    def invoke(self, argument, _):
        arguments = gdb.string_to_argv(argument)
        if len(arguments) != 1:
            raise gdb.GdbError("usage: treskibben-save FOLDER")
        self.folder = arguments[0]
        os.makedirs(self.folder, exist_ok=True)
        frames, saved = list(stack()), []
        every_map = [one for section in sections() for one in maps(section)]
        for number, (section, records) in enumerate(every_map):
            own = [frame for frame in frames if frame[0] in records]
            if own:
                self.write("%d.section" % number, section)
                lines = [line(frame, records[frame[0]]) for frame in own]
                self.write("%d.frames" % number, "".join(lines).encode())
                saved += own
        if not saved:
            raise gdb.GdbError("no frame of this thread stands at a record of %d maps" % len(every_map))
        self.image(min(frame[2] for frame in saved), max(frame[3] for frame in saved))
        print("%s: %d frames, an image of %d bytes" % (self.folder, len(saved), self.length))

    def image(self, first, end):
        self.length = end - first
        self.write("image", memory(first, end))
        self.write("first", b"%#x\n" % first)
        gdb.execute("set $first = %#x" % first)

    def write(self, name, content):
        with open(os.path.join(self.folder, name), "wb") as file:
            file.write(content)


class Load(gdb.Command):
    """treskibben-load FOLDER..: puts the image of the last folder back, and the registers of all."""

    def __init__(self):
        super().__init__("treskibben-load", gdb.COMMAND_DATA, gdb.COMPLETE_FILENAME)

    def invoke(self, argument, _):
        folders = gdb.string_to_argv(argument)
        first = gdb.convenience_variable("first")
        if not folders or first is None:
            raise gdb.GdbError("usage: treskibben-load FOLDER.., after treskibben-save")
        with open(os.path.join(folders[-1], "image"), "rb") as file:
            gdb.selected_inferior().write_memory(int(first), file.read())
        changed = 0
        for folder in folders:
            with open(os.path.join(folder, "frames")) as file:
                lines = [text.split("#")[0].split() for text in file]
            changed += sum(self.registers(words) for words in lines if words)
        gdb.newest_frame().select()
        print("%s: %d registers changed" % (folders[-1], changed))

    def registers(self, words):
        """Sets what a line tells, by name, of a frame's registers, and gives how many have changed."""
        address, _, rsp = (int(word, 16) for word in words[:3])
        changed = 0
        for name, content in (word.split("=") for word in words[3:]):
            # A register that is set makes gdb find the frames anew.
            own = [frame[4] for frame in stack() if (frame[0], frame[2]) == (address, rsp)]
            if len(own) != 1:
                raise gdb.GdbError("%d frames at %#x with RSP %#x" % (len(own), address, rsp))
            if register(own[0], name) != int(content, 16):
                own[0].select()
                gdb.execute("set $%s = %s" % (name, content))
                changed += 1
        return changed


Save()
Load()

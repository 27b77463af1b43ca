"""Lets gdb pass through the library: bt goes on from a function of the library to the host that called it.

Use: gdb -x plex-gdb.py HOST, or source plex-gdb.py in gdb. The host must not be stripped.

The library has no tables that say where a function keeps its return address. But its functions move the stack pointer
by push, pop, sub and add alone, so the way from the function's begin to where it stopped tells."""
import re

import gdb
from gdb.unwinder import Unwinder, register_unwinder

FUNCTIONS = {
    "check_image::record_fault",
    "check_image::row_fault",
    "check_refusal::U32FromRefusal::from",
    "check_signals::signals_good",
    "check_state::faults::machine_fault",
    "plex_check",
    "plex_fresh",
    "plex_link",
    "plex_run",
    "plex_version",
    "plex_walk",
    "state_shared::locks::other_holder",
    "step_end::finish_apart",
}

# the registers that a call leaves as they were
KEPT = ("rbx", "rbp", "r12", "r13", "r14", "r15")

# as gdb writes them, in either of its two flavours
PLACE = re.compile(r"(\S+)(?: \+ (\d+))? in section ")
STACKED = re.compile(r"(push|pop) +%?(r\w+)")
MOVED = re.compile(r"(sub|add) +(?:rsp,(0x[0-9a-f]+)|\$(0x[0-9a-f]+),%rsp)")
JUMP = re.compile(r"(j\w+) +(0x[0-9a-f]+)?")


def frame_at(instructions, pc):
    """How many bytes lie between the stack pointer and the return address at pc, and how far below the latter each
    register is that is pushed there. The depth behind a ret or a jmp is that of a jump that leads there, or else the
    deepest before it."""
    depth = deepest = 0
    pushed, jumped_with, goes_on = {}, {}, True
    for instruction in instructions:
        address, text = instruction["addr"], instruction["asm"]
        if not goes_on:
            depth = jumped_with.get(address, deepest)
        if address >= pc:
            break
        stacked, moved, jump = STACKED.match(text), MOVED.match(text), JUMP.match(text)
        if stacked:
            depth += 8 if stacked[1] == "push" else -8
            if stacked[1] == "push":
                pushed.setdefault(stacked[2], depth)
        elif moved:
            size = int(moved[2] or moved[3], 16)
            size -= (size >> 63) << 64
            depth += size if moved[1] == "sub" else -size
        elif jump and jump[2]:
            jumped_with.setdefault(int(jump[2], 16), depth)
        deepest = max(deepest, depth)
        goes_on = not text.startswith(("ret", "jmp"))
    return depth, {register: below for register, below in pushed.items() if below <= depth}


class FrameId:
    """As gdb wants it: a frame is told by the stack pointer of its caller and by its function."""

    def __init__(self, sp, pc):
        self.sp, self.pc = sp, pc


class LibraryUnwinder(Unwinder):
    """Finds the callers of the library's functions, and leaves all other frames to gdb."""

    def __init__(self):
        super().__init__("plex")

    def __call__(self, pending):
        pc, sp = pending.read_register("rip"), pending.read_register("rsp")
        place = PLACE.match(gdb.execute(f"info symbol {int(pc)}", to_string=True))
        if place is None or place[1] not in FUNCTIONS:
            return None
        start = int(pc) - int(place[2] or 0)
        depth, pushed = frame_at(pending.architecture().disassemble(start, int(pc)), int(pc))
        returned_at = sp + depth

        def word_at(address):
            return address.cast(address.type.pointer()).dereference()

        found = pending.create_unwind_info(FrameId(returned_at + 8, gdb.Value(start).cast(pc.type)))
        found.add_saved_register("rip", word_at(returned_at))
        found.add_saved_register("rsp", returned_at + 8)
        for register in KEPT:
            is_pushed = register in pushed
            value = word_at(returned_at - pushed[register]) if is_pushed else pending.read_register(register)
            found.add_saved_register(register, value)
        return found


register_unwinder(None, LibraryUnwinder(), replace=True)

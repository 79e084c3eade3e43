"""Reads the machine code of the library: which instructions store to the arena, and what they are.

A step's store, each mended map word and each flog and map word of a whole write must be one 32-bit move. The source stores four bytes, so
this rests on the compiler; it might as well split a word or join neighbouring words into one wider store. What is asserted:

1. every instruction that store_order saw store such a word, found again in the disassembly of the archive, is `mov DWORD PTR [..],r32`
   (or a 32-bit constant) and does not go to the stack;
2. btt_step, btt_write and an opening each have such an instruction, in the function itself or in one that it calls;
3. in each function that holds one, every other instruction that stores elsewhere than to the stack, as to the table of the lanes, either
   ran while store_order had the arena's pages locked, and so was seen not to store to the arena (or to store data only), or is a 32-bit
   move itself. So none that might store flog or map words in another width is left on a path that was not tried;
4. the archive exports just the functions that the header declares, and needs only memcpy, memmove and memset.

Which registers point into the arena cannot be read off optimised code in general, so 1 and 3 take it from the run. The order of the stores
is store_order's to check.
"""
import pathlib
import re
import subprocess

TOP = pathlib.Path(__file__).resolve().parents[3]
ARCHIVE = TOP / "crates" / "btt" / "out" / "libbtt.a"
HEADER = TOP / "host" / "c" / "btt.h"
NEEDS = {"memcpy", "memmove", "memset"}
STORING_CALLS = {"btt_step", "btt_write", "btt_open", "btt_cut_open"}

FUNCTION = re.compile(r"^[0-9a-f]+ <(.+)>:$")
INSTRUCTION = re.compile(r"^ *([0-9a-f]+):\s+(.+?)\s*$")
CALLED = re.compile(r"R_X86_64_(?:PLT32|PC32|GOTPCREL\w*)\s+(?:\.text\.)?([^\s+-]+)")
WORD_MOVE = re.compile(r"^mov +DWORD PTR (?:ds:)?\[[^\]]+\],(?:e[a-ds][xip]|r\d+d|0x[0-9a-f]+)$")
DESTINATION = re.compile(r"^(?:lock |rep\w* )*(\w+) +(?:\w+ )?PTR (?:\w\w:)?\[([^\]]+)\]")
# These take memory first and only read it.
READERS = re.compile(r"^(cmp|test|call|jmp|push|nop|bt|mul|imul|div|idiv|prefetch\w*|ucomis\w|comis\w|fld\w*|fild)$")


def output(*command):
    return subprocess.run(command, check=True, capture_output=True, text=True).stdout


def disassembly(archive):
    """Each function's instructions by their offsets, and the functions that it calls."""
    code, calls, name = {}, {}, None
    for line in output("objdump", "-dr", "-M", "intel", "--no-show-raw-insn", str(archive)).splitlines():
        begins, instruction, called = FUNCTION.match(line), INSTRUCTION.match(line), CALLED.search(line)
        if begins:
            name = begins.group(1)
            code[name], calls[name] = {}, set()
        elif called and name:
            calls[name].add(called.group(1))
        elif instruction and name:
            code[name][int(instruction.group(1), 16)] = " ".join(re.sub(r"[#<].*", "", instruction.group(2)).split())
    return code, calls


def reached(name, calls):
    """The functions of the archive that a function's calls reach, itself among them."""
    found, left = set(), [name]
    while left:
        name = left.pop()
        if name in calls and name not in found:
            found.add(name)
            left.extend(calls[name])
    return found


def observed(program, listing, functions):
    """What store_order saw of the library's instructions: {(function, offset): set of marks}."""
    starts = []
    for line in output("nm", "-n", str(program)).splitlines():
        address, kind, name = line.split(" ", 2) if line[0] != " " else (None, None, None)
        if kind in ("t", "T"):
            starts.append((int(address, 16), name))
    seen, place = {}, 0
    for line in pathlib.Path(listing).read_text().splitlines():
        address, *marks = line.split()
        address = int(address, 16)
        while place + 1 < len(starts) and starts[place + 1][0] <= address:
            place += 1
        start, name = starts[place]
        if name in functions:
            seen[name, address - start] = set(marks)
    return seen


def stores_off_stack(instruction):
    """Whether an instruction stores to memory that is not addressed from the stack pointer."""
    found = DESTINATION.match(instruction)
    return bool(found) and not READERS.match(found.group(1)) and not re.search(r"\brsp\b", found.group(2))


def wrong_stores(code, seen, name):
    """What is wrong with the stores of a function that stores words of the arena, as lines."""
    wrong = []
    for offset, instruction in code[name].items():
        where = "%s+0x%x: %s" % (name, offset, instruction)
        marks = seen.get((name, offset))
        if marks is not None and "word" in marks:
            if not WORD_MOVE.match(instruction) or not stores_off_stack(instruction):
                wrong.append("a word of the arena is not stored by one 32-bit move: " + where)
        elif marks is None and stores_off_stack(instruction) and not WORD_MOVE.match(instruction):
            wrong.append("a store that store_order never ran, and no 32-bit move: " + where)
    return wrong


def check(program, listing):
    """What is wrong, and the instructions that store words to the arena, both as lines."""
    code, calls = disassembly(ARCHIVE)
    seen = observed(program, listing, code)
    words = {place for place, marks in seen.items() if "word" in marks}
    wrong = []
    for place, marks in seen.items():
        if place[1] not in code[place[0]]:
            wrong.append("%s+0x%x is not an instruction of the archive: build store_order again" % place)
        elif "stored" in marks and not any(place[0] in reached(call, calls) for call in STORING_CALLS):
            wrong.append("%s+0x%x stores to the arena in no call that may" % place)
    for call in sorted(STORING_CALLS):
        if not any(name in reached(call, calls) for name, _ in words):
            wrong.append("%s has no instruction that stores a word to the arena" % call)
    for name in sorted({name for name, _ in words}):
        wrong += wrong_stores(code, seen, name)
    return wrong + wrong_symbols(), ["%s+0x%x: %s" % (*place, code[place[0]].get(place[1])) for place in sorted(words)]


def wrong_symbols():
    """What the archive exports or needs otherwise than the header says, as lines."""
    symbols = [line.split() for line in output("nm", "-g", str(ARCHIVE)).splitlines()]
    exported = {words[2] for words in symbols if len(words) == 3}
    needed = {words[1] for words in symbols if len(words) == 2 and words[0] == "U"}
    declared = set(re.findall(r"^(?:uint32_t|void) (btt_\w+)\(", HEADER.read_text(), re.MULTILINE))
    wrong = ["%s is not both exported and declared" % name for name in sorted(exported ^ declared)]
    return wrong + ["%s is needed" % name for name in sorted(needed - NEEDS)]

"""An upper bound of the stack that each exported function needs, for all inputs, read off the machine code of a static library.

For each function all pushes and subtractions from the stack pointer are added up, whatever the path, or the deepest access below the
stack or frame pointer is taken where that is more; to this comes the deepest function that it calls or jumps to, with 8 bytes for the
return address. There is no bound, and the program says so and ends with 1, if a function calls through a pointer, moves the stack
pointer by a register, calls itself, or calls what is not in the library. A jump through a register is taken for a switch inside the
function: the library has no function pointers. What a function of the C library that the compiler calls needs itself is not in the
bound, and the program names each. x86-64 only.

    stack.py LIBRARY
"""
import re
import subprocess
import sys

OF_C = {"bcmp", "memcmp", "memcpy", "memmove", "memset"}


class Function:
    def __init__(self):
        self.pushed, self.deepest, self.framed, self.calls, self.unbounded = 0, 0, False, set(), None

    def bytes(self):
        return max(self.pushed, self.deepest)


def read(library):
    """Name to function, over all objects of the library."""
    command = ["objdump", "-d", "-r", "-w", "--no-show-raw-insn", library]
    text = subprocess.run(command, check=True, capture_output=True, text=True).stdout
    functions, sections, section, name = {}, {}, None, None
    for line in text.splitlines():
        opens = re.match(r"Disassembly of section (.+):$", line)
        section = opens.group(1) if opens else section
        begins = re.match(r"[0-9a-f]+ <(.+)>:$", line)
        instruction = re.match(r"\s+[0-9a-f]+:\t(?:notrack |bnd |rep )?(\S+)\s*([^\t#]*)", line)
        if begins:
            name = begins.group(1)
            if name in functions:
                sys.exit("no bound: %s is there twice" % name)
            functions[name] = Function()
            sections.setdefault(section, []).append(name)
        elif instruction and name:
            word, operands = instruction.group(1), instruction.group(2).strip()
            take_stack(functions[name], word, operands)
            relocated = re.search(r"R_X86_64_(?:PLT32|PC32)\t(\S+?)(?:[-+]0x[0-9a-f]+)?$", line)
            take_call(functions[name], name, word, operands, relocated)
    for function in functions.values():
        function.calls = {in_section(sections, each) for each in function.calls}
    return functions


def in_section(sections, name):
    """A call may name a section; it is the function in it if that is the only one."""
    held = sections.get(name, [])
    return held[0] if len(held) == 1 else name


def take_stack(function, word, operands):
    constant = re.match(r"\$(0x[0-9a-f]+),%rsp$", operands)
    if word.startswith("push"):
        function.pushed += 8
    elif word.startswith(("sub", "add", "and")) and operands.endswith(",%rsp"):
        if not constant:
            function.unbounded = "it moves the stack pointer by a register"
            return
        value = int(constant.group(1), 0)
        signed = value - 2**64 if value >= 2**63 else value
        if word.startswith("and"):
            function.pushed += -signed
        else:
            function.pushed += max(0, signed if word.startswith("sub") else -signed)
    elif word.startswith("lea") and re.match(r"-0x[0-9a-f]+\(%rsp\),%rsp$", operands):
        function.pushed += int(operands[1 : operands.index("(")], 0)
    elif word.startswith("enter"):
        function.unbounded = "it uses enter"
    if word.startswith("mov") and operands == "%rsp,%rbp":
        function.framed = True
    for offset, base in re.findall(r"-(0x[0-9a-f]+)\(%r([sb]p)", operands):
        if base == "sp":
            function.deepest = max(function.deepest, function.pushed + int(offset, 0))
        elif function.framed:
            function.deepest = max(function.deepest, 8 + int(offset, 0))


def take_call(function, name, word, operands, relocated):
    if word.startswith("call") and operands.startswith("*"):
        function.unbounded = "it calls through a pointer"
    elif word.startswith(("call", "j")) and not operands.startswith("*"):
        target = relocated or re.search(r"<(.+?)(?:\+0x[0-9a-f]+)?>\s*$", operands)
        if word.startswith("call") or target.group(1) != name:
            function.calls.add(target.group(1))


def bound(functions, name, above=()):
    """Bytes below the return address."""
    if name in above:
        raise ValueError("%s calls itself" % name)
    if name in OF_C and name not in functions:
        return 0
    if name not in functions:
        raise ValueError("%s is not in the library" % name)
    function = functions[name]
    if function.unbounded:
        raise ValueError("%s: %s" % (name, function.unbounded))
    return function.bytes() + max((8 + bound(functions, each, above + (name,)) for each in function.calls), default=0)


def main(library):
    functions = read(library)
    exported = sorted(name for name in functions if name.startswith("widosha_"))
    if not exported:
        sys.exit("no exported function in %s" % library)
    try:
        worst = {name: 8 + bound(functions, name) for name in exported}
    except ValueError as what:
        sys.exit("no bound: %s" % what)
    print("%-30s %22s" % ("function", "bytes of stack at most"))
    for name in exported:
        print("%-30s %22d" % (name, worst[name]))
    print("%-30s %22d" % ("largest", max(worst.values())))
    called = sorted(OF_C & {each for function in functions.values() for each in function.calls})
    if called:
        print("without what these of the C library need: %s" % ", ".join(called))


main(sys.argv[1])

"""The code size of the static libraries, and what of it a linked program holds.

For each library: bytes of code, of constants and of data, by section. Then programs in C that name some of the exported functions
are linked with --gc-sections, and the sections of the libraries that the linker's map keeps are added up. x86-64; gcc, nm and objdump
are needed.

    sizes.py FOLDER      the folder that has libdriver_c.a and libframe_c.a
"""
import os
import re
import subprocess
import sys
import tempfile

LIBRARIES = ("driver_c", "frame_c")
KINDS = (("code", ".text"), ("constants", ".rodata"), ("data", ".data"), ("data", ".bss"))
SOME = {
    "start and the eleven calls": "start arrive withdraw request none frame_start outbound_seen stopped header entered fallback "
    "rollback",
    "start alone": "start",
    "one call alone (frame_start)": "frame_start",
    "the header reader alone": "preliminary_frame_info",
    "the checksum and its check": "fcs check_fcs",
}


def run(*command):
    return subprocess.run(command, check=True, capture_output=True, text=True).stdout


def kind_of(section):
    for kind, prefix in KINDS:
        if section == prefix or section.startswith(prefix + "."):
            return kind
    return None


def row(what, sizes):
    print("%-32s %9d %9d %9d" % (what, sizes["code"], sizes["constants"], sizes["data"]))


def add(sizes, section, size):
    kind = kind_of(section)
    if kind:
        sizes[kind] += size


def of_library(path):
    sizes = dict.fromkeys(("code", "constants", "data"), 0)
    for line in run("objdump", "-h", "-w", path).splitlines():
        match = re.match(r"\s*\d+ (\S+)\s+([0-9a-f]+) ", line)
        if match:
            add(sizes, match.group(1), int(match.group(2), 16))
    return sizes


def of_map(text):
    """The sections of the libraries that are kept; the map has those that are dropped before, under a heading of their own."""
    sizes = dict.fromkeys(("code", "constants", "data"), 0)
    kept = text[text.index("Linker script and memory map"):]
    # A long name of a section stands on a line of its own.
    for match in re.finditer(r"^ (\.\S+)\s+0x([0-9a-f]+)\s+0x([0-9a-f]+) (\S+)$", kept, re.MULTILINE):
        section, size, path = match.group(1), int(match.group(3), 16), match.group(4)
        if re.search(r"lib(%s)\.a\(" % "|".join(LIBRARIES), path):
            add(sizes, section, size)
    return sizes


def linked(folder, names):
    with tempfile.TemporaryDirectory() as made:
        source, program, table = (os.path.join(made, name) for name in ("some.c", "some", "some.map"))
        functions = ["widosha_" + name for name in names.split()]
        with open(source, "w", encoding="utf-8") as file:
            file.writelines("void %s(void);\n" % name for name in functions)
            file.write("void (*const volatile kept[])(void) = {%s};\n" % ", ".join(functions))
            file.write("int main(void) { return kept[0] == 0; }\n")
        libraries = ["-l" + name for name in LIBRARIES]
        run("gcc", "-O2", source, "-o", program, "-L", folder, *libraries, "-Wl,--gc-sections", "-Wl,-Map=" + table)
        with open(table, encoding="utf-8") as file:
            sizes = of_map(file.read())
    if not sizes["code"]:
        sys.exit("the linker's map names no section of the libraries")
    return sizes


def exported(folder):
    names = [run("nm", os.path.join(folder, "lib%s.a" % name)) for name in LIBRARIES]
    return " ".join(re.findall(r" T widosha_(\w+)$", "\n".join(names), re.MULTILINE))


def main(folder):
    print("%-32s %9s %9s %9s" % ("bytes", "code", "constants", "data"))
    for name in LIBRARIES:
        row("lib%s.a, all of it" % name, of_library(os.path.join(folder, "lib%s.a" % name)))
    print("in a program that is linked with --gc-sections and names")
    for what, names in [*SOME.items(), ("every function", exported(folder))]:
        row(what, linked(folder, names))


main(sys.argv[1])

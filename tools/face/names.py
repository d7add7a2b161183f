"""Compares the numbers and names of faults: those of the engine, of the header, of its table, and of the library."""
import re
import sys

# The face's own, beside those of the engine; and those of its C alone.
OWN = {22: "HandleOut", 23: "HandleTaken", 24: "RoomSmall", 26: "NoMerge"}
OF_C = {25: "NoKeeper"}


def of_engine(path):
    """What `Fault::number` and `Fault::name` give."""
    with open(path, encoding="utf-8") as file:
        text = file.read()
    numbers = dict(re.findall(r"^ +Fault::(\w+)(?:\(.*?\))? => (\d+),$", text, re.M))
    names = dict(re.findall(r'^ +Fault::(\w+)(?:\(.*?\))? => "(\w+)",$', text, re.M))
    if not numbers or numbers.keys() != names.keys():
        sys.exit(f"{path}: its names and numbers can't be read")
    return {int(number): names[fault] for fault, number in numbers.items()}


def of_header(path):
    """The numbers of the header's enumeration, with names spelled as the engine spells them."""
    with open(path, encoding="utf-8") as file:
        listed = re.search(r"enum \{\s+FKV_BAD_SHAPE = 1,.*?\};", file.read(), re.S)
    found = re.findall(r"FKV_(\w+) = (\d+)", listed[0])
    return {int(number): "".join(it.capitalize() for it in name.split("_")) for name, number in found}


def compare(what, got, wanted):
    for number in sorted(got.keys() | wanted.keys()):
        if got.get(number) != wanted.get(number):
            sys.exit(f"{what}: fault {number} is {got.get(number)}, and should be {wanted.get(number)}")


def names(engine, header, printed):
    """`printed` is what tests/names.c prints: a number, its name, that of minus it, and the library's, if it has one."""
    of_library = {**of_engine(engine), **OWN}
    wanted = {**of_library, **OF_C}
    compare("fkv.h", {number: name.upper().replace("_", "") for number, name in of_header(header).items()}, {number: name.upper() for number, name in wanted.items()})
    rows = [line.split() for line in printed.splitlines()]
    known = {int(it[0]): it for it in rows if it[1] != "Unknown"}
    compare("fkv_name_of", {number: it[1] for number, it in known.items()}, wanted)
    compare("fkv_name_of, below 0", {number: it[2] for number, it in known.items()}, wanted)
    compare("fkv_fault_name", {int(it[0]): it[3] for it in rows if len(it) > 3}, of_library)
    return f"{len(wanted)} faults have one name and number each"

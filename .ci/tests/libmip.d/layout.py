"""Writes a C program that tells sizes and places of all fields of the structs that both mip.py and the named mip.h have, and its numbers, or behind it with --own the same of mip.py."""
import ctypes
import sys

import mip

with open(sys.argv[1], encoding="utf-8") as it:
    HEADER = it.read()
NUMBERS = [("MIP_", mip.Status), ("MIP_ANSWER_", mip.AnswerKind)]
WHYS = [(f"MIP_WHY_{word.upper()}", number) for number, word in enumerate(mip.WHY)]


def fields():
    for struct in (it for it in mip.STRUCTS if f"struct {it._name_} {{" in HEADER):
        yield struct._name_, None, ctypes.sizeof(struct), 0
        for name, kind in struct._fields_:
            yield struct._name_, name, ctypes.sizeof(kind), getattr(struct, name).offset


NUMBERS = [it for it in NUMBERS if f" {it[0]}{next(iter(it[1])).name} = " in HEADER]
WHYS = [it for it in WHYS if f" {it[0]} = " in HEADER]
if sys.argv[2:] == ["--own"]:
    for struct, name, size, place in fields():
        print(struct, name or "-", size, place)
    for before, kind in NUMBERS:
        for it in kind:
            print(before + it.name, int(it))
    for name, number in WHYS:
        print(name, number)
else:
    print('#include "mip.h"\n#include <stdio.h>\n#include <stddef.h>\nint main(void)\n{')
    for struct, name, _, _ in fields():
        if name:
            print(f'    printf("{struct} {name} %zu %zu\\n", sizeof(((struct {struct} *)0)->{name}), offsetof(struct {struct}, {name}));')
        else:
            print(f'    printf("{struct} - %zu 0\\n", sizeof(struct {struct}));')
    for before, kind in NUMBERS:
        for it in kind:
            print(f'    printf("{before}{it.name} %d\\n", {before}{it.name});')
    for name, _ in WHYS:
        print(f'    printf("{name} %d\\n", {name});')
    print("    return 0;\n}")

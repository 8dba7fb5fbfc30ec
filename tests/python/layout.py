"""How the structs and numbers of examples/python/sackbutflare.py are laid, a line each; with an argument, a program in C that prints the same of
include/sackbutflare.h."""
import sys

import sackbutflare

NUMBERS = (
    "LABEL CHIP EVERYONE SELECTED ONE_UID ERROR DONE FOUND BLOCK LOCKED_BLOCK SYSTEM CHIP_ID WORD CHIP_UID BLOCKS LOCKED_BLOCKS LOCKS".split()
)


def c_line(text, *numbers):
    print('    printf("%s\\n", %s);' % (text, ", ".join("(size_t)" + n for n in numbers)))


def c_program():
    print('#include "sackbutflare.h"\n#include <stdio.h>\n\nint main(void)\n{')
    for name, struct in sackbutflare.STRUCTS.items():
        c_name = "struct sackbutflare_" + name
        c_line("%s %%zu" % name, "sizeof(%s)" % c_name)
        for field, _ in struct._fields_:
            c_line("%s.%s %%zu %%zu" % (name, field), "offsetof(%s, %s)" % (c_name, field), "sizeof((%s *)0)->%s" % (c_name, field))
    for name in NUMBERS:
        c_line("%s %%zu" % name, "SACKBUTFLARE_" + name)
    c_line("EDITION %zu", "SACKBUTFLARE_VERSION / 100")
    print("}")


def python_side():
    for name, struct in sackbutflare.STRUCTS.items():
        print(name, sackbutflare.ctypes.sizeof(struct))
        for field, _ in struct._fields_:
            place = getattr(struct, field)
            print("%s.%s %d %d" % (name, field, place.offset, place.size))
    for name in NUMBERS:
        print(name, getattr(sackbutflare, name))
    print("EDITION", sackbutflare.EDITION)


c_program() if len(sys.argv) > 1 else python_side()

"""Inside gdb, which has a program: how many bytes of the host's stack each call of some functions uses.

FUNCTIONS, in the environment, are their names, with a comma between. At each entry what is below SP is painted; after
the return it is looked at how far down it was overwritten. The program is run once with each of two paints, and for
each call the larger figure is printed, with the function's name before it. As in tests/monitor/host_stack.c each call
of memcpy or memset is looked up by the dynamic linker.
"""
import os

import gdb

ROOM = 2 << 20  # bytes below SP, more than any call uses
RETURN_BYTES = 8
FUNCTIONS = os.environ['FUNCTIONS'].split(',')


def register(name):
    return int(gdb.parse_and_eval(f'(unsigned long)${name}'))


def used_below(sp, paint):
    """Runs on to the return from the function that was entered with this SP."""
    process = gdb.selected_inferior()
    back = int.from_bytes(process.read_memory(sp, RETURN_BYTES), 'little')
    process.write_memory(sp - ROOM, paint * ROOM)
    gdb.Breakpoint(f'*{back}', temporary=True)
    gdb.execute('continue')
    below = bytes(process.read_memory(sp - ROOM, ROOM))
    return RETURN_BYTES + len(below.lstrip(paint))


def calls(paint):
    """The function and the bytes of each call, in the order of the calls."""
    gdb.execute('starti')
    entries = {int(gdb.parse_and_eval(f"(unsigned long)&'{name}'")): name for name in FUNCTIONS}
    for entry in entries:
        gdb.Breakpoint(f'*{entry}')
    gdb.execute('continue')
    found = []
    while gdb.selected_inferior().pid != 0:
        found.append((entries[register('pc')], used_below(register('sp'), paint)))
        gdb.execute('continue')
    gdb.execute('delete')
    return found


gdb.execute('set confirm off')
gdb.execute('set environment LD_BIND_NOT 1')
for first, second in zip(calls(b'\xa5'), calls(b'\x3c'), strict=True):
    print(first[0], max(first[1], second[1]))

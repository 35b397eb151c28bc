#!/usr/bin/env python3
"""What modules say of their cells and limits, by ctypes: a line for each module that a reply to 42H or 47H tells of.

    cells.py LIBHANUZAK.SO [ADR..] < capture        the modules' ADRs in hex, rising; 02 where none is given

A reply is read where the question before it was 42H or 47H to a module that was named; see examples/c/cells.c.
Once the limits of a module were read (47H), the cells that are outside are told with their marks.
"""
import ctypes
import os
import pathlib
import re
import sys
from ctypes import POINTER, c_int16, c_int32, c_size_t, c_uint8, c_uint16, c_uint32

HEADER = pathlib.Path(__file__).resolve().parents[2] / "include/hanuzak.h"
NOTHING, FRAME, REFUSED = 0, 1, 2  # kinds of an event and of a reply
LOWER_CASE, NO_HEX_DIGIT = 4, 9  # the refusals with the place of a character
CID1, ANALOG, PARAMETERS, GROUP, STORE = 0x46, 0x42, 0x47, 0xFF, 4110
RETURN_CODES = {*range(0x00, 0x07), 0x90, 0x91}


def struct(size, **fields):
    """A struct of hanuzak.h: its fields in order, and its size, which the header asserts too."""
    made = type("Struct", (ctypes.Structure,), {"_fields_": list(fields.items())})
    assert ctypes.sizeof(made) == size, (ctypes.sizeof(made), size)
    return made


Analog = struct(68, cell_count=c_uint8, cells=c_int16 * 16, temperature_count=c_uint8, temperatures=c_int16 * 8,
                current=c_int16, voltage=c_uint16, remaining=c_uint32, total=c_uint32, cycles=c_uint16)
Alarm = struct(34, cell_count=c_uint8, cells=c_uint8 * 16, temperature_count=c_uint8, temperatures=c_uint8 * 8,
               charge_current=c_uint8, module_voltage=c_uint8, discharge_current=c_uint8, status=c_uint8 * 5)
Limits = struct(10, charge_voltage=c_uint16, discharge_voltage=c_uint16, charge_current=c_int16,
                discharge_current=c_int16, status=c_uint8)
Parameters = struct(24, cell_high_voltage=c_int16, cell_low_voltage=c_int16, cell_under_voltage=c_int16,
                    charge_high_temperature=c_int16, charge_low_temperature=c_int16, charge_current=c_int16,
                    module_high_voltage=c_uint16, module_low_voltage=c_uint16, module_under_voltage=c_uint16,
                    discharge_high_temperature=c_int16, discharge_low_temperature=c_int16, discharge_current=c_int16)
Module = struct(164, adr=c_uint8, on=c_uint8, link_fault=c_uint8, analog=Analog, alarm=Alarm, limits=Limits,
                serial=c_uint8 * 16, version=c_uint8 * 5, parameters=Parameters)
Event = struct(24, kind=c_uint32, number=c_uint32, ver=c_uint8, adr=c_uint8, cid1=c_uint8, cid2=c_uint8, place=c_uint32,
               lenid=c_size_t)
Receiver = struct(16, open=c_size_t, count=c_size_t)
Ran = struct(56, next=Receiver, event=Event, taken=c_size_t, held=c_size_t)
Question = struct(3, adr=c_uint8, cid2=c_uint8, command=c_uint8)
Reply = struct(48, kind=c_uint32, number=c_uint32, ver=c_uint8, code=c_uint8, flag=c_uint8, maker=c_uint8 * 32,
               place=c_uint32)

Bytes, Table = POINTER(c_uint8), POINTER(Module)
FUNCTIONS = {
    "receiver_new": (Receiver,),
    "run": (Ran, Receiver, Bytes, c_size_t, Bytes, c_size_t),
    "module_new": (Module, c_uint8),
    "table": (c_uint8, Table, c_size_t),
    "read_reply": (Reply, Table, c_size_t, Question, Bytes, c_size_t),
    "tenths_celsius": (c_int32, c_int16),
    "milliamps": (c_int32, c_int16),
}


class Hanuzak:
    """The functions of the library by their names without hanuzak_, each with the types of the header."""

    def __init__(self, path):
        library = ctypes.CDLL(path)
        for name, (returns, *takes) in FUNCTIONS.items():
            function = getattr(library, "hanuzak_" + name)
            function.restype, function.argtypes = returns, takes
            setattr(self, name, function)


def refusal_words():
    """The words of each number, from the header."""
    return {int(number): words for number, words in re.findall(r'each\(\w+, (\d+), "(.*)"\)', HEADER.read_text())}


def refusal(told, words):
    """The number of an event or a reply that is refused, where there is one the place, and the words."""
    place = f" at place {told.place}" if told.number in (LOWER_CASE, NO_HEX_DIGIT) else ""
    return f"refused, {told.number}{place}: {words[told.number]}"


def outside(cell, limits):
    """The mark of a cell, with the limit that it is outside of; none at a limit."""
    if cell > limits.cell_high_voltage:
        return f"ABOVE {limits.cell_high_voltage}"
    if cell < limits.cell_under_voltage:
        return f"UNDER {limits.cell_under_voltage}"
    return f"BELOW {limits.cell_low_voltage}" if cell < limits.cell_low_voltage else None


def held(module):
    """The cells beside their limits: those that are outside."""
    limits, analog = module.parameters, module.analog
    marks = [(place + 1, outside(cell, limits)) for place, cell in enumerate(analog.cells[: analog.cell_count])]
    told = [f"cell {number} {mark}" for number, mark in marks if mark]
    return ", ".join(told) if told else f"all cells in {limits.cell_low_voltage} to {limits.cell_high_voltage} mV"


def limits_of(hanuzak, module):
    limits, celsius = module.parameters, hanuzak.tenths_celsius
    return (f"module {module.adr:02X}: limits: cells {limits.cell_high_voltage}, {limits.cell_low_voltage}, "
            f"{limits.cell_under_voltage} mV, charge {celsius(limits.charge_high_temperature) / 10}, "
            f"{celsius(limits.charge_low_temperature) / 10} C, {hanuzak.milliamps(limits.charge_current)} mA, "
            f"module {limits.module_high_voltage}, {limits.module_low_voltage}, {limits.module_under_voltage} mV, "
            f"discharge {celsius(limits.discharge_high_temperature) / 10}, "
            f"{celsius(limits.discharge_low_temperature) / 10} C, {hanuzak.milliamps(limits.discharge_current)} mA")


def reading(hanuzak, module):
    analog = module.analog
    cells = analog.cells[: analog.cell_count]
    warmest = max(hanuzak.tenths_celsius(raw) for raw in analog.temperatures[: analog.temperature_count])
    return (f"module {module.adr:02X}: {len(cells)} cells of {min(cells)} to {max(cells)} mV, up to {warmest / 10} C, "
            f"{analog.voltage} mV, {hanuzak.milliamps(analog.current)} mA, {analog.remaining} of {analog.total} mAh, "
            f"{analog.cycles} cycles")


def pieces():
    """What has come on standard input, as it comes."""
    while piece := os.read(0, 1 << 16):
        yield (c_uint8 * len(piece)).from_buffer_copy(piece)


def events(hanuzak, store):
    """Each event of the stream and the offset of the SOI of its stretch, which stands in the store."""
    receiver, offset = hanuzak.receiver_new(), 0
    for piece in pieces():
        at = 0
        while at < len(piece):
            rest = ctypes.cast(ctypes.byref(piece, at), Bytes)
            ran = hanuzak.run(receiver, store, len(store), rest, len(piece) - at)
            receiver, at = ran.next, at + ran.taken
            if ran.event.kind != NOTHING:
                yield offset + at - 1 - ran.held - 1, ran.event
        offset += len(piece)


def main():
    if len(sys.argv) < 2:
        sys.exit(__doc__)
    hanuzak, words = Hanuzak(sys.argv[1]), refusal_words()
    addresses = [int(text, 16) for text in sys.argv[2:]] or [0x02]
    table = (Module * len(addresses))(*map(hanuzak.module_new, addresses))
    if hanuzak.table(table, len(table)) != 0:
        sys.exit("cells.py: " + words[31])
    store = (c_uint8 * STORE)()
    question, read = None, set()  # read: the ADR and command of what was read
    for at, event in events(hanuzak, store):
        if event.kind == REFUSED:
            print(f"at {at}: stretch {refusal(event, words)}", flush=True)
        elif event.cid2 not in RETURN_CODES:
            command = int(bytes(store[12:14]), 16) if event.lenid == 2 else 0
            asked = (event.cid1, event.cid2, event.lenid)
            ours = event.adr in addresses and asked in ((CID1, ANALOG, 2), (CID1, PARAMETERS, 0))
            question = Question(event.adr, event.cid2, command) if ours else None
        elif question is not None:
            reply = hanuzak.read_reply(table, len(table), question, store, 16 + event.lenid)
            if reply.kind == REFUSED:
                print(f"at {at}: reply {refusal(reply, words)}", flush=True)
                continue
            if reply.code != 0:
                print(f"at {at}: return code {reply.code:02X}, no values", flush=True)
            else:
                for module in table:
                    if question.command == GROUP or question.adr == module.adr:
                        # cells that were read before stand beside a module's first limits only: else they were held to others
                        fresh = question.cid2 == ANALOG or (module.adr, PARAMETERS) not in read
                        read.add((module.adr, question.cid2))
                        told = reading if question.cid2 == ANALOG else limits_of
                        both = fresh and {(module.adr, ANALOG), (module.adr, PARAMETERS)} <= read
                        print(f"at {at}: {told(hanuzak, module)}" + (f"; {held(module)}" if both else ""), flush=True)
            question = None


main()

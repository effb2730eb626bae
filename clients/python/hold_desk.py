"""The planning core of a hold desk, called from Python: a shared object made from the archive target/staticlib/libdesk.a.

Run as a program it reads a day sheet on standard input, plans the day and prints the board: one line for each landing, by landing
period, then by due period, then in sheet order.
"""
import ctypes
import pathlib
import subprocess
import sys

ROOT = pathlib.Path(__file__).resolve().parents[2]

MOST_PERIODS, MOST_FLIGHTS = 96, 128
FLIGHT_WIDTH = 7  # numbers of a flight; two of its columns
NUMBER, DUE = 0, 1
NO_CURFEW = 256  # the closing number of a day whose closing period takes any number of flights


class Answer(ctypes.Structure):
    _fields_ = [("number", ctypes.c_uint64), ("first", ctypes.c_uint64), ("second", ctypes.c_uint64)]


class Reading(ctypes.Structure):
    """What reading a sheet answers: an answer, and the closing number."""

    _fields_ = [*Answer._fields_, ("closing", ctypes.c_uint64)]


class Refused(Exception):
    """A refusal: number, first and second as include/hold_desk.h lists them."""

    def __init__(self, answer):
        super().__init__(f"{answer.number},{answer.first},{answer.second}")
        self.number, self.first, self.second = answer.number, answer.first, answer.second


def load():
    """The library; the shared object is linked from the archive when it is missing or older."""
    archive = ROOT / "target/staticlib/libdesk.a"
    shared = ROOT / "target/staticlib/libdesk.so"
    if not shared.exists() or shared.stat().st_mtime < archive.stat().st_mtime:
        subprocess.run(["gcc", "-shared", "-o", shared, "-Wl,--whole-archive", archive, "-Wl,--no-whole-archive"], check=True)
    library = ctypes.CDLL(str(shared))
    library.hold_desk_read_sheet.restype = Reading
    for name in ("full_plan", "board"):
        getattr(library, "hold_desk_" + name).restype = Answer
    return library


def row(numbers):
    """A lent row: a pointer and a length."""
    cells = (ctypes.c_uint32 * len(numbers))(*numbers)
    return cells, (cells, ctypes.c_size_t(len(numbers)))


def accepted(answer):
    if answer.number != 0:
        raise Refused(answer)
    return answer


def plan_sheet(library, sheet):
    """(total, [(lands, flight, hold)], prices) of a sheet's bytes, or Refused. A price is what one more landing would save; under a
    curfew the last is the closing period's."""
    capacities, lent_capacities = row([0] * MOST_PERIODS)
    flights, lent_flights = row([0] * (MOST_FLIGHTS * FLIGHT_WIDTH))
    text = ctypes.create_string_buffer(sheet, max(len(sheet), 1))
    day = accepted(library.hold_desk_read_sheet(text, ctypes.c_size_t(len(sheet)), *lent_capacities, *lent_flights))
    capacities, lent_capacities = row(capacities[: day.first])
    flights, lent_flights = row(flights[: day.second * FLIGHT_WIDTH])
    lent_day = (*lent_capacities, *lent_flights, ctypes.c_uint32(day.closing))
    holds, lent_holds = row([0] * day.second)
    prices, lent_prices = row([0] * (day.first + (day.closing != NO_CURFEW)))
    board, lent_board = row([0] * day.second)
    plan = accepted(library.hold_desk_full_plan(*lent_day, *lent_holds, *lent_prices))
    accepted(library.hold_desk_board(*lent_day, *lent_holds, *lent_board))
    landings = [(flights[i * FLIGHT_WIDTH + DUE] + holds[i], flights[i * FLIGHT_WIDTH + NUMBER], holds[i]) for i in board]
    return plan.first, landings, list(prices)


def main():
    try:
        total, landings, _ = plan_sheet(load(), sys.stdin.buffer.read())
    except Refused as refusal:
        sys.exit(f"refusal,first,second\n{refusal}")
    print("lands,flight,hold")
    for landing in landings:
        print("%d,%d,%d" % landing)
    print(f"total\n{total}")


if __name__ == "__main__":
    main()

"""Run by gdb over `report`: the processor time and the peak memory of each of its parts.

gdb -batch -x parts.py PROGRAM, where INPUT names the capture, and WORDS may have further words. With `sites` for
COMMAND it runs over that command, whose stores WORDS names. For each part, in their order, a line with its name, the
milliseconds that it took, and the peak memory of the program up to its end in kilobytes.
"""

import os
import time

import gdb

# The function whose entry begins the first part, each part, and the function whose next entry ends it.
PARTS = {
    "report": ("frame_records::reading::read_records", [
        ("reading", "report_text::putting::put_number"),
        ("dealing", "report_text::putting::put_positions"),
        ("folding", "cut_merge::merged::merge_node"),
        ("merging", "hhh_output::selecting::select_lines"),
        ("selecting", "report_text::putting::put_positions"),
        ("printing", "write"),
    ]),
    "sites": ("main", [
        ("reading", "cut_merge::merged::merge_node"),
        ("merging", "hhh_output::selecting::select_lines"),
        ("selecting", "write"),
    ]),
}


def stop_at(function, command):
    """Runs the program until it enters the function."""
    gdb.execute("rbreak ^" + function, to_string=True)
    gdb.execute(command, to_string=True)
    gdb.execute("delete", to_string=True)
    if not (gdb.selected_inferior().pid and gdb.selected_frame().name().startswith(function)):
        raise gdb.GdbError("the program doesn't enter " + function)


def stand():
    """The processor time so far in nanoseconds, and the peak memory so far in kilobytes."""
    pid = gdb.selected_inferior().pid
    with open("/proc/%d/status" % pid) as status:
        peak = next(line for line in status if line.startswith("VmHWM:"))
    # The clock of a process counts all its threads, those too that have ended, as the workers have by then.
    return time.clock_gettime_ns(~pid << 3 | 2), int(peak.split()[1])


def main():
    gdb.execute("set confirm off")
    command = os.environ.get("COMMAND", "report")
    first, parts = PARTS[command]
    stop_at(first, "run %s %s <'%s' >/dev/null" % (command, os.environ.get("WORDS", ""), os.environ["INPUT"]))
    before, most = stand()
    for part, end in parts:
        stop_at(end, "continue")
        now, peak = stand()
        most = max(most, peak)
        print("part", part, (now - before) / 1e6, most)
        before = now
    gdb.execute("kill")


main()

#!/usr/bin/env python3
"""Makes the generated script, of which `pdl --generate N` writes the summary.

    bench/generated.py N                 writes the script of N rounds
    bench/generated.py N PROGRAM         runs PROGRAM over it and PROGRAM --generate N, writes the summary and
                                         the seconds of both, and ends with status 1 where the summary doesn't
                                         count what the first prints

The text of the script is docs/LANGUAGE.md's.
"""

import subprocess
import sys
import time


def round_line(bits):
    """The line of a round, by the high bits of its seed."""
    column, row, number = bits % 8, bits // 8 % 6 % 4, bits // 48 % 100
    return [
        f'$a->slice("{column},:") += {number};\n',
        f"$v->xchg(0,1)->index(pdl [[{row}],[0]]) .= {number};\n",
        f'$v .= $a->slice("0:5,0:3") + {number};\n',
        "p $v->sumover;\n",
    ][bits % 4]


def script(rounds):
    """The lines of the script of so many rounds."""
    if rounds == 0:
        return []
    lines = ["$a = sequence(8,6);\n", '$v = $a->slice("1:6,1:4");\n']
    seed = 1
    for _ in range(rounds):
        seed = (seed * 1103515245 + 12345) % 2**31
        lines.append(round_line(seed // 65536))
    return lines


def run(*words, text=b""):
    """What the program writes, and the seconds that it takes."""
    start = time.monotonic()
    written = subprocess.run(words, input=text, stdout=subprocess.PIPE).stdout
    return written, time.monotonic() - start


def compare(rounds, program):
    """Whether the program's summary counts what it prints for the script."""
    lines = script(rounds)
    printed, seconds = run(program, text="".join(lines).encode())
    summary, at_once = run(program, "--generate", str(rounds))
    sys.stdout.write(summary.decode())
    print(f"{at_once:.3f} seconds, and {seconds:.3f} over the script on standard input")
    return summary == b"statements %d bytes %d sum %d\n" % (len(lines), len(printed), sum(printed))


if __name__ == "__main__":
    if len(sys.argv) == 2:
        sys.stdout.writelines(script(int(sys.argv[1])))
    else:
        sys.exit(0 if compare(int(sys.argv[1]), sys.argv[2]) else 1)

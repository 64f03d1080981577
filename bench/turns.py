#!/usr/bin/env python3
"""Times plays of 1 to 10 million turns, and compares them with a plain interpreter in C.

An endless loop counts and prints nothing, and is spent after the turns that the words give. The shortest time of some
plays counts, less that of an empty text. If the time is linear in the turns, the ratios are those of the numbers of
turns. The plain interpreter is bench/switch.c, and is compiled here by the C compiler in the variable CC, or else by
cc. It plays the codes of the same programs for the most turns, and tells its processor time itself.
"""
import measure

MILLION = 1_000_000
TURNS = (MILLION, 2 * MILLION, 4 * MILLION, 10 * MILLION)


def program(variables, loop):
    """A program with an endless loop."""
    return f"ACTION A=P;PROCEDURE P;{variables}L: {loop}GOTO L;ENDPROC;".encode()


# The kind, and the program. The numbers of the programs of bench/switch.c are their places here.
KINDS = (
    ("a loop of a sum and a jump", program("INTEGER I;", "I=I+1;")),
    ("a loop of a sum and an IF", program("INTEGER I;", "I=I+1;IF I<I THEN EXIT 1;")),
    ("a jump to itself", program("", "")),
    ("INTEGER elements, read and written", program("INTEGER I;INTEGER X[1024];", "X[I]=X[I]+1;I=I+1&1023;")),
    ("BOOLEAN elements, read and written", program("INTEGER I;BOOLEAN A[1024];", "A[I]=!A[I];I=I+1&1023;")),
    ("ranges of 32 bits, read and written",
     program("INTEGER I;BOOLEAN A[64];", "I=INT(A[47..16])+1;A[47..16]=BOOL(I);")),
)


def main():
    with measure.Bench(__doc__.splitlines()[0]) as bench:
        switch = measure.compiled("switch", bench.folder.name)
        most = TURNS[-1] // MILLION
        measure.head("Program", [f"{turns // MILLION} million" for turns in TURNS], f"C, {most} million", "To C")
        for number, (kind, text) in enumerate(KINDS):
            times = [bench.seconds(text, 3, f"turns={turns}") for turns in TURNS]
            plain = measure.switch_seconds(switch, number, TURNS[-1], bench.runs)
            measure.row(kind, times, f"{plain:.4f} s", f"{times[-1] / plain:.1f}")


if __name__ == "__main__":
    main()

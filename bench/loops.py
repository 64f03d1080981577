#!/usr/bin/env python3
"""Times plays of loops and calls: 1 to 10 million rounds of nested loops, and up to 1 million calls.

The nested loops are made by FOR and NEXT, and once more by IF and GOTO, with a literal step in both. The last column is
how many times longer a program takes than the same rounds by IF and GOTO. The shortest time of some plays counts, less
that of an empty text. If the time is linear in the rounds, the ratios are those of the numbers of rounds.
"""
import measure

THOUSAND = 1_000
INNER = THOUSAND
ROUNDS = (THOUSAND, 2 * THOUSAND, 4 * THOUSAND, 10 * THOUSAND)
CALLS = (100 * THOUSAND, 200 * THOUSAND, 400 * THOUSAND, 1000 * THOUSAND)


def program(code, more=""):
    """A program whose procedure P has this code."""
    return f"ACTION A=P;PROCEDURE P;INTEGER I;INTEGER J;INTEGER K;{code}ENDPROC;{more}".encode()


def by_for(body):
    """Nested loops of FOR: so many times a thousand rounds of a body."""
    return lambda n: program(f"FOR I=1 TO {n};FOR J=1 TO {INNER};{body}NEXT J;NEXT I;")


def by_goto(body):
    """The same by IF and GOTO."""
    inner = f"J=1;M:{body}J=J+1;IF J<={INNER} THEN GOTO M;"
    return lambda n: program(f"I=1;L:{inner}I=I+1;IF I<={n} THEN GOTO L;")


def calls(procedure):
    """So many calls of a procedure, in a loop of FOR."""
    return lambda n: program(f"FOR I=1 TO {n};CALL Q;NEXT I;", f"PROCEDURE Q;{procedure}ENDPROC;")


def values(n):
    """So many values, put on the record stack and taken off again, in a loop of FOR."""
    return program(f"FOR I=1 TO {n};PUSH I;POP K;NEXT I;")


# The kind, the program of so many rounds, and the same by IF and GOTO, if there is that.
LOOPS = (
    ("nested loops, nothing in them", by_for(""), by_goto("")),
    ("nested loops of a sum", by_for("K=K+J;"), by_goto("K=K+J;")),
)
RECORDS = (
    ("calls of an empty procedure", calls("")),
    ("calls of a procedure that leaves a loop", calls("INTEGER N;FOR N=1 TO 2;")),
    ("a PUSH and a POP", values),
)


def times_of(bench, program_of, sizes):
    """The times of a program by its rounds; each play comes to its end."""
    return [bench.seconds(program_of(size), 0) for size in sizes]


def main():
    with measure.Bench(__doc__.splitlines()[0]) as bench:
        millions = [f"{n * INNER // 1_000_000} million rounds" for n in ROUNDS]
        measure.head("Program", millions, "by IF and GOTO", "To that")
        for kind, looped, plain in LOOPS:
            times = times_of(bench, looped, ROUNDS)
            goto = times_of(bench, plain, ROUNDS[-1:])[0]
            measure.row(kind, times, f"{goto:.4f} s", f"{times[-1] / goto:.2f}")
        print()
        measure.head("Program", [f"{n:,} rounds" for n in CALLS])
        for kind, program_of in RECORDS:
            measure.row(kind, times_of(bench, program_of, CALLS))


if __name__ == "__main__":
    main()

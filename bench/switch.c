/* A yardstick for bench/turns.py and bench/copies.py: the stack machine of docs/CODE.md as a plain interpreter with a
 * switch, for the codes of the benches alone.
 *
 *     switch PROGRAM TURNS
 *
 * plays so many turns of the program of that number, and prints the seconds of processor time that they took. It makes
 * the tests that a program can fail: of indexes, ranges and lengths, of a zero divisor and of a shift count. It makes
 * none that no valid code fails: operands are there, and are of the kinds that an instruction takes. */
#include <stdint.h>
#include <stdio.h>
#include <stdlib.h>
#include <string.h>
#include <time.h>

enum { INTEGERS = 1024, MOST_BITS = 4194304 };

/* A value of an expression: an integer of 32 bits, or a Boolean as 0 or 1. */
enum kind { INT, BIT };
struct value { enum kind kind; int32_t number; };

/* A variable: a scalar, or an array of 32-bit integers, or one of bits, each of which has a byte of its own. */
struct variable { struct value scalar; uint32_t count; int32_t *integers; uint8_t *bits; };

enum op {
    TURN, PUSH, PUSH_BIT, LOAD, LOAD_AT, CHECK_INDEX, CHECK_RANGE, STORE, STORE_AT, UNARY, BINARY, TO_INT, COPY_BITS,
    JUMP, JUMP_IF_ZERO, EXIT
};

/* Where bits come from or go to: a whole array, a range of one, or an integer. */
enum place { WHOLE, RANGE, FROM_INT };

/* An instruction. The first number is the value that is pushed, or the variable, operator or target; of COPY_BITS it is
 * the array of the destination, and the second one that of the source. */
struct instr { enum op op; int32_t first; enum place dest, source; int32_t second; };

enum ending { SPENT, EXITED, DIVIDE_BY_ZERO, SHIFT_COUNT, INDEX_OUT_OF_RANGE, RANGE_REVERSED, LENGTH_MISMATCH };

/* A part of an array of bits: its lowest index, and how many bits it has. */
struct part { uint32_t low, count; };

static struct value integer(int32_t number) { return (struct value){INT, number}; }
static struct value bit(int32_t number) { return (struct value){BIT, number}; }

static int is_index(int32_t index, uint32_t count) { return index >= 0 && (uint32_t)index < count; }

/* What an operator makes of two numbers, as in the tables of docs/CODE.md. */
static enum ending combine(int32_t op, int32_t a, int32_t b, struct value *made) {
    switch (op) {
    case 0: *made = integer((int32_t)((uint32_t)a + (uint32_t)b)); break;
    case 1: *made = integer((int32_t)((uint32_t)a - (uint32_t)b)); break;
    case 2: *made = integer((int32_t)((uint32_t)a * (uint32_t)b)); break;
    case 3:
        if (b == 0) return DIVIDE_BY_ZERO;
        *made = integer(b == -1 ? (int32_t)-(uint32_t)a : a / b);
        break;
    case 4:
        if (b == 0) return DIVIDE_BY_ZERO;
        *made = integer(b == -1 ? 0 : a % b);
        break;
    case 5: *made = integer(a & b); break;
    case 6: *made = integer(a | b); break;
    case 7: *made = integer(a ^ b); break;
    case 8:
        if (b < 0 || b >= 32) return SHIFT_COUNT;
        *made = integer((int32_t)((uint32_t)a << b));
        break;
    case 9:
        if (b < 0 || b >= 32) return SHIFT_COUNT;
        *made = integer(a >> b);
        break;
    case 10: case 21: *made = bit(a == b); break;
    case 11: case 18: case 22: *made = bit(a != b); break;
    case 12: *made = bit(a < b); break;
    case 13: *made = bit(a <= b); break;
    case 14: *made = bit(a > b); break;
    case 15: *made = bit(a >= b); break;
    case 16: case 19: *made = bit(a & b); break;
    case 17: case 20: *made = bit(a | b); break;
    }
    return SPENT;
}

static struct value sign(int32_t op, int32_t a) {
    switch (op) {
    case 0: return integer((int32_t)-(uint32_t)a);
    case 1: return integer(~a);
    case 2: return integer(a < 0 ? (int32_t)-(uint32_t)a : a);
    default: return bit(!a);
    }
}

/* The part from a high index down to a low one. */
static enum ending range(const struct variable *array, const struct value *bounds, struct part *part) {
    int32_t high = bounds[0].number, low = bounds[1].number;
    if (!is_index(high, array->count) || !is_index(low, array->count)) return INDEX_OUT_OF_RANGE;
    if (high < low) return RANGE_REVERSED;
    *part = (struct part){(uint32_t)low, (uint32_t)(high - low) + 1};
    return SPENT;
}

/* The integer with the lowest 32 bits of a part. */
static int32_t number_of(const uint8_t *bits, struct part part) {
    uint32_t number = 0, count = part.count < 32 ? part.count : 32;
    for (uint32_t i = 0; i < count; i++) number |= (uint32_t)bits[part.low + i] << i;
    return (int32_t)number;
}

/* How many operands a place takes. */
static int taken_by(enum place place) { return place == RANGE ? 2 : place == FROM_INT; }

/* Copies bits between arrays, or from an integer; the operands of the destination stand before those of the source. */
static enum ending copy_bits(struct variable *variables, const struct instr *instr, const struct value *operands) {
    struct variable *dest = &variables[instr->first], *source = &variables[instr->second];
    struct part to = {0, dest->count}, from = {0, instr->source == FROM_INT ? 32 : source->count};
    enum ending ending;
    if (instr->dest == RANGE && (ending = range(dest, operands, &to)) != SPENT) return ending;
    operands += taken_by(instr->dest);
    if (instr->source == RANGE && (ending = range(source, operands, &from)) != SPENT) return ending;
    if (from.count < to.count) return LENGTH_MISMATCH;
    if (instr->source == FROM_INT)
        for (uint32_t i = 0; i < to.count; i++) dest->bits[to.low + i] = (uint32_t)operands->number >> i & 1;
    else
        memmove(dest->bits + to.low, source->bits + from.low, to.count);
    return SPENT;
}

/* Plays at most so many turns. The top is the place after the last operand. */
static enum ending play(const struct instr *code, struct variable *variables, uint32_t turns) {
    static struct value operands[64];
    struct value *top = operands;
    const struct instr *next = code;
    struct variable *variable;
    struct part part;
    enum ending ending;
    for (;;) {
        const struct instr *instr = next++;
        switch (instr->op) {
        case TURN:
            if (turns-- == 0) return SPENT;
            break;
        case PUSH: *top++ = integer(instr->first); break;
        case PUSH_BIT: *top++ = bit(instr->first); break;
        case LOAD: *top++ = variables[instr->first].scalar; break;
        case LOAD_AT:
            variable = &variables[instr->first];
            if (!is_index(top[-1].number, variable->count)) return INDEX_OUT_OF_RANGE;
            top[-1] = variable->integers ? integer(variable->integers[top[-1].number])
                                         : bit(variable->bits[top[-1].number]);
            break;
        case CHECK_INDEX:
            if (!is_index(top[-1].number, variables[instr->first].count)) return INDEX_OUT_OF_RANGE;
            break;
        case CHECK_RANGE:
            if ((ending = range(&variables[instr->first], top - 2, &part)) != SPENT) return ending;
            break;
        case STORE: variables[instr->first].scalar = *--top; break;
        case STORE_AT:
            variable = &variables[instr->first];
            top -= 2;
            if (!is_index(top->number, variable->count)) return INDEX_OUT_OF_RANGE;
            if (variable->integers) variable->integers[top->number] = top[1].number;
            else variable->bits[top->number] = (uint8_t)top[1].number;
            break;
        case UNARY: top[-1] = sign(instr->first, top[-1].number); break;
        case BINARY:
            top--;
            if ((ending = combine(instr->first, top[-1].number, top->number, &top[-1])) != SPENT) return ending;
            break;
        case TO_INT:
            variable = &variables[instr->first];
            part = (struct part){0, variable->count};
            top -= taken_by(instr->source);
            if (instr->source == RANGE && (ending = range(variable, top, &part)) != SPENT) return ending;
            *top++ = integer(number_of(variable->bits, part));
            break;
        case COPY_BITS:
            top -= taken_by(instr->dest) + taken_by(instr->source);
            if ((ending = copy_bits(variables, instr, top)) != SPENT) return ending;
            break;
        case JUMP: next = code + instr->first; break;
        case JUMP_IF_ZERO:
            if ((--top)->number == 0) next = code + instr->first;
            break;
        case EXIT: return EXITED;
        }
    }
}

/* The variables of the codes: a scalar, an array of integers and two of bits. A program's arrays have as many elements
 * as it declares. */
enum { I, X, A, B, VARIABLES };
struct program { uint32_t integers, bits; struct instr code[24]; };

static const struct program programs[] = {
    /* 0: L: I = I + 1; GOTO L; */
    {0, 0, {{TURN}, {LOAD, I}, {PUSH, 1}, {BINARY, 0}, {STORE, I}, {TURN}, {JUMP, 0}}},
    /* 1: L: I = I + 1; IF I < I THEN EXIT 1; GOTO L; */
    {0, 0, {{TURN}, {LOAD, I}, {PUSH, 1}, {BINARY, 0}, {STORE, I},
            {TURN}, {LOAD, I}, {LOAD, I}, {BINARY, 12}, {JUMP_IF_ZERO, 12}, {PUSH, 1}, {EXIT}, {TURN}, {JUMP, 0}}},
    /* 2: L: GOTO L; */
    {0, 0, {{TURN}, {JUMP, 0}}},
    /* 3: L: X[I] = X[I] + 1; I = I + 1 & 1023; GOTO L; */
    {INTEGERS, 0, {{TURN}, {LOAD, I}, {CHECK_INDEX, X}, {LOAD, I}, {LOAD_AT, X}, {PUSH, 1}, {BINARY, 0}, {STORE_AT, X},
                   {TURN}, {LOAD, I}, {PUSH, 1}, {BINARY, 0}, {PUSH, 1023}, {BINARY, 5}, {STORE, I},
                   {TURN}, {JUMP, 0}}},
    /* 4: L: A[I] = !A[I]; I = I + 1 & 1023; GOTO L; */
    {0, 1024, {{TURN}, {LOAD, I}, {CHECK_INDEX, A}, {LOAD, I}, {LOAD_AT, A}, {UNARY, 3}, {STORE_AT, A},
               {TURN}, {LOAD, I}, {PUSH, 1}, {BINARY, 0}, {PUSH, 1023}, {BINARY, 5}, {STORE, I}, {TURN}, {JUMP, 0}}},
    /* 5: L: I = INT(A[47..16]) + 1; A[47..16] = BOOL(I); GOTO L; */
    {0, 64, {{TURN}, {PUSH, 47}, {PUSH, 16}, {TO_INT, A, .source = RANGE}, {PUSH, 1}, {BINARY, 0}, {STORE, I},
             {TURN}, {PUSH, 47}, {PUSH, 16}, {CHECK_RANGE, A}, {LOAD, I}, {COPY_BITS, A, RANGE, FROM_INT, A},
             {TURN}, {JUMP, 0}}},
    /* 6: L: A[] = B[]; GOTO L; */
    {0, MOST_BITS, {{TURN}, {COPY_BITS, A, WHOLE, WHOLE, B}, {TURN}, {JUMP, 0}}},
    /* 7: L: A[4194302..0] = A[4194303..1]; GOTO L; */
    {0, MOST_BITS, {{TURN}, {PUSH, MOST_BITS - 2}, {PUSH, 0}, {CHECK_RANGE, A}, {PUSH, MOST_BITS - 1}, {PUSH, 1},
                    {CHECK_RANGE, A}, {COPY_BITS, A, RANGE, RANGE, A}, {TURN}, {JUMP, 0}}},
    /* 8: L: A[4194303..1] = A[4194302..0]; GOTO L; */
    {0, MOST_BITS, {{TURN}, {PUSH, MOST_BITS - 1}, {PUSH, 1}, {CHECK_RANGE, A}, {PUSH, MOST_BITS - 2}, {PUSH, 0},
                    {CHECK_RANGE, A}, {COPY_BITS, A, RANGE, RANGE, A}, {TURN}, {JUMP, 0}}},
};

int main(int argc, char **argv) {
    static int32_t integers[INTEGERS];
    static uint8_t bits[2][MOST_BITS];
    size_t number = argc == 3 ? strtoul(argv[1], NULL, 10) : sizeof programs;
    if (number >= sizeof programs / sizeof *programs) return 2;
    const struct program *program = &programs[number];
    struct variable variables[VARIABLES] = {
        [X] = {.count = program->integers, .integers = integers},
        [A] = {.count = program->bits, .bits = bits[0]},
        [B] = {.count = program->bits, .bits = bits[1]},
    };
    /* Memory that was never written costs less to read. */
    memset(bits, 1, sizeof bits);
    clock_t begun = clock();
    if (play(program->code, variables, (uint32_t)strtoul(argv[2], NULL, 10)) != SPENT) return 1;
    printf("%.6f\n", (double)(clock() - begun) / CLOCKS_PER_SEC);
    return 0;
}

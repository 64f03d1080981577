/* A yardstick for bench/scans.py: a chain of devices in BYPASS, each with a controller and two registers. As the
 * devices of the program, each stands in a place of its own on the heap, and is called through the functions of its
 * kind.
 *
 *     chain DEVICES BITS
 *
 * makes five clocks with TMS 1 and then a scan of so many zeros through the data registers of so many devices, from
 * RESET to IDLE, and prints the seconds of processor time that it took. It reads no program and writes no pins. */
#include <stdint.h>
#include <stdio.h>
#include <stdlib.h>
#include <time.h>

enum { MOST_DEVICES = 64, INSTRUCTION_BITS = 4, ALL_ONES = 15 };

enum state {
    RESET, IDLE, DR_SELECT, DR_CAPTURE, DR_SHIFT, DR_EXIT1, DR_PAUSE, DR_EXIT2, DR_UPDATE,
    IR_SELECT, IR_CAPTURE, IR_SHIFT, IR_EXIT1, IR_PAUSE, IR_EXIT2, IR_UPDATE
};

/* The states after TMS 0 and after TMS 1. */
static const uint8_t after[16][2] = {
    {IDLE, RESET}, {IDLE, DR_SELECT}, {DR_CAPTURE, IR_SELECT}, {DR_SHIFT, DR_EXIT1}, {DR_SHIFT, DR_EXIT1},
    {DR_PAUSE, DR_UPDATE}, {DR_PAUSE, DR_EXIT2}, {DR_SHIFT, DR_UPDATE}, {IDLE, DR_SELECT}, {IR_CAPTURE, RESET},
    {IR_SHIFT, IR_EXIT1}, {IR_SHIFT, IR_EXIT1}, {IR_PAUSE, IR_UPDATE}, {IR_PAUSE, IR_EXIT2}, {IR_SHIFT, IR_UPDATE},
    {IDLE, DR_SELECT}
};

struct device;

/* What a kind of devices drives at TDO, and what it does at a clock. */
struct kind {
    int (*tdo)(const struct device *it);
    void (*clock)(struct device *it, int tms, int tdi);
};

struct device { const struct kind *kind; uint8_t state, instruction, instruction_list, data_list; };

static struct device *chain[MOST_DEVICES];

static int tdo_of_bypass(const struct device *it) {
    return it->state == DR_SHIFT ? it->data_list : it->state == IR_SHIFT ? it->instruction_list & 1 : 1;
}

static void clock_bypass(struct device *it, int tms, int tdi) {
    switch (it->state) {
    case IR_CAPTURE: it->instruction_list = 1; break;
    case IR_SHIFT: it->instruction_list = (uint8_t)(it->instruction_list >> 1 | tdi << (INSTRUCTION_BITS - 1)); break;
    case DR_CAPTURE: it->data_list = 0; break;
    case DR_SHIFT: it->data_list = (uint8_t)tdi; break;
    default: break;
    }
    it->state = after[it->state][tms];
    if (it->state == IR_UPDATE) it->instruction = it->instruction_list;
    if (it->state == RESET) it->instruction = ALL_ONES;
}

static const struct kind bypass = {tdo_of_bypass, clock_bypass};

/* One clock of the chain, the device nearest TDO first: each gets the TDO of the next one before the clock. */
static int clock_chain(int devices, int tms, int tdi) {
    int out = chain[0]->kind->tdo(chain[0]);
    for (int i = 0; i < devices; i++) {
        int in = i + 1 < devices ? chain[i + 1]->kind->tdo(chain[i + 1]) : tdi;
        chain[i]->kind->clock(chain[i], tms, in);
    }
    return out;
}

int main(int argc, char **argv) {
    static const int entry[] = {1, 1, 1, 1, 1, 0, 1, 0, 0}, ending[] = {0, 1, 1, 0};
    int devices = argc == 3 ? atoi(argv[1]) : 0;
    long bits = argc == 3 ? atol(argv[2]) : 0, ones = 0;
    if (devices < 1 || devices > MOST_DEVICES || bits < 1) return 2;
    uint8_t *data = calloc(1, (size_t)bits), *captured = malloc((size_t)bits);
    if (!data || !captured) return 2;
    for (int i = 0; i < devices; i++) {
        chain[i] = calloc(1, sizeof *chain[i]);
        if (!chain[i]) return 2;
        chain[i]->kind = &bypass;
    }
    clock_t begun = clock();
    for (int i = 0; i < 9; i++) clock_chain(devices, entry[i], 0);
    for (long i = 0; i < bits; i++) captured[i] = (uint8_t)clock_chain(devices, i == bits - 1, data[i]);
    for (int i = 0; i < 4; i++) clock_chain(devices, ending[i], 0);
    printf("%f\n", (double)(clock() - begun) / CLOCKS_PER_SEC);
    for (long i = 0; i < bits; i++) ones += captured[i];
    return ones != 0 || chain[0]->state != IDLE;
}

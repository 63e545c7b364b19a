/* A planner's three modes through the exported calls: the sheet (a word with its length, then its words) comes on standard input; each
   circuit sends without end, a transfer as soon as the one before has landed; high wind is ordered for period 3 and evacuation for
   period 6. Prints what lands in each period, as cycle:word with the cycle within the period. Slots may differ from examples/modes.sheet;
   circuits and periods may not. Returns 1 where a call is refused, 2 where the sheet is of other circuits or periods. */
#include "argo.h"
#include <stdio.h>
#include <stdlib.h>

enum { STATE = 10438, NODES = 4, ROOM = 16, SHEET = 8597, PERIODS = 9, PERIOD = 12, CIRCUITS = 3, SCHEDULES = 3 };
enum { CELL = PERIOD * sizeof "11:4294967295 ", ROW = 64 + CIRCUITS * CELL };
enum { BUSY = 17 };

static uint32_t sheet[SHEET], state[STATE], memory[NODES * ROOM];

/* What the planner knows of each circuit: its source, its regions, and the words that it sends. */
static const struct { const char *name; uint32_t source, destination, read, write, count, first; } circuits[CIRCUITS] = {
    {"wind", 1, 0, 0, 0, 4, 100},
    {"cabin", 2, 0, 0, 4, 8, 200},
    {"brake", 0, 3, 12, 0, 4, 300},
};

static void carried_out(const char *call, uint32_t number) {
    if (number != 0) {
        printf("%s: refused %u\n", call, number);
        exit(1);
    }
}

static void one_line(const char *line) {
    printf("%s\n", line);
    exit(1);
}

static uint32_t read_sheet(void) {
    uint32_t words = 0;
    if (fread(&words, 4, 1, stdin) != 1) one_line("input ends");
    if (words > SHEET) one_line("too large");
    if (fread(sheet, 4, words, stdin) != words) one_line("input ends");
    return words;
}

/* Whether a sheet that passes has the grid, the circuits and the periods that this program knows. */
static int is_known(void) {
    const uint32_t head[] = {2, 2, ROOM, CIRCUITS, SCHEDULES};
    for (int i = 0; i < 5; i++)
        if (sheet[i] != head[i]) return 0;
    for (int c = 0; c < CIRCUITS; c++) {
        const uint32_t count = circuits[c].count;
        const uint32_t circuit[] = {circuits[c].source, circuits[c].destination, circuits[c].read, count, circuits[c].write, count};
        for (int i = 0; i < 6; i++)
            if (sheet[5 + 6 * c + i] != circuit[i]) return 0;
    }
    uint32_t place = 5 + 6 * CIRCUITS;
    for (int s = 0; s < SCHEDULES; s++) {
        if (sheet[place] != PERIOD) return 0;
        place += 2 + 4 * sheet[place + 1];
    }
    return 1;
}

/* Starts every circuit that is free, all by one list. Of one whose last word has not landed the answer is 17: it is not yet free. */
static void start_free(void) {
    struct argo_transfer transfers[CIRCUITS];
    uint32_t answers[CIRCUITS];
    for (uint32_t c = 0; c < CIRCUITS; c++)
        transfers[c] = (struct argo_transfer){c, circuits[c].read, circuits[c].write, circuits[c].count, 0};
    carried_out("list of starts", argo_start_all(state, STATE, transfers, CIRCUITS, answers, CIRCUITS));
    for (int c = 0; c < CIRCUITS; c++)
        if (answers[c] != BUSY) carried_out("start", answers[c]);
}

/* The circuit whose receive region has an address of a node. */
static int circuit_at(uint32_t node, uint32_t address) {
    for (int c = 0; c < CIRCUITS; c++)
        if (circuits[c].destination == node && address >= circuits[c].write && address < circuits[c].write + circuits[c].count) return c;
    return -1;
}

/* A row of the table, without the spaces behind its last column. */
static void print_row(const char *period, const char *mode, const char *wind, const char *cabin, const char *brake) {
    char row[ROW];
    int end = snprintf(row, sizeof row, "%-7s%-12s%-8s%-26s%s", period, mode, wind, cabin, brake);
    while (end > 0 && row[end - 1] == ' ') end--;
    printf("%.*s\n", end, row);
}

int main(void) {
    uint32_t words = read_sheet();
    carried_out("sheet", argo_verdict(sheet, words));
    if (!is_known()) {
        fprintf(stderr, "modes: the sheet passes, but its grid, circuits or periods are not those of examples/modes.sheet\n");
        return 2;
    }
    carried_out("load", argo_load(sheet, words, state, STATE, memory, NODES * ROOM));
    for (int c = 0; c < CIRCUITS; c++)
        for (uint32_t i = 0; i < circuits[c].count; i++)
            carried_out("store", argo_store(state, STATE, memory, NODES * ROOM, circuits[c].source, circuits[c].read + i,
                                            circuits[c].first + i));
    print_row("period", "mode", "wind", "cabin", "brake");
    for (uint32_t period = 0; period < PERIODS; period++) {
        char landed[CIRCUITS][CELL] = {"", "", ""};
        int used[CIRCUITS] = {0, 0, 0};
        if (period == 0) carried_out("order", argo_order(state, STATE, 1, 3));
        if (period == 3) carried_out("order", argo_order(state, STATE, 2, 6));
        for (uint32_t cycle = 0; cycle < PERIOD; cycle++) {
            start_free();
            carried_out("cycle", argo_cycle(state, STATE, memory, NODES * ROOM));
            for (uint32_t node = 0; node < NODES; node++) {
                if (argo_landed(state, STATE, node, 0) != 1) continue;
                int c = circuit_at(node, (uint32_t)argo_landed(state, STATE, node, 2));
                uint32_t word = (uint32_t)argo_landed(state, STATE, node, 3);
                if (c >= 0) used[c] += snprintf(landed[c] + used[c], sizeof landed[c] - used[c], "%u:%u ", cycle, word);
            }
        }
        const char *mode = period < 3 ? "normal" : period < 6 ? "high wind" : "evacuation";
        char number[16];
        snprintf(number, sizeof number, "%u", period);
        print_row(number, mode, landed[0], landed[1], landed[2]);
    }
    return 0;
}

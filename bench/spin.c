// `spin` against a plain loop in C over the same layout: how fast, and whether both do the same.
#include <stdint.h>
#include <stdio.h>
#include <stdlib.h>
#include <string.h>
#include <time.h>

enum { INPUTS = 34, PINS = 37, MEMORY = 65536 };
enum { RAN, BAD_SHEET, NO_OUT, FEW_WORK };

// a slice is a pointer and a length
uint32_t spin_c(const uint32_t *sheet, size_t sheet_len, size_t flops, size_t gates, uint8_t *state, size_t state_len,
                uint16_t *mem, size_t mem_len, uint16_t read, const uint16_t *tape, size_t tape_len, uint16_t *out,
                size_t out_len, uint64_t cycles, uint8_t *work, size_t work_len, uint64_t port[4]);

static int sound(const uint32_t *sheet, size_t sheet_len, size_t flops, size_t gates) {
    size_t signals = INPUTS + flops + gates;
    if (sheet_len < 2 * flops + 2 * gates + PINS) return 0;
    for (size_t i = 0; i < 2 * gates; i++)
        if (sheet[flops + i] >= INPUTS + flops + i / 2) return 0;
    for (size_t i = 0; i < flops + PINS; i++)
        if (sheet[flops + 2 * gates + i] >= signals) return 0;
    return 1;
}

__attribute__((noinline)) static uint32_t spin_plain(const uint32_t *sheet, size_t sheet_len, size_t flops, size_t gates,
                                                     uint8_t *state, size_t state_len, uint16_t *mem, size_t mem_len,
                                                     uint16_t read, const uint16_t *tape, size_t tape_len, uint16_t *out,
                                                     size_t out_len, uint64_t cycles, uint8_t *work, size_t work_len,
                                                     uint64_t port[4]) {
    if (work_len < INPUTS + flops + gates) return FEW_WORK;
    if (state_len != flops || mem_len != MEMORY || !sound(sheet, sheet_len, flops, gates)) return BAD_SHEET;
    const uint32_t *wires = sheet + flops, *next = wires + 2 * gates, *pins = next + flops;
    uint8_t *level = work + INPUTS + flops;
    size_t taken = 0, sent = 0;
    unsigned halted = 0;
    for (size_t i = 0; i < flops; i++) state[i] = state[i] != 0;
    for (; cycles && !halted; cycles--) {
        uint16_t ahead = taken < tape_len ? tape[taken] : 0;
        work[0] = 0;
        work[1] = 1;
        for (int i = 0; i < 16; i++) {
            work[2 + i] = (read >> i) & 1;
            work[18 + i] = (ahead >> i) & 1;
        }
        memcpy(work + INPUTS, state, flops);
        for (size_t i = 0; i < gates; i++) level[i] = 1 ^ (work[wires[2 * i]] & work[wires[2 * i + 1]]);
        unsigned address = 0, datum = 0;
        for (int i = 0; i < 16; i++) {
            address |= work[pins[i]] << i;
            datum |= work[pins[16 + i]] << i;
        }
        for (size_t i = 0; i < flops; i++) state[i] = work[next[i]];
        read = mem[address];
        if (work[pins[32]]) mem[address] = datum;
        if (work[pins[33]]) {
            if (sent >= out_len) return NO_OUT;
            out[sent++] = datum;
        }
        if (work[pins[34]] && taken < tape_len) taken++;
        halted = work[pins[35]] | work[pins[36]] << 1;
    }
    port[0] = read;
    port[1] = taken;
    port[2] = sent;
    port[3] = halted;
    return RAN;
}

static uint64_t seed = 88172645463325252ull;
static uint32_t below(uint32_t n) {
    seed ^= seed << 13;
    seed ^= seed >> 7;
    seed ^= seed << 17;
    return (uint32_t)((seed >> 16) % n);
}

static double seconds(void) {
    struct timespec t;
    clock_gettime(CLOCK_MONOTONIC, &t);
    return t.tv_sec + 1e-9 * t.tv_nsec;
}

// gates fed by any signals before them, or where near > 0 by the last few
static void draw(uint32_t *sheet, size_t flops, size_t gates, uint32_t near) {
    uint32_t signals = INPUTS + flops + gates;
    for (size_t i = 0; i < flops; i++) sheet[i] = below(2);
    for (size_t i = 0; i < 2 * gates; i++) {
        uint32_t before = INPUTS + flops + i / 2;
        sheet[flops + i] = near && near < before ? before - 1 - below(near) : below(before);
    }
    for (size_t i = 0; i < flops + PINS; i++) sheet[flops + 2 * gates + i] = below(signals);
}

static int by_size(const void *a, const void *b) {
    double x = *(const double *)a, y = *(const double *)b;
    return x < y ? -1 : x > y;
}

enum { FLOPS = 150, GATES = 2000, ROUNDS = 201, CYCLES = 10000 };

static int timed(const char *name, uint32_t near) {
    static uint32_t sheet[2 * FLOPS + 2 * GATES + PINS];
    static uint16_t mem[2][MEMORY], tape[1000], out[100];
    static uint8_t work[INPUTS + FLOPS + GATES];
    size_t sheet_len = sizeof sheet / sizeof *sheet;
    draw(sheet, FLOPS, GATES, near);
    // it puts out nothing and does not halt, so that all cycles are run
    for (int i = 33; i < PINS; i++)
        if (i != 34) sheet[2 * FLOPS + 2 * GATES + i] = 0;
    for (int i = 0; i < 1000; i++) tape[i] = below(65536);
    double took[2][ROUNDS], ratio[ROUNDS];
    for (int round = 0; round < ROUNDS; round++) {
        uint8_t state[2][FLOPS] = {{0}};
        uint64_t port[2][4];
        for (int i = 0; i < MEMORY; i++) mem[0][i] = mem[1][i] = i * 40503u;
        for (int side = 0; side < 2; side++) {
            double start = seconds();
            uint32_t answer = (side ? spin_plain : spin_c)(sheet, sheet_len, FLOPS, GATES, state[side], FLOPS, mem[side],
                                                           MEMORY, 7, tape, 1000, out, 100, CYCLES, work, sizeof work,
                                                           port[side]);
            took[side][round] = seconds() - start;
            if (answer != RAN) return printf("%s: answer %u\n", name, answer), 1;
        }
        if (memcmp(state[0], state[1], FLOPS) || memcmp(mem[0], mem[1], sizeof mem[0]) || memcmp(port[0], port[1], 32))
            return printf("%s: the two differ\n", name), 1;
        ratio[round] = took[1][round] / took[0][round];
    }
    for (int side = 0; side < 2; side++) qsort(took[side], ROUNDS, sizeof(double), by_size);
    qsort(ratio, ROUNDS, sizeof(double), by_size);
    printf("%-7s spin %7.0f cycles a second, C %7.0f, ratio %.3f (medians of %d rounds, in turn; best %.0f and %.0f)\n",
           name, CYCLES / took[0][ROUNDS / 2], CYCLES / took[1][ROUNDS / 2], ratio[ROUNDS / 2], ROUNDS,
           CYCLES / took[0][0], CYCLES / took[1][0]);
    return 0;
}

static int compared(int count) {
    static uint16_t mem[2][MEMORY];
    int answers[4] = {0}, halts[4] = {0};
    for (int i = 0; i < MEMORY; i++) mem[0][i] = mem[1][i] = below(65536);
    for (int t = 0; t < count; t++) {
        enum { MOST_FLOPS = 8, MOST_GATES = 60, MOST_OUT = 20, MOST_TAPE = 6 };
        uint32_t sheet[2 * MOST_FLOPS + 2 * MOST_GATES + PINS + 2];
        uint16_t tape[MOST_TAPE], out[2][MOST_OUT];
        uint8_t state[2][MOST_FLOPS + 1], work[2][INPUTS + MOST_FLOPS + MOST_GATES], kept[sizeof work[0]];
        uint64_t port[2][4] = {{0}};
        size_t flops = below(MOST_FLOPS + 1), gates = below(MOST_GATES + 1);
        size_t sheet_len = 2 * flops + 2 * gates + PINS + below(3), signals = INPUTS + flops + gates;
        size_t tape_len = below(MOST_TAPE + 1), out_len = below(MOST_OUT + 1), state_len = flops, mem_len = MEMORY;
        size_t work_len = signals < sizeof kept ? signals + below(2) : signals;
        for (size_t i = 0; i < sheet_len; i++) sheet[i] = below(signals);
        draw(sheet, flops, gates, below(2) ? 0 : 5);
        // most do not halt soon, and many put out little
        for (int i = 35; i < 37; i++)
            if (below(3)) sheet[2 * flops + 2 * gates + i] = 0;
        if (below(2)) sheet[2 * flops + 2 * gates + 33] = 0;
        switch (below(12)) { // some calls are refused
        case 0: sheet[flops + below(flops + 2 * gates + PINS)] = signals + below(2); break;
        case 1: if (gates) { size_t i = below(2 * gates); sheet[flops + i] = INPUTS + flops + i / 2; } break;
        case 2: sheet_len = below(sheet_len); break;
        case 3: state_len = below(MOST_FLOPS + 2); break;
        case 4: mem_len = below(4) ? MEMORY - 1 : 0; break;
        case 5: work_len = below(signals + 1); break;
        }
        for (int i = 0; i < MOST_TAPE; i++) tape[i] = below(65536);
        for (int i = 0; i < MOST_OUT; i++) out[0][i] = out[1][i] = below(65536);
        for (int i = 0; i <= MOST_FLOPS; i++) state[0][i] = state[1][i] = below(3);
        for (size_t i = 0; i < sizeof kept; i++) work[0][i] = work[1][i] = kept[i] = below(256);
        uint64_t cycles = below(40);
        uint16_t read = below(65536);
        uint32_t answer[2];
        for (int side = 0; side < 2; side++)
            answer[side] = (side ? spin_plain : spin_c)(sheet, sheet_len, flops, gates, state[side], state_len, mem[side],
                                                        mem_len, read, tape, tape_len, out[side], out_len, cycles,
                                                        work[side], work_len, port[side]);
        if (answer[0] != answer[1]) return printf("circuit %d: answers %u and %u\n", t, answer[0], answer[1]), 1;
        answers[answer[0]]++;
        if (answer[0] == RAN) halts[port[0][3]]++;
        if (answer[0] == NO_OUT) {
            memcpy(mem[1], mem[0], sizeof mem[0]);
            continue;
        }
        if (memcmp(port[0], port[1], 32) || memcmp(state[0], state[1], sizeof state[0]) || memcmp(out[0], out[1], sizeof out[0]) ||
            memcmp(mem[0], mem[1], sizeof mem[0]) || (answer[0] != RAN && memcmp(work[0], kept, sizeof kept)))
            return printf("circuit %d: the two differ\n", t), 1;
    }
    printf("same on %d circuits: ran %d (not halted %d, done %d, index %d, full %d), bad sheet %d, no out %d, few work %d\n",
           count, answers[RAN], halts[0], halts[1], halts[2], halts[3], answers[BAD_SHEET], answers[NO_OUT],
           answers[FEW_WORK]);
    for (int i = 0; i < 4; i++)
        if (!answers[i] || !halts[i]) return printf("a case did not come up\n"), 1;
    return 0;
}

int main(int argc, char **argv) {
    if (argc > 1 && !strcmp(argv[1], "--compare")) return compared(100000);
    return timed("random", 0) | timed("local", 40);
}

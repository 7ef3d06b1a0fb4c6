// How many cycles a drawing takes until it halts, by `spin`: bench_cycles SHEET IMAGE MOST [WORD..]
// It spins in pieces, and the piece in which the board halts once more, one cycle at a time. Prints the cycles, or 'not
// halted' if it hasn't after MOST.
#include <stdint.h>
#include <stdio.h>
#include <stdlib.h>
#include <string.h>

// a slice is a pointer and a length
uint32_t spin_c(const uint32_t *sheet, size_t sheet_len, size_t flops, size_t gates, uint8_t *state, size_t state_len,
                uint16_t *mem, size_t mem_len, uint16_t read, const uint16_t *tape, size_t tape_len, uint16_t *out,
                size_t out_len, uint64_t cycles, uint8_t *work, size_t work_len, uint64_t port[4]);

enum { INPUTS = 34, MEMORY = 65536, PIECE = 4096, SHEET = 262144 };

// The board as it stands between two pieces.
static struct board {
    uint16_t mem[MEMORY], read, tape[MEMORY];
    size_t words;
    uint8_t state[SHEET];
} now, before;

static uint32_t sheet[SHEET], flops, gates;
static size_t sheet_len;
static uint8_t work[INPUTS + SHEET];

// So many cycles more; how the board has halted then.
static int spin(uint64_t cycles) {
    static uint16_t out[PIECE];
    uint64_t port[4];
    if (spin_c(sheet, sheet_len, flops, gates, now.state, flops, now.mem, MEMORY, now.read, now.tape, now.words, out, PIECE,
               cycles, work, sizeof work, port) != 0)
        exit((fprintf(stderr, "spin refuses\n"), 1));
    now.read = port[0];
    now.words -= port[1];
    memmove(now.tape, now.tape + port[1], now.words * sizeof *now.tape);
    return port[3];
}

int main(int argc, char **argv) {
    FILE *file = argc < 4 ? NULL : fopen(argv[1], "r"), *image = argc < 4 ? NULL : fopen(argv[2], "r");
    if (!file || !image || fscanf(file, "%u %u", &flops, &gates) != 2) return fprintf(stderr, "no sheet or image\n"), 1;
    while (sheet_len < SHEET && fscanf(file, "%u", &sheet[sheet_len]) == 1) sheet_len++;
    for (int i = 0; i < MEMORY && fscanf(image, "%hu", &now.mem[i]) == 1;) i++;
    for (uint32_t i = 0; i < flops; i++) now.state[i] = sheet[i] != 0;
    for (int i = 4; i < argc; i++) now.tape[now.words++] = atoi(argv[i]);
    uint64_t most = strtoull(argv[3], NULL, 10), done = 0;
    for (; done < most; done += PIECE) {
        before = now;
        if (spin(PIECE)) break;
    }
    if (done >= most) return printf("not halted\n"), 0;
    now = before;
    do done++;
    while (!spin(1));
    printf("%lu\n", done);
    return 0;
}

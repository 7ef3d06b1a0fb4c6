// The drawing by `spin` and by Verilator's model of it, on the same image and tape: cycles a second of both, in turn.
#include "Vmachine.h"
#include "verilated.h"
#include <algorithm>
#include <cstdint>
#include <cstdio>
#include <cstdlib>
#include <ctime>
#include <fstream>
#include <vector>

// a slice is a pointer and a length
extern "C" uint32_t spin_c(const uint32_t *sheet, size_t sheet_len, size_t flops, size_t gates, uint8_t *state,
                           size_t state_len, uint16_t *mem, size_t mem_len, uint16_t read, const uint16_t *tape,
                           size_t tape_len, uint16_t *out, size_t out_len, uint64_t cycles, uint8_t *work,
                           size_t work_len, uint64_t port[4]);

enum { INPUTS = 34, MEMORY = 65536, ROOM = 100000, ROUNDS = 21 };
const uint64_t CYCLES = 100000;

// What a run leaves: the words shown, memory, the word that memory hands over, the words taken, the ending.
struct Run {
    std::vector<uint16_t> mem, out;
    uint64_t read = 0, taken = 0, halted = 0;
    bool operator==(const Run &r) const {
        return mem == r.mem && out == r.out && read == r.read && taken == r.taken && halted == r.halted;
    }
};

static std::vector<uint32_t> numbers(const char *path) {
    std::ifstream file(path);
    std::vector<uint32_t> all;
    for (uint32_t x; file >> x;) all.push_back(x);
    return all;
}

// The board around the model: as in the definition, memory hands over the word that stood there before a store.
static void run_model(Vmachine &model, const std::vector<uint16_t> &tape, Run &run) {
    for (uint64_t i = 0; i < CYCLES && !run.halted; i++) {
        model.read = run.read;
        model.tape = run.taken < tape.size() ? tape[run.taken] : 0;
        model.clk = 0;
        model.eval();
        uint64_t pin = model.pin;
        uint16_t address = pin, datum = pin >> 16;
        run.read = run.mem[address];
        if (pin >> 32 & 1) run.mem[address] = datum;
        if (pin >> 33 & 1) run.out.push_back(datum);
        if (pin >> 34 & 1 && run.taken < tape.size()) run.taken++;
        run.halted = pin >> 35 & 3;
        model.clk = 1;
        model.eval();
    }
}

static uint32_t run_spin(const std::vector<uint32_t> &sheet, size_t flops, size_t gates, std::vector<uint8_t> &work,
                         const std::vector<uint16_t> &tape, Run &run) {
    std::vector<uint8_t> state(sheet.begin(), sheet.begin() + flops);
    uint64_t port[4];
    run.out.resize(ROOM);
    uint32_t answer = spin_c(sheet.data(), sheet.size(), flops, gates, state.data(), flops, run.mem.data(), MEMORY, 0,
                             tape.data(), tape.size(), run.out.data(), ROOM, CYCLES, work.data(), work.size(), port);
    run.read = port[0];
    run.taken = port[1];
    run.out.resize(answer ? 0 : port[2]);
    run.halted = port[3];
    return answer;
}

// Processor time, so that other work on the machine counts less.
static double seconds() {
    timespec t;
    clock_gettime(CLOCK_PROCESS_CPUTIME_ID, &t);
    return t.tv_sec + 1e-9 * t.tv_nsec;
}

static double median(std::vector<double> xs) {
    std::sort(xs.begin(), xs.end());
    return xs[xs.size() / 2];
}

int main(int argc, char **argv) {
    std::vector<uint32_t> all = numbers(argv[1]), words = numbers(argv[2]);
    size_t flops = all[0], gates = all[1];
    std::vector<uint32_t> sheet(all.begin() + 2, all.end());
    std::vector<uint16_t> image(words.begin(), words.end()), tape;
    image.resize(MEMORY);
    for (int i = 3; i < argc; i++) tape.push_back(std::atoi(argv[i]));
    std::vector<uint8_t> work(INPUTS + flops + gates);
    std::vector<double> took[2], ratio;
    for (int round = 0; round < ROUNDS; round++) {
        Run spun, modelled;
        spun.mem = modelled.mem = image;
        modelled.out.reserve(ROOM);
        VerilatedContext context;
        Vmachine model(&context);
        double start = seconds();
        uint32_t answer = run_spin(sheet, flops, gates, work, tape, spun);
        double middle = seconds();
        run_model(model, tape, modelled);
        double end = seconds();
        if (answer || !(spun == modelled)) return std::printf("the two differ (spin answers %u)\n", answer), 1;
        if (spun.halted) return std::printf("it halts within %lu cycles\n", CYCLES), 1;
        took[0].push_back(middle - start);
        took[1].push_back(end - middle);
        ratio.push_back(took[1].back() / took[0].back());
    }
    std::printf("%zu gates, %zu flip-flops, %lu cycles: spin %.0f cycles a second, Verilator %.0f, ratio %.3f "
                "(medians of %d rounds, in turn; the same words, memory, tape and ending)\n",
                gates, flops, CYCLES, CYCLES / median(took[0]), CYCLES / median(took[1]), median(ratio), ROUNDS);
    return 0;
}

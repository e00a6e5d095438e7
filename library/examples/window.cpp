// Plays each window of a script in C++, on devices that all answer, and prints the record with its trace.
// Usage: window_cpp [DEVICE] < SCRIPT. The device of this number never answers.
#include "../lazbendix.h"
#include <cstdlib>
#include <iostream>
#include <iterator>
#include <stdexcept>
#include <string>
#include <vector>

// A home, which is ended where its scope ends. It is not copied, and an exception tells a status that is not DONE.
class Home {
public:
    explicit Home(const std::string &script, uint32_t model = LAZBENDIX_EVENTUAL, uint32_t scheduler = LAZBENDIX_FCFS) {
        lazbendix_fault fault;
        const auto *bytes = reinterpret_cast<const uint8_t *>(script.data());
        want(lazbendix_open(&hub, bytes, script.size(), model, scheduler, &fault), "open");
    }
    ~Home() { lazbendix_end(&hub); }
    Home(const Home &) = delete;
    Home &operator=(const Home &) = delete;

    lazbendix_counts_told counts() {
        lazbendix_counts_told told;
        want(lazbendix_counts(&hub, &told), "counts");
        return told;
    }
    uint32_t stands(uint32_t device) {
        lazbendix_stand_told told;
        want(lazbendix_stand(&hub, device, &told), "stand");
        return told.value;
    }
    uint32_t runs(uint32_t window) {
        uint64_t count;
        want(lazbendix_run_count(&hub, window, &count), "run_count");
        return static_cast<uint32_t>(count);
    }
    void window(uint32_t number) { want(lazbendix_window(&hub, number), "window"); }
    lazbendix_turn take(uint32_t run, uint64_t now) {
        lazbendix_turn turn;
        want(lazbendix_take(&hub, run, now, &turn), "take");
        return turn;
    }
    void give(const lazbendix_turn &turn, uint32_t answer, uint32_t value, uint64_t now) {
        lazbendix_made made;
        want(lazbendix_give(&hub, turn.device, turn.ticket, answer, value, now, &made), "give");
    }
    bool is_blocked(uint32_t run) {
        uint32_t yes;
        want(lazbendix_blocked(&hub, run, &yes), "blocked");
        return yes == 1;
    }
    bool is_quiet() {
        lazbendix_left left;
        want(lazbendix_quiet(&hub, &left), "quiet");
        return left.kind == 0;
    }
    void close_window() { want(lazbendix_close_window(&hub), "close_window"); }
    std::string head() {
        size_t len;
        want(lazbendix_head(&hub, &len), "head");
        return text(len);
    }
    std::string record() {
        size_t len;
        want(lazbendix_record(&hub, 1, &len), "record");
        return text(len);
    }

private:
    lazbendix_hub hub;

    static void want(int32_t status, const char *call) {
        if (status != LAZBENDIX_DONE)
            throw std::runtime_error(std::string(call) + ": status " + std::to_string(status));
    }
    std::string text(size_t len) {
        std::vector<uint8_t> room(len + 1);
        size_t got;
        want(lazbendix_read(&hub, 0, room.data(), len, &got), "read");
        return std::string(room.begin(), room.begin() + static_cast<std::ptrdiff_t>(got));
    }
};

// Makes the call that a turn asks for, and gives its answer.
static void call(Home &home, std::vector<uint32_t> &wall, long broken, const lazbendix_turn &turn, uint64_t now) {
    uint32_t answer = LAZBENDIX_WORKED, value = 0;
    if (static_cast<long>(turn.device) == broken) {
        answer = LAZBENDIX_DEAD;
    } else if (turn.task == LAZBENDIX_SENSE) {
        answer = LAZBENDIX_FOUND_VALUE;
        value = wall[turn.device];
    } else if (turn.task != LAZBENDIX_PROBE) {
        wall[turn.device] = turn.value;
    }
    home.give(turn, answer, value, now);
}

// How many of the window's runs have committed.
static unsigned long play(Home &home, std::vector<uint32_t> &wall, long broken, uint32_t runs) {
    unsigned long committed = 0;
    for (uint64_t now = 0; !home.is_quiet(); now++) {
        std::vector<lazbendix_turn> out;
        for (uint32_t run = 1; run <= runs; run++) {
            if (home.is_blocked(run))
                continue;
            const lazbendix_turn turn = home.take(run, now);
            if (turn.kind == LAZBENDIX_GO)
                out.push_back(turn);
            committed += turn.kind == LAZBENDIX_OVER && turn.made.count && turn.end.kind == LAZBENDIX_COMMITTED;
        }
        for (auto it = out.rbegin(); it != out.rend(); ++it)
            call(home, wall, broken, *it, now + 1);
    }
    return committed;
}

int main(int argc, char **argv) try {
    const std::string script{std::istreambuf_iterator<char>(std::cin), {}};
    const long broken = argc > 1 ? std::atol(argv[1]) : -1;
    Home home(script);
    const auto counts = home.counts();
    std::vector<uint32_t> wall;
    for (uint32_t d = 0; d < counts.devices; d++)
        wall.push_back(home.stands(d));
    unsigned long runs = 0, committed = 0;
    std::cout << home.head();
    for (uint32_t k = 0; k < counts.windows; k++) {
        home.window(k);
        committed += play(home, wall, broken, home.runs(k));
        runs += home.runs(k);
        home.close_window();
        std::cout << home.record();
    }
    std::cout << "total windows " << counts.windows << " runs " << runs << " committed " << committed << " aborted "
              << runs - committed << "\n";
} catch (const std::exception &it) {
    std::cerr << it.what() << "\n";
    return 1;
}

// What `shared_stats` of fairexec_house.hpp adds: the counts of a core, which other threads read while it runs, as it ends, and behind that.
// The last line is 'N passed, M failed', and the status is 0 if nothing failed.
#include "fairexec_house.hpp"
#include <cstdio>
#include <cstring>
#include <thread>

namespace linked = fairexec::linked;
using fairexec::mode;
using fairexec::step;

static std::atomic<unsigned> passed{0}, failed{0};

static void is(const char *what, uint64_t found, uint64_t wanted) {
    if (found == wanted) {
        passed++;
        return;
    }
    failed++;
    std::printf("FAILED: %s: %llu, and not %llu\n", what, static_cast<unsigned long long>(found), static_cast<unsigned long long>(wanted));
}

static uint64_t picks_of(const linked::counts &of) {
    uint64_t sum = 0;
    for (auto &each : of.queues) sum += each.picks;
    return sum;
}

static uint64_t done_of(const linked::counts &of) {
    uint64_t sum = 0;
    for (auto &each : of.queues) sum += each.done;
    return sum;
}

// Whether what is told is what the core itself tells.
template <class Core> static bool is_of_core(const linked::board &board, Core &core) {
    auto told = board.read();
    auto own = core.stats();
    bool same = std::memcmp(&told.core, &own, sizeof own) == 0 && told.queues.size() == own.queues;
    for (uint32_t queue = 0; same && queue < own.queues; queue++) {
        auto of = core.stats_of(queue);
        same = std::memcmp(&told.queues[queue], &of, sizeof of) == 0;
    }
    return same;
}

// Reads until the counts are as wanted, for a minute at most.
template <class Is> static linked::counts comes_to(const char *what, const linked::board &board, Is is_wanted) {
    auto end = std::chrono::steady_clock::now() + std::chrono::minutes(1);
    for (;;) {
        auto told = board.read();
        bool is_late = std::chrono::steady_clock::now() > end;
        if (is_wanted(told) || is_late) return is(what, is_late, 0), told;
        std::this_thread::yield();
    }
}

// A thread that reads until the end: counts belong together, and none falls.
struct reader {
    std::atomic<bool> may_end{false};
    std::thread thread;
    explicit reader(linked::board board) : thread([this, board = std::move(board)] { reads(board); }) {}
    void reads(const linked::board &board) {
        auto last = board.read();
        uint64_t wrong = 0;
        while (!may_end) {
            auto told = board.read();
            // Each turn is one of a queue.
            wrong += told.core.turns != picks_of(told) || told.core.queues != told.queues.size() || told.core.held > told.core.room;
            wrong += told.core.turns < last.core.turns || told.queues.size() < last.queues.size() || told.core.closed < last.core.closed;
            last = std::move(told);
        }
        is("counts belong together, and none falls", wrong, 0);
    }
    ~reader() {
        may_end = true;
        thread.join();
    }
};

// A job counts down, and one that spins yields until it may end.
static std::atomic<bool> may_stop{false};
static constexpr uint64_t spins = ~uint64_t{0};
static linked::result counts_down(uint64_t &left, linked::cx<uint64_t> &) {
    if (left == spins) {
        std::this_thread::sleep_for(std::chrono::microseconds(1));
        return may_stop ? linked::done(0) : linked::result(step::yield);
    }
    return left-- == 0 ? linked::done(0) : linked::result(step::yield);
}

static void any_thread_reads() {
    std::optional<linked::house<uint64_t>> house(std::in_place, linked::config{2, 8, 1, 1u << 20});
    auto first = house->cores[0].shared_stats(), second = house->cores[1].shared_stats(), same = house->cores[1].shared_stats();
    auto begin = first.read();
    is("the first counts", begin.core.turns == 0 && begin.core.queues == 1 && begin.core.room == 24 && begin.queues[0].shares == 1000, 1);
    {
        reader one(first), other(second), third(first), fourth(same);
        fx_code codes[2] = {FX_NULL, FX_NULL};
        std::thread threads[2];
        for (uint32_t core = 0; core < 2; core++) threads[core] = std::thread([&, core] { codes[core] = house->cores[core].run(counts_down); });
        auto &outside = house->outside;
        is("a queue is made", outside.wait_for(*outside.create(0, 300).ticket).queue, 1);
        // The core never sleeps while this job runs.
        auto ticket = *outside.submit(0, 0, spins).ticket;
        uint64_t turns = 0;
        for (int each = 0; each < 5; each++) turns = comes_to("they grow while a job runs", first, [&](auto &it) { return it.core.turns > turns && done_of(it) == 0; }).core.turns;
        may_stop = true;
        is("it is done", outside.wait_for(ticket).kind, FX_KIND_DONE);
        turns = comes_to("a core that rests told its counts", first, [](auto &it) { return done_of(it) == 1; }).core.turns;
        for (uint32_t queue : {0, 1}) is("a job is done", outside.wait_for(*outside.submit(0, queue, 20000).ticket).kind, FX_KIND_DONE);
        is("a job of the other core, too", outside.wait_for(*outside.submit(1, 0, 9).ticket).kind, FX_KIND_DONE);
        comes_to("all turns are told", first, [&](auto &it) { return it.core.turns == turns + 40002 && it.queues[1].done == 1 && it.core.held == 0; });
        comes_to("of the other core, too", second, [](auto &it) { return it.core.turns == 10; });
        // These are done with no sleep before the end.
        for (int each = 0; each < 4; each++) is("it is let go", outside.detach(*outside.submit(1, 0, 300).ticket), FX_OK);
        outside.close_all(mode::finish);
        for (auto &each : threads) each.join();
        is("the cores drain", codes[0] == FX_OK && codes[1] == FX_OK, 1);
        for (uint32_t core = 0; core < 2; core++) is("the counts are those of the core", is_of_core(core == 0 ? first : second, house->cores[core]), 1);
        is("the house ends", house->end(), FX_OK);
        is("its journals are sound", house->audit().sound, 1);
        house.reset();
    }
    auto last = second.read();
    is("the last counts stay", last.core.turns == 10 + 4 * 301 && last.core.closed == 1 + FX_MODE_FINISH && done_of(last) == 5, 1);
}

// By this clock a round has one run.
struct slow {
    using duration = std::chrono::nanoseconds;
    using time_point = std::chrono::time_point<slow, duration>;
    static uint64_t now_ns;
    static time_point now() noexcept { return time_point(duration(now_ns += 10000)); }
};
uint64_t slow::now_ns = 0;

static void when_they_are_told() {
    linked::house<uint64_t, slow> house({1, 4, 1, 1u << 14});
    auto &core = house.cores[0];
    auto board = core.shared_stats();
    bool did = false;
    auto yields = [](uint64_t &, linked::cx<uint64_t> &) { return step::yield; };
    auto told = [&](int rounds) {
        for (; rounds > 0; rounds--) is("a round", core.round(yields), FX_OK);
        return board.read().core.turns;
    };
    is("a job is taken", house.outside.submit(0, 0, 1).code, FX_OK);
    // A round counts as 64 turns, as it may have as many.
    is("it isn't time", told(10), 0);
    is("it is time", told(10), 17);
    core.show_stats();
    is("they are told now", is_of_core(board, core), 1);
    is("a turn", core.run_turn(yields), FX_OK);
    is("it isn't told", board.read().core.turns, 20);
    is("nobody waits for long", core.may_sleep(), 1);
    core.is_awake();
    is("it is told before a sleep", is_of_core(board, core) && board.read().core.turns == 21, 1);
    is("another turn", core.run_turn(yields), FX_OK);
    core.sleep(std::chrono::nanoseconds(1));
    is("so is this one", board.read().core.turns, 22);
    is("another job is taken", house.outside.submit(0, 0, 1).code, FX_OK);
    is("it is delivered", core.deliver(did) == FX_OK && did, 1);
    core.sleep(std::chrono::nanoseconds(1));
    is("so is a delivery", board.read().core.held, 2);
    for (int each = 0; each < 1040; each++) is("a turn", core.run_turn(yields), FX_OK);
    is("turns are told by themselves", board.read().core.turns, 22 + 1040);
}

static void who_leaves() {
    std::optional<linked::board> board;
    {
        linked::house<linked::job> house({1, 4});
        auto &core = house.cores[0];
        board = core.shared_stats();
        auto throws = house.outside.submit(0, 0, []() -> step { throw std::runtime_error("mine"); });
        bool thrown = false;
        try {
            (void)core.run();
        } catch (const std::runtime_error &) {
            thrown = true;
        }
        is("an exception leaves it, and counts are told", thrown && throws.code == FX_OK && is_of_core(*board, core) && done_of(board->read()) == 1, 1);
        is("a job is taken", house.outside.submit(0, 0, [] { return linked::done(1); }).code, FX_OK);
        is("it runs", core.round(), FX_OK);
        is("it isn't told", done_of(board->read()), 1);
    }
    is("a core that is destroyed tells its counts", done_of(board->read()), 2);
    linked::house<linked::job> house({1, 4});
    auto &core = house.cores[0];
    core.show_stats();
    is("it closes", core.close(mode::give_back), FX_OK);
    is("it drains", core.run() == FX_OK && house.end() == FX_OK, 1);
    fx_code code = FX_OK;
    try {
        (void)core.shared_stats();
    } catch (const fairexec::error &error) {
        code = error.code();
    }
    is("nobody asked before it ended", code, FX_EMPTY);
}

// A host makes the rounds by itself: the house's end tells the counts.
static void rounds_of_the_host() {
    linked::house<uint64_t> house({1, 4});
    auto &core = house.cores[0];
    auto board = core.shared_stats();
    is("a job is let go", house.outside.detach(*house.outside.submit(0, 0, 5).ticket), FX_OK);
    house.outside.close_all(mode::finish);
    while (!core.is_drained()) (void)core.round(counts_down);
    is("they aren't told", board.read().core.turns, 0);
    is("it ends", house.end(), FX_OK);
    auto told = board.read();
    is("they are", told.core.turns == 6 && done_of(told) == 1, 1);
    is("and again", core.shared_stats().read().core.turns, 6);
}

int main() {
    any_thread_reads();
    when_they_are_told();
    who_leaves();
    rounds_of_the_host();
    std::printf("%u passed, %u failed\n", passed.load(), failed.load());
    return failed.load() == 0 ? 0 : 1;
}

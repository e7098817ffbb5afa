// What fairexec.hpp adds to the calls: who owns a core and a job, and what becomes of exceptions.
// The last line is 'N passed, M failed', and the status is 0 if nothing failed.
#include "fairexec.hpp"
#include <cstdio>
#include <memory>
#include <string>
#include <thread>

using fairexec::step;

static unsigned passed, failed;

static void is(const char *what, unsigned long found, unsigned long wanted) {
    if (found == wanted) {
        passed++;
        return;
    }
    failed++;
    std::printf("FAILED: %s: %lu, and not %lu\n", what, found, wanted);
}

// Counts how many are alive.
struct counted {
    static long alive;
    int left;
    explicit counted(int left) : left(left) { alive++; }
    counted(counted &&other) noexcept : left(other.left) { alive++; }
    counted &operator=(counted &&) = delete;
    ~counted() { alive--; }
};
long counted::alive = 0;

template <class Call> static fx_code refused(Call &&call) {
    try {
        call();
    } catch (const fairexec::error &error) {
        return error.code();
    }
    return FX_OK;
}

static void cores() {
    is("too much room", refused([] { fairexec::core core(131071); }), FX_BAD_NUMBER);
    std::string told;
    try {
        fairexec::core core(131071);
    } catch (const fairexec::error &error) {
        told = error.what();
    }
    is("and which number it is", told.rfind("jobs = 131071: ", 0), 0);
    fairexec::core first(2);
    fairexec::core second(std::move(first));
    uint64_t job = 0;
    is("what was moved from has no core", first.next(job), FX_EMPTY);
    is("and says so by an exception", refused([&] { first.stats(); }), FX_EMPTY);
    is("what it was moved to has it", second.submit(0, 7), FX_OK);
    first = std::move(second);
    is("it moves back", first.next(job), FX_START);
    is("with its job", job, 7);
    first = fairexec::core(2);
    is("another core may take its place", first.next(job), FX_IDLE);
    is("bad shares", refused([&] { first.create(0); }), FX_BAD_SHARES);
    is("a queue that isn't there", refused([&] { first.set_shares(1, 1); }), FX_NO_QUEUE);
    is("its counts", refused([&] { first.stats_of(1); }), FX_NO_QUEUE);
    is("the next queue", first.create(100), 1);
    std::thread([moved = std::move(first)]() mutable {
        uint64_t job = 0;
        is("a core goes to another thread", moved.submit(1, 9) == FX_OK && moved.next(job) == FX_START && job == 9, 1);
    }).join();
}

static void houses() {
    {
        fairexec::house<counted> house(4);
        auto run = [](counted &job, fairexec::house<counted> &) { return --job.left == 0 ? step::done : step::yield; };
        is("a job is taken", house.submit(0, counted(2)), FX_OK);
        is("it yields", house.run_turn(run).code, FX_OK);
        is("it is done", house.run_turn(run).code, FX_DONE);
        is("and destroyed", counted::alive, 0);
        is("nothing is left", house.run_turn(run).code, FX_IDLE);
        counted kept(1);
        is("a job for a queue that isn't there", house.submit(1, std::move(kept)), FX_NO_QUEUE);
        for (int each = 0; each < 4; each++) is("a job is taken", house.submit(0, counted(1)), FX_OK);
        is("a job too many", house.submit(0, std::move(kept)), FX_FULL);
        is("five are alive", counted::alive, 5);
        is("a house closes", house.close(fairexec::mode::give_back), FX_OK);
        is("a closed house takes none", house.submit(0, std::move(kept)), FX_CLOSED);
        auto back = house.run_turn(run);
        is("a job comes back", back.code == FX_BACK && back.back && back.back->left == 1, 1);
    }
    is("what a house has ends with it", counted::alive, 0);
}

static void callables() {
    fairexec::house<fairexec::job> house(8);
    unsigned long runs = 0, born = 0;
    auto own = std::make_unique<unsigned long>(3);
    fairexec::job first([&runs, own = std::move(own)] { return ++runs == *own ? step::done : step::yield; });
    fairexec::job moved = std::move(first);
    is("a job that was moved from isn't taken", house.submit(0, std::move(first)), FX_BAD_NUMBER);
    unsigned long taken = house.submit(0, std::move(moved)) == FX_OK;
    taken += house.submit(0, [&](fairexec::house<fairexec::job> &inside) {
        is("a job that runs has its core busy", inside.run_turn().code, FX_BUSY);
        for (int each = 0; each < 7; each++) born += inside.submit(0, [] { return step::done; }) == FX_OK;
        return step::done;
    }) == FX_OK;
    taken += house.submit(0, []() -> step { throw std::runtime_error("mine"); }) == FX_OK;
    is("three callables are taken", taken, 3);
    unsigned long turns = 0, done = 0;
    std::string told;
    for (;;) {
        try {
            fx_code code = house.run_turn().code;
            if (code == FX_IDLE) break;
            turns++;
            done += code == FX_DONE;
        } catch (const std::runtime_error &error) {
            told = error.what();
        }
    }
    is("a callable runs until it is done", runs, 3);
    is("a running job fills the room", born, 5);
    is("each other one is done once", done, 7);
    is("turns that ended without an exception", turns, 9);
    is("an exception leaves the turn", told == "mine", 1);
    is("and its job is done", house.stats_of(0).done, 8);
    is("nothing is inside", house.stats().held, 0);
}

static void parks() {
    fairexec::house<fairexec::job> house(4);
    bool here = false;
    uint64_t waits = 0;
    is("a job is taken, with its number", house.submit(0, [&here] { return here ? step::done : step::park; }, waits), FX_OK);
    is("it parks", house.run_turn().code, FX_PARKED);
    is("nobody runs it", house.run_turn().code, FX_IDLE);
    is("it is held", house.stats().held, 1);
    is("a wake that comes early", house.wake(waits), FX_OK);
    is("it looks again, and parks", house.run_turn().code, FX_PARKED);
    is("its waker is taken", house.submit(0, [&](fairexec::house<fairexec::job> &inside) {
        here = true;
        return inside.wake(waits) == FX_OK ? step::done : step::yield;
    }), FX_OK);
    is("it runs", house.run_turn().code, FX_DONE);
    is("and the woken job is done", house.run_turn().code, FX_DONE);
    is("a job that is done isn't there", house.wake(waits), FX_ABSENT);
}

#if defined(__cpp_impl_coroutine)
static fairexec::task waits_for(bool &here, unsigned long &looks) {
    looks = 1;
    while (!here) {
        co_await fairexec::park;
        looks++;
    }
}

static fairexec::task counts_to(unsigned long most, unsigned long &count) {
    for (; count < most; count++) co_await fairexec::again;
}

static fairexec::task throws() {
    co_await fairexec::again;
    throw std::runtime_error("from a coroutine");
}

static void coroutines() {
    unsigned long first = 0, second = 0, never = 0;
    bool thrown = false;
    {
        fairexec::house<fairexec::task> house(4);
        uint32_t background = house.create(100);
        unsigned long taken = house.submit(0, counts_to(5, first)) == FX_OK;
        taken += house.submit(background, counts_to(2, second)) == FX_OK;
        taken += house.submit(background, throws()) == FX_OK;
        is("three coroutines are taken", taken, 3);
        fairexec::task left = throws(), moved = std::move(left);
        is("one that was moved from isn't", house.submit(0, std::move(left)), FX_BAD_NUMBER);
        for (;;) {
            try {
                if (house.run_turn().code == FX_IDLE) break;
            } catch (const std::runtime_error &) {
                thrown = true;
            }
        }
        is("a coroutine runs once more than it waits", house.stats_of(0).picks, 6);
        is("one more is taken", house.submit(0, counts_to(1, never)), FX_OK);
    }
    {
        fairexec::house<fairexec::task> house(4);
        bool here = false;
        unsigned long looks = 0;
        uint64_t number = 0;
        is("a coroutine that waits is taken", house.submit(0, waits_for(here, looks), number), FX_OK);
        is("it parks", house.run_turn().code, FX_PARKED);
        here = true;
        is("it is woken", house.wake(number), FX_OK);
        is("it is done", house.run_turn().code, FX_DONE);
        is("it looked twice", looks, 2);
    }
    is("coroutines run to their ends", first == 5 && second == 2, 1);
    is("an exception of one leaves the turn", thrown, 1);
    is("one that never ran ends with its house", never, 0);
}
#endif

int main() {
    cores();
    houses();
    callables();
    parks();
#if defined(__cpp_impl_coroutine)
    coroutines();
#else
    std::puts("skipped: this compiler has no coroutines");
#endif
    std::printf("%u passed, %u failed\n", passed, failed);
    return failed != 0;
}

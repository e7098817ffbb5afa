// What fairexec.hpp and fairexec_house.hpp add to timers: whose they are, until when a job sleeps, what wakes it, and how a thread waits for it.
// The last line is 'N passed, M failed', and the status is 0 if nothing failed.
#include "fairexec_house.hpp"
#include <atomic>
#include <cstdio>
#include <string>
#include <thread>
#include <vector>

namespace linked = fairexec::linked;
using fairexec::mode;
using fairexec::sleep_clock;
using fairexec::step;
using namespace std::chrono_literals;
using time_point = sleep_clock::time_point;

static unsigned passed, failed;

static void is(const char *what, unsigned long found, unsigned long wanted) {
    if (found == wanted) {
        passed++;
        return;
    }
    failed++;
    std::printf("FAILED: %s: %lu, and not %lu\n", what, found, wanted);
}

template <class Call> static fx_code refused(Call &&call, const char *tells = "") {
    try {
        call();
    } catch (const fairexec::error &error) {
        is("an error tells its number", std::string(error.what()).rfind(tells, 0), 0);
        return error.code();
    }
    return FX_OK;
}

// Far from now, so that only a test that says so wakes a job.
static const time_point far = sleep_clock::now() + 1000h;

static void cores() {
    is("timers for no job", refused([] { fairexec::timers timers(0); }, "jobs = 0: "), FX_BAD_NUMBER);
    is("for too many", refused([] { fairexec::timers timers(131071); }, "jobs = 131071: "), FX_BAD_NUMBER);
    fairexec::core core(4);
    fairexec::timers first(4), second(std::move(first));
    uint64_t job = 0, order = 0;
    is("a job is taken", core.submit(0, 7, order), FX_OK);
    is("it runs", core.next(job), FX_START);
    is("what was moved from is empty", core.settle(step::park, 5, first, 10), FX_EMPTY);
    is("and has no time", first.next_time().has_value(), 0);
    is("it parks", core.settle(step::park, 5, second, 10), FX_PARKED);
    is("until then", *second.next_time(), 10);
    is("it isn't due before", core.wake_due(second, 9), FX_IDLE);
    first = std::move(second);
    is("it is due", core.wake_due(first, 10), FX_OK);
    is("once", core.wake_due(first, 10), FX_IDLE);
    is("it runs again", core.next(job), FX_RESUME);
    first = fairexec::timers(1);
    is("other timers may take their place", first.next_time().has_value(), 0);
    is("it is done", core.settle(step::done, 5, first, 10), FX_DONE);
}

// A job that sleeps until this time, and counts its runs.
static fairexec::job sleeper(time_point time, std::vector<int> &ran, int number) {
    return [=, &ran](fairexec::house<fairexec::job> &house) {
        ran.push_back(number);
        return house.sleep_until(time);
    };
}

static void without() {
    fairexec::house<fairexec::job> house(2);
    std::vector<int> ran;
    is("no timers, no time", house.next_time().has_value(), 0);
    is("and no wake", house.wake_due(), FX_EMPTY);
    for (int each = 0; each < 2; each++) is("all places are for jobs", house.submit(0, sleeper(far, ran, each)), FX_OK);
    is("a full house has no place for timers", refused([&] { house.open_timers(); }), FX_FULL);
    is("a job that sleeps without them", refused([&] { (void)house.run_turn(); }), FX_EMPTY);
    is("is done", house.stats().held, 1);
}

static void order() {
    fairexec::house<fairexec::job> house(4);
    std::vector<int> ran;
    for (int each = 0; each < 2; each++) house.open_timers();
    uint64_t first = 0;
    is("a job is taken", house.submit(0, sleeper(far + 3h, ran, 3), first), FX_OK);
    is("another", house.submit(0, sleeper(far + 1h, ran, 1)), FX_OK);
    is("a third", house.submit(0, sleeper(far + 2h, ran, 2)), FX_OK);
    is("one place stays free", house.submit(0, sleeper(far, ran, 4)), FX_FULL);
    for (int each = 0; each < 3; each++) is("each sleeps", house.run_turn().code, FX_PARKED);
    is("none runs", house.run_turn().code, FX_IDLE);
    is("the first time", *house.next_time() == far + 1h, 1);
    is("nobody is woken before", house.wake_due(far + 1h - 1ns), FX_IDLE);
    is("and none runs", house.run_turn().code, FX_IDLE);
    ran.clear();
    is("two are woken", house.wake_due(far + 2h), FX_IDLE);
    is("they run", house.run_turn().code == FX_PARKED && house.run_turn().code == FX_PARKED, 1);
    is("and no other", house.run_turn().code, FX_IDLE);
    is("in the order of their times", ran == std::vector<int>{1, 2}, 1);
    is("one that is woken before", house.wake(first), FX_OK);
    is("sleeps again", house.run_turn().code, FX_PARKED);
    is("all have one timer", house.wake_due(time_point::max()), FX_IDLE);
    ran.clear();
    while (house.run_turn().code != FX_IDLE) {}
    is("and were woken once", ran == std::vector<int>{1, 2, 3}, 1);
    is("a house closes", house.close(mode::finish), FX_OK);
    is("and says so before it is full", house.submit(0, sleeper(far, ran, 4)), FX_CLOSED);
}

// A run that ends otherwise, and times that are none.
static void no_timer() {
    fairexec::house<fairexec::job> house(4);
    house.open_timers();
    uint64_t order = 0;
    is("a job that runs others", house.submit(0, [runs = 0](fairexec::house<fairexec::job> &house) mutable {
        step told = house.sleep_until(far);
        return runs++ == 0 && house.run_turn().code == FX_BUSY ? told : step::done;
    }), FX_OK);
    is("sleeps all the same", house.run_turn().code == FX_PARKED && *house.next_time() == far, 1);
    is("and is done", house.wake_due(far) == FX_IDLE && house.run_turn().code == FX_DONE, 1);
    is("a job that thinks better of it", house.submit(0, [runs = 0](fairexec::house<fairexec::job> &house) mutable {
        if (runs++ == 0) return house.sleep_until(time_point::max());
        if (runs == 2) return (void)house.sleep_until(far), step::yield;
        if (runs == 3) return step::park;
        (void)house.sleep_until(far);
        throw std::runtime_error("mine");
    }, order), FX_OK);
    is("parks", house.run_turn().code, FX_PARKED);
    is("for ever", house.next_time().has_value(), 0);
    is("is woken", house.wake(order), FX_OK);
    is("yields", house.run_turn().code, FX_OK);
    is("without a timer", house.next_time().has_value(), 0);
    is("parks without a time", house.run_turn().code, FX_PARKED);
    is("and without that of the run before", house.next_time().has_value(), 0);
    is("is woken once more", house.wake(order), FX_OK);
    bool thrown = false;
    try {
        (void)house.run_turn();
    } catch (const std::runtime_error &) {
        thrown = true;
    }
    is("and throws", thrown, 1);
    is("no timer is set", house.next_time().has_value(), 0);
    is("nor kept", house.wake_due(time_point::max()), FX_IDLE);
}

// Timers of jobs that went back have their places until their times: then a job stays in its queue.
static void all_set() {
    fairexec::house<fairexec::job> house(4);
    std::vector<int> ran;
    uint32_t queue = house.create(100);
    house.open_timers();
    for (int each = 0; each < 3; each++) is("a job is taken", house.submit(queue, sleeper(far, ran, each)), FX_OK);
    for (int each = 0; each < 3; each++) is("it sleeps", house.run_turn().code, FX_PARKED);
    is("its queue hands back", house.close_queue(queue, mode::give_back), FX_OK);
    for (int each = 0; each < 3; each++) is("it goes back", house.run_turn().code, FX_BACK);
    is("the next", house.submit(0, sleeper(far - 1h, ran, 3)), FX_OK);
    is("sleeps", house.run_turn().code, FX_PARKED);
    is("one more", house.submit(0, sleeper(far - 2h, ran, 4)), FX_OK);
    is("looks again", house.run_turn().code == FX_OK && house.run_turn().code == FX_OK, 1);
    is("all is due", house.wake_due(far), FX_IDLE);
    is("and the timers are free", house.run_turn().code == FX_PARKED && house.run_turn().code == FX_PARKED, 1);
    is("for both", *house.next_time() == far - 2h, 1);
    fairexec::house<fairexec::job> moved(std::move(house));
    ran.clear();
    is("what was moved from has no timers", house.wake_due(far), FX_EMPTY);
    is("it takes no job", house.submit(0, sleeper(far, ran, 5)), FX_EMPTY);
    is("and runs none", house.run_turn().code, FX_EMPTY);
    is("what it was moved to has them", moved.wake_due(far), FX_IDLE);
    is("and runs both", moved.run_turn().code == FX_PARKED && moved.run_turn().code == FX_PARKED && ran == std::vector<int>{4, 3}, 1);
}

// The thread sleeps until the next time, and run_turn wakes by itself.
static void by_clock() {
    fairexec::house<fairexec::job> house(8);
    house.open_timers();
    unsigned long early = 0, done = 0;
    for (int each = 1; each < 8; each++) {
        is("a job is taken", house.submit(0, [&, each, time = time_point::min()](fairexec::house<fairexec::job> &house) mutable {
            if (time != time_point::min()) return early += sleep_clock::now() < time, done++, step::done;
            return house.sleep_until(time = sleep_clock::now() + each * 700us);
        }), FX_OK);
    }
    for (auto code = FX_OK; house.stats().held > 0; code = house.run_turn().code)
        if (code == FX_IDLE) std::this_thread::sleep_until(house.next_time().value());
    is("each is done", done, 7);
    is("none was early", early, 0);
}

using linked_house = linked::house<linked::job>;
using linked_cx = linked::cx<linked::job>;

static void ends(linked_house &house) {
    is("it ends", house.end(), FX_OK);
    is("its journals are sound", house.audit().sound, 1);
}

static void linked_core() {
    is("one place is too few", refused([] { linked_house({1, 1}).cores[0].open_timers(); }, "places = 1: "), FX_BAD_NUMBER);
    linked_house house({1, 2});
    auto &core = house.cores[0];
    bool did = false;
    uint64_t count = 0, runs = 0;
    auto lost = house.outside.submit(0, 0, [](linked_cx &here) { return here.sleep_until(far); });
    is("a job is delivered", lost.code == FX_OK && core.deliver(did) == FX_OK, 1);
    is("one that sleeps on a core without timers", refused([&] { (void)core.run_turn(linked::core<linked::job>::call); }), FX_EMPTY);
    is("is done", house.outside.collect(count) == FX_OK && house.outside.redeem(*lost.ticket).second->kind == FX_KIND_DONE, 1);
    is("and none is woken", core.wake_due(), FX_EMPTY);
    for (int each = 0; each < 2; each++) core.open_timers();
    std::vector<fx_code> codes;
    auto sent = house.outside.submit(0, 0, [&](linked_cx &here) -> linked::result {
        if (++runs == 1) return (void)here.sleep_until(far), step::yield;
        if (runs == 2) return step::park;
        if (runs == 4) return linked::done(42);
        for (int each = 0; each < 2; each++) codes.push_back(here->submit(0, 0, [] { return linked::done(1); }).code);
        return here.sleep_until(far);
    });
    is("it yields", core.deliver(did) == FX_OK && core.run_turn(linked::core<linked::job>::call) == FX_OK, 1);
    is("and parks without a time", core.run_turn(linked::core<linked::job>::call) == FX_PARKED && !core.next_time(), 1);
    is("it is woken", house.outside.detach(*house.outside.wake(sent.ticket->name).ticket), FX_OK);
    is("it sleeps", core.deliver(did) == FX_OK && core.run_turn(linked::core<linked::job>::call) == FX_PARKED, 1);
    is("a core keeps a place for wakes", codes == std::vector<fx_code>{FX_OK, FX_FULL}, 1);
    is("the time is known", *core.next_time() == far, 1);
    is("it isn't due before", core.wake_due(far - 1ns), FX_IDLE);
    is("its wake is submitted", core.wake_due(far), FX_IDLE);
    is("and no timer is left", core.next_time().has_value(), 0);
    is("it runs behind the other", core.deliver(did, 2) == FX_OK && core.run_turn(linked::core<linked::job>::call) == FX_DONE, 1);
    is("and is done", core.run_turn(linked::core<linked::job>::call), FX_DONE);
    is("both outcomes are collected", core.collect(count) == FX_OK && count == 2, 1);
    is("and no more is asked for", core.collect(count) == FX_OK && count == 0, 1);
    is("its answer comes", house.outside.wait_for(*sent.ticket).answer, 42);
    is("it closes", core.close(mode::finish) == FX_OK && core.run() == FX_OK, 1);
    ends(house);
}

// A wake that the journal doesn't take comes later.
static void refused_wakes() {
    linked_house house({1, 4, 1, 8});
    auto &core = house.cores[0];
    core.open_timers();
    bool did = false, slept = false;
    uint64_t count = 0;
    auto sent = house.outside.submit(0, 0, [&](linked_cx &here) -> linked::result { return std::exchange(slept, true) ? linked::done(1) : here.sleep_until(far); });
    is("it sleeps", sent.code == FX_OK && core.deliver(did) == FX_OK && core.run_turn(linked::core<linked::job>::call) == FX_PARKED, 1);
    for (int each = 0; each < 3; each++) is("a note is made", core.submit(0, 0, [] { return linked::done(1); }).code, FX_OK);
    is("the journal has one note free", core.wake_due(far), FX_JOURNAL_FULL);
    is("the timer stays", *core.next_time() == far, 1);
    is("notes are forgotten", core.forget(count), FX_OK);
    is("and it is woken", core.wake_due(far) == FX_IDLE && !core.next_time(), 1);
    is("by an order", core.forget(count) == FX_OK && count == 2, 1);
}

// Threads run the cores, which sleep until their jobs do no more. What a job left is there with its outcome.
static void threads() {
    linked_house house({2, 64});
    std::atomic<unsigned long> early{0}, runs{0}, ran{0};
    std::vector<unsigned long> left_here(100);
    std::vector<linked::ticket> tickets;
    std::vector<std::thread> all;
    for (auto &core : house.cores) core.open_timers();
    for (uint32_t each = 0; each < 100; each++) {
        auto job = [&, each, left = 3, time = time_point::min()](linked_cx &here) mutable -> linked::result {
            early += sleep_clock::now() < time;
            runs++;
            if (left-- == 0) return left_here[each] = each, linked::done(each);
            return here.sleep_until(time = sleep_clock::now() + each * 37us);
        };
        tickets.push_back(*house.outside.submit(each % 2, 0, job).ticket);
    }
    for (auto &core : house.cores) all.emplace_back([&] { ran += core.run() == FX_OK; });
    for (uint64_t each = 0, count = 0; each < 100; each++) {
        auto told = house.outside.redeem(tickets[each]);
        for (; told.first == FX_PENDING; told = house.outside.redeem(tickets[each]))
            if (house.outside.collect(count) == FX_OK && count == 0) std::this_thread::yield();
        is("a job is done", told.first == FX_OK && told.second->answer == each && left_here[each] == each, 1);
    }
    house.outside.close_all(mode::finish);
    for (auto &each : all) each.join();
    is("both cores drain", ran.load(), 2);
    is("each job ran four times", runs.load(), 400);
    is("none was early", early.load(), 0);
    ends(house);
}

// A sleep ends as a timer is due, and not 10 ms after it began. A machine that is busy may be late at times, and not always.
static void sleeps() {
    linked_house house({1});
    auto &core = house.cores[0];
    core.open_timers();
    auto least = sleep_clock::duration::max();
    auto sent = house.outside.submit(0, 0, [](linked_cx &here) { return here.sleep_until(sleep_clock::now() + 1ms); });
    is("a job is taken", sent.code, FX_OK);
    for (int each = 0; each < 20; each++) {
        while (core.round() != FX_IDLE || !core.next_time()) {}
        auto time = *core.next_time();
        while (sleep_clock::now() < time) core.sleep();
        least = std::min(least, sleep_clock::now() - time);
    }
    is("it isn't late", least < 5ms, 1);
}

#if defined(__cpp_impl_coroutine)
static fairexec::task naps(time_point time, unsigned long &early, unsigned long &done) {
    co_await fairexec::until(time);
    early += sleep_clock::now() < time;
    done++;
    co_await fairexec::again;
    time = sleep_clock::now() + 2ms;
    co_await fairexec::sleep_for(2ms);
    early += sleep_clock::now() < time;
    done++;
}

static fairexec::task waits_until(time_point time, unsigned long &looks) {
    for (;; looks++) co_await fairexec::park_until(time);
}

static void coroutines() {
    unsigned long early = 0, done = 0, looks = 0;
    fairexec::house<fairexec::task> house(4);
    house.open_timers();
    uint64_t first = 0, second = 0;
    is("a task is taken", house.submit(0, naps(sleep_clock::now() + 20ms, early, done), first), FX_OK);
    is("it sleeps", house.run_turn().code, FX_PARKED);
    is("a wake that comes before", house.wake(first), FX_OK);
    is("is passed over", house.run_turn().code == FX_PARKED && done == 0, 1);
    for (auto code = FX_OK; house.stats().held > 0; code = house.run_turn().code)
        if (code == FX_IDLE) std::this_thread::sleep_until(house.next_time().value());
    is("it slept twice", done, 2);
    is("and long enough", early, 0);
    is("one that waits for a time at most", house.submit(0, waits_until(far, looks), second), FX_OK);
    is("parks", house.run_turn().code, FX_PARKED);
    is("is woken by others", house.wake(second) == FX_OK && house.run_turn().code == FX_PARKED && looks == 1, 1);
    is("and by its time", house.wake_due(far) == FX_IDLE && house.run_turn().code == FX_PARKED && looks == 2, 1);
    is("one without a house", house.submit(0, waits_until(far, looks)), FX_OK);
    is("doesn't sleep", refused([&] { (void)house.run_turn([](fairexec::task &task, auto &) { return task(); }); }), FX_EMPTY);
}

static linked::task answers(time_point time, uint64_t answer) {
    co_await fairexec::until(time);
    co_return sleep_clock::now() < time ? 0 : answer;
}

// It sleeps, asks a core that sleeps, and waits for a wake or a time.
static linked::task asks(uint32_t core, std::atomic<unsigned long> &looks) {
    co_await fairexec::sleep_for(1ms);
    auto told = co_await linked::ask(core, 0, answers(sleep_clock::now() + 3ms, 20));
    co_await fairexec::park_until(far);
    looks++;
    co_await fairexec::park_until(sleep_clock::now() + 1ms);
    looks++;
    co_return told.answer + looks;
}

static void linked_coroutines() {
    linked::house<linked::task> house({2});
    std::atomic<unsigned long> looks{0}, ran{0};
    for (auto &core : house.cores) core.open_timers();
    std::vector<std::thread> all;
    for (auto &core : house.cores) all.emplace_back([&] { ran += core.run() == FX_OK; });
    auto sent = house.outside.submit(0, 0, asks(1, looks));
    is("a task is taken", sent.code, FX_OK);
    // It may wait for something else when a wake comes: then that is passed over, or kept.
    while (looks == 0) {
        auto wake = house.outside.wake(sent.ticket->name);
        is("it is woken and let go", wake.code == FX_OK && house.outside.detach(*wake.ticket) == FX_OK, 1);
        (void)house.outside.wait_for(*house.outside.submit(0, 0, answers(sleep_clock::now(), 1)).ticket);
        std::this_thread::sleep_for(1ms);
    }
    is("it answers", house.outside.wait_for(*sent.ticket).answer, 22);
    house.outside.close_all(mode::finish);
    for (auto &each : all) each.join();
    is("both cores drain", ran.load(), 2);
    is("it ends", house.end() == FX_OK && house.audit().sound, 1);
}
#endif

int main() {
    cores();
    without();
    order();
    no_timer();
    all_set();
    by_clock();
    linked_core();
    refused_wakes();
    threads();
    sleeps();
#if defined(__cpp_impl_coroutine)
    coroutines();
    linked_coroutines();
#else
    std::puts("skipped: this compiler has no coroutines");
#endif
    std::printf("%u passed, %u failed\n", passed, failed);
    return failed != 0;
}

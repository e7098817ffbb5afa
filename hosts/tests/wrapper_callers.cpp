// What fairexec_callers.hpp adds: threads that submit, wait and redeem by handles of their own: wrapper_callers THREADS JOBS.
// The last line is 'N passed, M failed', and the status is 0 if nothing failed.
#include "fairexec_callers.hpp"
#include <cstdio>
#include <cstdlib>
#include <thread>

namespace linked = fairexec::linked;
using fairexec::mode;
using fairexec::step;
using std::chrono::milliseconds;

static std::atomic<unsigned> passed{0}, failed{0};

static void is(const char *what, uint64_t found, uint64_t wanted) {
    if (found == wanted) {
        passed++;
        return;
    }
    failed++;
    std::printf("FAILED: %s: %llu, and not %llu\n", what, static_cast<unsigned long long>(found), static_cast<unsigned long long>(wanted));
}

template <class Call> static fx_code refused(Call &&call) {
    try {
        call();
    } catch (const fairexec::error &error) {
        return error.code();
    }
    return FX_OK;
}

// A house whose cores run on threads of their own.
template <class Job> struct running {
    linked::house<Job> house;
    std::vector<std::thread> threads;
    linked::callers<Job> callers{house.outside};

    template <class Run> running(const linked::config &with, Run run) : house(with) {
        for (auto &core : house.cores) threads.emplace_back([&core, run] { is("a core drains", core.run(run), FX_OK); });
    }
    ~running() {
        callers.handle().close_all(mode::finish);
        for (auto &each : threads) each.join();
        is("all handles are gone", callers.end(), FX_OK);
        is("the house ends", house.end(), FX_OK);
        is("its journals are sound", house.audit().sound, 1);
    }
};

static linked::result twice(uint64_t &job, linked::cx<uint64_t> &) { return linked::done(2 * job); }

// Submits so many jobs to both cores by turns, some at a time, and redeems each outcome.
static void ask(linked::caller<uint64_t> handle, uint64_t thread, uint64_t jobs) {
    uint64_t right = 0, count = 0;
    for (uint64_t first = 0; first < jobs; first += 8) {
        std::vector<linked::ticket> tickets;
        while (tickets.size() < std::min<uint64_t>(8, jobs - first)) {
            uint64_t job = first + tickets.size();
            auto sent = handle.submit(job % 2, 0, thread << 32 | job);
            if (sent.code == FX_OK) tickets.push_back(*sent.ticket);
            else if (sent.code != FX_FULL || handle.collect(count) != FX_OK) return is("a submission", sent.code, FX_OK);
        }
        for (auto &ticket : tickets) {
            uint64_t job = first++;
            right += handle.wait_for(ticket).answer == 2 * (thread << 32 | job) && handle.redeem(ticket).first == FX_GONE;
        }
        first -= 8;
    }
    is("each outcome is its own", right, jobs);
}

static void many_threads(uint64_t count, uint64_t jobs) {
    running<uint64_t> of({2, 1024, 1, 1u << 20}, twice);
    std::vector<std::thread> all;
    for (uint64_t each = 0; each < count; each++) all.emplace_back(ask, of.callers.handle(), each, jobs);
    for (auto &each : all) each.join();
}

static void tickets_of_others() {
    running<uint64_t> of({1, 16}, twice);
    auto first = of.callers.handle(), second = of.callers.handle(), third = first;
    auto ticket = *first.submit(0, 0, 21).ticket;
    for (auto other : {&second, &third}) {
        is("another's ticket isn't redeemed", other->redeem(ticket).first, FX_UNKNOWN);
        is("nor detached", other->detach(ticket), FX_UNKNOWN);
        is("nor waited for", refused([&] { (void)other->wait_for(ticket); }), FX_UNKNOWN);
        is("not even for a time", refused([&] { (void)other->wait_for(ticket, std::chrono::hours(1)); }), FX_UNKNOWN);
    }
    is("it is its own", first.wait_for(ticket).answer, 42);
    is("once", refused([&] { (void)first.wait_for(ticket); }), FX_GONE);
    is("a core that isn't there", first.submit(1, 0, 5).code, FX_UNKNOWN_CORE);
    auto made = *second.create(0, 300).ticket, set = *second.set_shares(0, 0, 500).ticket, closed = *second.close_queue(0, 1, mode::finish).ticket;
    is("a queue is made", second.wait_for(made).why, FX_ANSWER_CREATED);
    is("a queue gets shares", second.wait_for(set).why, FX_ANSWER_SHARES_SET);
    is("and closes", second.wait_for(closed).why, FX_ANSWER_CLOSED);
    uint64_t kept = 0, more = 0;
    std::string text;
    is("notes are counted", second.notes_kept(kept, more) == FX_OK && kept == 12, 1);
}

static void who_is_out() {
    running<uint64_t> of({1, 4}, twice);
    std::optional<linked::caller<uint64_t>> first(of.callers.handle()), second(of.callers.handle());
    is("two are out", of.callers.out() == std::vector<uint64_t>{first->number(), second->number()}, 1);
    is("so the house doesn't end", of.callers.end(), FX_BUSY);
    auto moved = std::move(*first);
    first.reset();
    is("one that was moved is out", of.callers.out() == std::vector<uint64_t>{moved.number(), second->number()}, 1);
    moved = std::move(*second);
    second.reset();
    is("and what it stood for is gone", of.callers.out() == std::vector<uint64_t>{moved.number()}, 1);
}

// A job parks until another handle wakes it, which it can only do if the first one holds no lock.
static void waits_without_the_lock() {
    running<linked::job> of({2, 8}, [](linked::job &job, linked::cx<linked::job> &here) { return job(here); });
    auto first = of.callers.handle(), other = of.callers.handle();
    auto parks = *first.submit(0, 0, [woken = false]() mutable { return std::exchange(woken, true) ? linked::done(7) : linked::result(step::park); }).ticket;
    std::atomic<bool> is_told{false};
    std::thread waits([&] {
        is("it is woken", first.wait_for(parks).answer, 7);
        is_told = true;
    });
    std::this_thread::sleep_for(milliseconds(30));
    is("another submits meanwhile", other.wait_for(*other.submit(1, 0, [] { return linked::done(2); }).ticket).answer, 2);
    is("and the first one waits", is_told, 0);
    is("until it is woken", other.wait_for(*other.wake(parks.name).ticket).why, FX_ANSWER_WOKEN);
    waits.join();
}

// Whoever leads may leave first, and those who wait without end go on.
static void waits_for_a_time() {
    running<linked::job> of({1, 64}, [](linked::job &job, linked::cx<linked::job> &here) { return job(here); });
    std::atomic<bool> ends{false};
    std::atomic<unsigned> over{0};
    std::vector<std::thread> all;
    for (uint64_t each = 0; each < 8; each++) {
        all.emplace_back([&, each, handle = of.callers.handle()]() mutable {
            auto runs = [&, each] {
                std::this_thread::sleep_for(milliseconds(1));
                return ends ? linked::done(each) : linked::result(step::yield);
            };
            auto ticket = *handle.submit(0, 0, runs).ticket;
            if (each % 2 == 0) is("the time is over", refused([&] { (void)handle.wait_for(ticket, milliseconds(5 + 5 * each)); }), FX_PENDING);
            over++;
            is("the job ends", handle.wait_for(ticket).answer, each);
        });
    }
    while (over < 8) std::this_thread::yield();
    ends = true;
    for (auto &each : all) each.join();
}

// A job that uses a handle as it is destroyed, which would wait for ever if the lock was held.
struct tells {
    linked::caller<tells> *handle;
    std::atomic<unsigned> *ends;
    tells(linked::caller<tells> *handle, std::atomic<unsigned> *ends) : handle(handle), ends(ends) {}
    tells(tells &&other) noexcept : handle(std::exchange(other.handle, nullptr)), ends(other.ends) {}
    ~tells() {
        uint64_t count = 0;
        if (handle) *ends += handle->collect(count) == FX_OK;
    }
};

static void comes_back_without_the_lock() {
    linked::house<tells> house({1, 16});
    linked::callers<tells> callers(house.outside);
    auto handle = callers.handle();
    std::atomic<unsigned> ends{0};
    bool did = true;
    uint64_t count = 0;
    auto sent = [&] { return *handle.submit(0, 9, tells(&handle, &ends)).ticket; };
    auto late = sent(), early = sent(), waits = sent();
    is("one is let go early", handle.detach(early), FX_OK);
    while (did) did = false, is("a delivery", house.cores[0].deliver(did), FX_OK);
    is("all are collected", handle.collect(count) == FX_OK && count == 3, 1);
    is("one is destroyed", ends, 1);
    is("the late one is let go", handle.detach(late), FX_OK);
    is("and destroyed", ends, 2);
    {
        auto told = handle.wait_for(waits);
        is("the third comes back", told.kind == FX_KIND_BACK && told.back && ends == 2, 1);
    }
    is("and is the sender's", ends, 3);
}

int main(int count, char **words) {
    many_threads(count > 1 ? std::strtoull(words[1], nullptr, 10) : 20, count > 2 ? std::strtoull(words[2], nullptr, 10) : 500);
    tickets_of_others();
    who_is_out();
    waits_without_the_lock();
    waits_for_a_time();
    comes_back_without_the_lock();
    std::printf("%u passed, %u failed\n", passed.load(), failed.load());
    return failed.load() == 0 ? 0 : 1;
}

// What a host hands to a house in C++ is destroyed, on every way out: jobs, coroutines, and who takes the notes. The sanitizer of addresses
// sees what is destroyed twice. The last line is 'N passed, M failed', and the status is 0 if nothing failed.
#include "fairexec_house.hpp"
#include <atomic>
#include <cstdio>
#include <memory>
#include <thread>
#include <vector>

namespace linked = fairexec::linked;
using fairexec::mode;
using fairexec::step;

static unsigned passed, failed;

static void is(const char *what, unsigned long found, unsigned long wanted) {
    if (found == wanted) {
        passed++;
        return;
    }
    failed++;
    std::printf("FAILED: %s: %lu, and not %lu\n", what, found, wanted);
}

// All values that were made. Each has one owner beside this list until that is destroyed.
static std::vector<std::shared_ptr<int>> all;

static std::shared_ptr<int> counted() { return all.emplace_back(std::make_shared<int>(0)); }

static unsigned long left() {
    unsigned long count = 0;
    for (auto &each : all) count += static_cast<unsigned long>(each.use_count()) - 1;
    return count;
}

static linked::job does(step came_to) {
    return [has = counted(), came_to] { return came_to; };
}

using house_of_jobs = linked::house<linked::job>;

// Delivers and runs until nothing is left to do.
template <class House> static void serve(House &house) {
    while (house.cores[0].round() == FX_OK) {}
}

template <class House> static uint64_t collected(House &house) {
    uint64_t count = 0;
    is("it collects", house.outside.collect(count), FX_OK);
    return count;
}

static void done_and_thrown() {
    house_of_jobs house({1, 4});
    for (int each = 0; each < 20; each++) {
        auto sent = house.outside.submit(0, 0, does(step::done));
        serve(house);
        is("a done job is destroyed before it is told", left(), 0);
        is("and told", house.outside.wait_for(*sent.ticket).kind, FX_KIND_DONE);
    }
    auto sent = house.outside.submit(0, 0, [has = counted()]() -> step { throw std::runtime_error("mine"); });
    bool did = false, thrown = false;
    is("it is delivered", house.cores[0].deliver(did), FX_OK);
    try {
        (void)house.cores[0].round();
    } catch (const std::runtime_error &) {
        thrown = true;
    }
    is("a job that throws is destroyed", thrown && left() == 0, 1);
}

// By its queue and by its core, at a delivery and at a pick, parked or not.
static void back() {
    for (bool by_core : {false, true}) {
        house_of_jobs house({1, 8});
        std::vector<linked::ticket> tickets;
        tickets.push_back(*house.outside.submit(0, 0, does(step::park)).ticket);
        serve(house);
        tickets.push_back(*house.outside.submit(0, 0, does(step::yield)).ticket);
        is("it closes", (by_core ? house.outside.close_core(0, mode::give_back) : house.outside.close_queue(0, 0, mode::give_back)).code, FX_OK);
        for (uint32_t queue : {0u, 7u}) tickets.push_back(*house.outside.submit(0, queue, does(step::done)).ticket);
        serve(house);
        is("all come back", collected(house), 5);
        is("and live", left(), 4);
        for (unsigned long each = 0; each < 4; each++) {
            {
                auto told = house.outside.redeem(tickets[each]).second;
                is("a job that came back lives with its outcome", told->back.has_value() && left() == 4 - each, 1);
            }
            is("and is destroyed with it", left(), 3 - each);
        }
    }
}

static void is_refused(house_of_jobs &house, uint32_t core, uint32_t queue, fx_code why) {
    unsigned long before = left();
    {
        auto refused = house.outside.submit(core, queue, does(step::done));
        is("a refused job is told so, and lives", refused.code == why && refused.refused && left() == before + 1, 1);
    }
    is("and is destroyed with what was told", left(), before);
}

static void refused() {
    {
        house_of_jobs house({1, 1});
        is_refused(house, 1, 0, FX_UNKNOWN_CORE);
        is_refused(house, 0, 256, FX_NO_QUEUE);
        auto sent = house.outside.submit(0, 0, does(step::done));
        is_refused(house, 0, 0, FX_FULL);
        serve(house);
        is("it is done", house.outside.wait_for(*sent.ticket).kind, FX_KIND_DONE);
        is("the core closes", house.cores[0].close(mode::finish), FX_OK);
        serve(house);
        is_refused(house, 0, 0, FX_CLOSED);
    }
    house_of_jobs house({1, 64, 1, 8});
    while (house.outside.submit(0, 0, does(step::done)).code == FX_OK) {}
    is_refused(house, 0, 0, FX_JOURNAL_FULL);
}

static void let_go() {
    {
        house_of_jobs house({1, 4});
        auto early = house.outside.submit(0, 7, does(step::done));
        is("it is let go", house.outside.detach(*early.ticket), FX_OK);
        serve(house);
        is("it lives until it is collected", left() == 1 && collected(house) == 1 && left() == 0, 1);
        auto late = house.outside.submit(0, 7, does(step::done));
        serve(house);
        is("it is collected", collected(house) == 1 && left() == 1, 1);
        is("it is let go then", house.outside.detach(*late.ticket), FX_OK);
        is("and destroyed", left(), 0);
        is("nobody asks for this one", house.outside.submit(0, 7, does(step::done)).code, FX_OK);
        is("the core closes", house.cores[0].close(mode::finish), FX_OK);
        serve(house);
        is("it is kept", collected(house) == 1 && left() == 1, 1);
        is("the house ends", house.end(), FX_OK);
    }
    is("what nobody asked for goes with its house", left(), 0);
}

// One is on its way, one parked, one inside, one came back and one was collected. What takes the notes goes as well.
static void dropped() {
    {
        house_of_jobs house({1, 8});
        for (int each = 0; each < 2; each++) house.outside.keep_notes_by([has = counted()](const std::string &) {});
        house.cores[0].keep_notes_by([has = counted()](const std::string &) {});
        is("a second keeper destroys the first", left(), 2);
        bool did = false;
        is("one comes back", house.outside.submit(0, 7, does(step::done)).code, FX_OK);
        is("one parks", house.outside.submit(0, 0, does(step::park)).code, FX_OK);
        serve(house);
        is("one is collected", collected(house), 1);
        is("one more comes back", house.outside.submit(0, 7, does(step::done)).code, FX_OK);
        is("one waits inside", house.outside.submit(0, 0, does(step::done)).code, FX_OK);
        for (int each = 0; each < 2; each++) is("each is delivered", house.cores[0].deliver(did), FX_OK);
        is("one is on its way", house.outside.submit(0, 0, does(step::done)).code, FX_OK);
        is("all live", left(), 7);
    }
    is("all go with their house", left(), 0);
}

// Two threads: each job asks the other core for a job, whose outcome it redeems, lets go, or forgets.
static void between_threads() {
    {
        house_of_jobs house({2, 32});
        std::vector<std::thread> threads;
        std::atomic<unsigned long> ends{0};
        for (auto &core : house.cores) threads.emplace_back([&core, &ends] { ends += core.run() == FX_OK; });
        for (unsigned number = 0; number < 60; number++) {
            auto asks = [has = counted(), child = does(step::done), number, ticket = std::optional<linked::ticket>(), sent = false](linked::cx<linked::job> &here) mutable -> linked::result {
                if (!std::exchange(sent, true)) {
                    ticket = here->submit(1 - here->number(), number % 2 ? 0 : 7, std::move(child)).ticket;
                    if (ticket && number % 3 == 1) (void)here->detach(*ticket);
                }
                if (!ticket || number % 3) return linked::done(1);
                return here->redeem(*ticket).first == FX_PENDING ? linked::result(step::yield) : linked::done(1);
            };
            auto sent = house.outside.submit(number % 2, 0, std::move(asks));
            is("each is done", house.outside.wait_for(*sent.ticket).answer, 1);
        }
        house.outside.close_all(mode::finish);
        for (auto &each : threads) each.join();
        is("both cores and the house end", ends.load() == 2 && house.end() == FX_OK, 1);
    }
    is("nothing is left of what two threads had", left(), 0);
}

#if defined(__cpp_impl_coroutine)
static linked::task waits(std::shared_ptr<int> has, int most) {
    for (; *has < most; ++*has) co_await fairexec::again;
    if (most > 5) throw std::runtime_error("mine");
    co_return 1;
}

static linked::task parks(std::shared_ptr<int> has) {
    co_await fairexec::park;
    co_return static_cast<unsigned long>(*has);
}

// It is done, it throws, it comes back, it is refused, and its house goes while it is parked.
static void coroutines() {
    {
        linked::house<linked::task> house({1, 8});
        auto done = house.outside.submit(0, 0, waits(counted(), 3));
        serve(house);
        is("a coroutine that is done is destroyed", house.outside.wait_for(*done.ticket).answer == 1 && left() == 0, 1);
        is("one throws", house.outside.submit(0, 0, waits(counted(), 6)).code, FX_OK);
        bool thrown = false;
        try {
            serve(house);
        } catch (const std::runtime_error &) {
            thrown = true;
        }
        is("and is destroyed", thrown && left() == 0, 1);
        auto nowhere = house.outside.submit(0, 7, parks(counted()));
        serve(house);
        {
            auto told = house.outside.wait_for(*nowhere.ticket);
            is("one that comes back lives with its outcome", told.back.has_value() && left() == 1, 1);
        }
        is("and is destroyed with it", left(), 0);
        {
            auto refused = house.outside.submit(1, 0, parks(counted()));
            is("a refused one lives with what was told", refused.refused.has_value() && left() == 1, 1);
        }
        is("one parks", house.outside.submit(0, 0, parks(counted())).code, FX_OK);
        serve(house);
        is("and lives", left(), 1);
    }
    is("it goes with its house", left(), 0);
}
#endif

int main() {
    done_and_thrown();
    back();
    refused();
    is("nothing is left", left(), 0);
    let_go();
    dropped();
    between_threads();
#if defined(__cpp_impl_coroutine)
    coroutines();
#endif
    std::printf("%u passed, %u failed\n", passed, failed);
    return failed != 0;
}

// What fairexec_house.hpp adds to the calls: who owns a job, what comes back, and what two threads do with it.
// The last line is 'N passed, M failed', and the status is 0 if nothing failed.
#include "fairexec.h"

// How many notes the wrapper's calls on this thread copied as text since somebody looked.
static thread_local unsigned long copied;
static uint32_t copy(fx_seat *seat, uint64_t from, uint64_t most, uint8_t *bytes, size_t room, uint64_t *count, uint64_t *notes) {
    uint32_t code = fx_seat_copy(seat, from, most, bytes, room, count, notes);
    if (code == FX_OK) copied += static_cast<unsigned long>(*notes);
    return code;
}
#undef fx_seat_copy
#define fx_seat_copy ::copy

#include "fairexec_house.hpp"
#include <atomic>
#include <cstdio>
#include <string>
#include <thread>
#include <vector>

namespace linked = fairexec::linked;
using fairexec::mode;
using fairexec::step;

static unsigned passed, failed;

static void is(const char *what, unsigned long found, unsigned long wanted) {
    if (found == wanted) {
        passed++;
        return;
    }
    failed++;
    std::printf("FAILED: %s: %lu, and not %lu\n", what, found, wanted);
}

// Counts how many are alive.
struct counted {
    static std::atomic<long> alive;
    unsigned long value;
    explicit counted(unsigned long value) : value(value) { alive++; }
    counted(counted &&other) noexcept : value(other.value) { alive++; }
    counted &operator=(counted &&) = delete;
    ~counted() { alive--; }
};
std::atomic<long> counted::alive{0};

// How many cores ran to their ends on threads of their own.
static std::atomic<unsigned long> ends{0};

static void runs_to_its_end(fx_code code) { ends += code == FX_OK; }

static linked::result twice(counted &job, linked::cx<counted> &) { return linked::done(2 * job.value); }

template <class Call> static fx_code refused(Call &&call, const char *tells = "") {
    try {
        call();
    } catch (const fairexec::error &error) {
        is("an error tells its number", std::string(error.what()).rfind(tells, 0), 0);
        return error.code();
    }
    return FX_OK;
}

static fx_code opens(const linked::config &with, const char *tells = "") {
    return refused([&] { linked::house<counted> house(with); }, tells);
}

static void one_core() {
    is("no core", opens({0}, "cores = 0: "), FX_BAD_NUMBER);
    is("too many places", opens({1, 1025}, "places = 1025: "), FX_BAD_NUMBER);
    is("a long burst", opens({1, 1, 65}, "burst = 65: "), FX_BAD_NUMBER);
    is("too many notes", opens({1, 1, 1, (1u << 24) + 1}, "notes = 16777217: "), FX_BAD_NUMBER);
    is("two cores", opens({2}), FX_OK);
    linked::house<counted> house({1, 4});
    auto &core = house.cores[0];
    auto &outside = house.outside;
    uint64_t count = 0;
    bool did = false;
    auto sent = outside.submit(0, 0, counted(21));
    is("a job is taken", sent.code, FX_OK);
    is("its outcome isn't there", outside.redeem(*sent.ticket).first, FX_PENDING);
    is("the core hasn't seen it", core.run_turn(twice), FX_IDLE);
    is("it is delivered", core.deliver(did) == FX_OK && did, 1);
    is("it runs", core.run_turn(twice), FX_DONE);
    is("and is destroyed", counted::alive.load(), 0);
    is("its outcome is collected", outside.collect(count) == FX_OK && count == 1, 1);
    is("and told", outside.redeem(*sent.ticket).second->answer, 42);
    is("once", outside.redeem(*sent.ticket).first, FX_GONE);
    auto nowhere = outside.submit(1, 0, counted(5));
    is("a core that isn't there", nowhere.code == FX_UNKNOWN_CORE && nowhere.refused && nowhere.refused->value == 5, 1);
    is("a house that isn't drained", house.end(), FX_NOT_DRAINED);
    is("it closes", core.close(mode::finish), FX_OK);
    is("it drains", core.run(twice), FX_OK);
    is("it ends", house.end(), FX_OK);
    is("its journals are sound", house.audit().sound, 1);
    std::string text = house.text();
    is("they begin", text.rfind("journal 1\ncores 1 cap 4\n0 took 1>0#1 q0\n", 0), 0);
    is("and end", text.substr(text.size() - 4) == "end\n", 1);
}

// The first job yields, so it comes behind the second, and an order to another core comes with them.
static void what_came() {
    linked::house<counted> house({2, 4});
    auto &outside = house.outside;
    uint64_t count = 0;
    bool did = false;
    auto first = *outside.submit(1, 0, counted(1)).ticket, second = *outside.submit(1, 0, counted(2)).ticket, order = *outside.create(0, 100).ticket;
    for (auto &core : house.cores) is("all is delivered", core.deliver(did, 4), FX_OK);
    is("the first job yields", house.cores[1].run_turn([](counted &, auto &) { return step::yield; }), FX_OK);
    while (house.cores[1].run_turn(twice) == FX_DONE) {}
    std::vector<fx_name> names;
    is("three came", outside.collect(count, &names) == FX_OK && count == 3 && names.size() == 3, 1);
    auto same = [](const fx_name &one, const linked::ticket &other) { return one.from == other.name.from && one.to == other.name.to && one.number == other.name.number; };
    is("the order first, by its core", same(names[0], order), 1);
    is("then what came first", same(names[1], second) && same(names[2], first), 1);
    is("no more came", outside.collect(count, &names) == FX_OK && count == 0 && names.size() == 3, 1);
    is("each has its outcome", outside.redeem(first).second->answer + outside.redeem(second).second->answer, 6);
}

static void what_comes_back() {
    {
        linked::house<counted> house({1, 4});
        auto &core = house.cores[0];
        auto &outside = house.outside;
        std::vector<linked::ticket> tickets;
        uint64_t count = 0;
        bool did = false;
        for (unsigned long value = 1; value <= 4; value++) tickets.push_back(*outside.submit(0, value == 3 ? 7 : 0, counted(value)).ticket);
        auto full = outside.submit(0, 0, counted(5));
        is("a link that is full", full.code == FX_FULL && full.refused && full.refused->value == 5, 1);
        full.refused.reset();
        for (int each = 0; each < 4; each++) is("each is delivered", core.deliver(did), FX_OK);
        is("the first job yields", core.run_turn([](counted &job, auto &) { return job.value += 10, step::yield; }), FX_OK);
        is("the last is detached", outside.detach(tickets[3]), FX_OK);
        is("the core hands back", core.close(mode::give_back), FX_OK);
        while (core.run_turn(twice) == FX_BACK) {}
        is("all four are alive", counted::alive.load(), 4);
        is("they are collected", outside.collect(count) == FX_OK && count == 4, 1);
        is("the detached one is destroyed", counted::alive.load(), 3);
        auto first = outside.redeem(tickets[0]).second, third = outside.redeem(tickets[2]).second;
        is("the first comes back as it was", first->kind == FX_KIND_BACK && first->why == FX_REASON_CORE_RETURNED && first->back->value == 11, 1);
        is("so does one for a queue that isn't there", third->why == FX_REASON_NO_QUEUE && third->back->value == 3, 1);
    }
    is("what a house has ends with it", counted::alive.load(), 0);
}

static void exceptions() {
    linked::house<linked::job> house({1, 4});
    bool did = false, thrown = false;
    auto sent = house.outside.submit(0, 0, []() -> step { throw std::runtime_error("mine"); });
    is("it is delivered", house.cores[0].deliver(did), FX_OK);
    try {
        (void)house.cores[0].round();
    } catch (const std::runtime_error &) {
        thrown = true;
    }
    is("an exception leaves the turn", thrown, 1);
    is("and its job is done", house.outside.wait_for(*sent.ticket).kind, FX_KIND_DONE);
}

// A job that asks the other core for half of its number, until the number is odd.
struct halving {
    unsigned long number;
    std::optional<linked::ticket> asked;
    linked::result operator()(linked::cx<linked::job> &here) {
        if (number % 2 == 1) return linked::done(number);
        if (!asked) {
            asked = here->submit(1 - here->number(), 0, halving{number / 2, std::nullopt}).ticket;
            return step::yield;
        }
        auto [code, told] = here->redeem(*asked);
        if (code == FX_OK) return linked::done(told->answer);
        // Each run takes notes of the journal, and the other thread may be set aside.
        std::this_thread::sleep_for(std::chrono::microseconds(50));
        return step::yield;
    }
};

static void two_cores() {
    linked::house<linked::job> house({2, 32});
    std::vector<std::thread> threads;
    std::vector<linked::ticket> tickets;
    unsigned long right = 0;
    for (auto &core : house.cores) threads.emplace_back([&core] { runs_to_its_end(core.run()); });
    for (unsigned long number = 1; number <= 20; number++) tickets.push_back(*house.outside.submit(number % 2, 0, halving{number, std::nullopt}).ticket);
    for (unsigned long number = 1; number <= 20; number++) {
        unsigned long odd = number;
        while (odd % 2 == 0) odd /= 2;
        right += house.outside.wait_for(tickets[number - 1]).answer == odd;
    }
    is("each core asks the other", right, 20);
    auto queue = house.outside.create(1, 300);
    is("a queue is made", house.outside.wait_for(*queue.ticket).queue, 1);
    is("shares out of their range", house.outside.create(1, 0).code, FX_BAD_SHARES);
    house.outside.close_all(mode::finish);
    for (auto &each : threads) each.join();
    is("the house ends", house.end(), FX_OK);
    is("and was sound", house.audit().sound, 1);
}

#if defined(__cpp_impl_coroutine)
static fairexec::task counts_to(unsigned long most, unsigned long &count) {
    for (; count < most; count++) co_await fairexec::again;
}

static void coroutines() {
    linked::house<fairexec::task> house({1, 4});
    unsigned long first = 0, never = 0;
    is("a coroutine is taken", house.outside.submit(0, 0, counts_to(5, first)).code, FX_OK);
    house.outside.close_all(mode::finish);
    is("it runs to its end", house.cores[0].run() == FX_OK && first == 5, 1);
    is("none is taken behind the gate", house.outside.submit(0, 0, counts_to(5, never)).code, FX_CLOSED);
}

static linked::task odd_part(uint32_t core, unsigned long number) {
    if (number % 2 == 1) co_return number;
    auto told = co_await linked::ask(1 - core, 0, odd_part(1 - core, number / 2));
    co_await fairexec::again;
    co_return told.kind == FX_KIND_DONE ? told.answer : 0;
}

static linked::task asks_nobody() {
    try {
        (void)co_await linked::ask(9, 0, odd_part(0, 1));
    } catch (const fairexec::error &error) {
        co_return error.code();
    }
    co_return 0;
}

static linked::task throws() {
    co_await fairexec::again;
    throw std::runtime_error("from a coroutine");
}

static void coroutines_that_ask() {
    linked::house<linked::task> house({2, 8});
    std::vector<std::thread> threads;
    unsigned long right = 0;
    for (auto &core : house.cores) threads.emplace_back([&core] { runs_to_its_end(core.run()); });
    for (unsigned long number = 1; number <= 40; number++) {
        auto sent = house.outside.submit(number % 2, 0, odd_part(number % 2, number));
        unsigned long odd = number;
        while (odd % 2 == 0) odd /= 2;
        right += house.outside.wait_for(*sent.ticket).answer == odd;
    }
    is("coroutines of two cores ask each other", right, 40);
    auto nobody = house.outside.submit(0, 0, asks_nobody());
    is("a core that isn't there is told as an exception", house.outside.wait_for(*nobody.ticket).answer, FX_UNKNOWN_CORE);
    auto nowhere = house.outside.submit(0, 7, odd_part(0, 1));
    is("a coroutine that comes back is destroyed", house.outside.wait_for(*nowhere.ticket).why, FX_REASON_NO_QUEUE);
    house.outside.close_all(mode::finish);
    for (auto &each : threads) each.join();
    is("their journals are sound", house.end() == FX_OK && house.audit().sound, 1);
    linked::house<linked::task> other({1, 2});
    bool thrown = false, did = false;
    auto sent = other.outside.submit(0, 0, throws());
    is("it is delivered", other.cores[0].deliver(did), FX_OK);
    try {
        for (int each = 0; each < 2; each++) is("a round before it", other.cores[0].round(), FX_OK);
    } catch (const std::runtime_error &) {
        thrown = true;
    }
    is("an exception of one leaves the turn", thrown && other.outside.wait_for(*sent.ticket).kind == FX_KIND_DONE, 1);
}
#endif

// Two cores run on over journals of few notes: the parts of each actor hold all that happened.
static void notes_go_on() {
    linked::house<counted> house({2, 4, 1, 40});
    std::string parts[3];
    for (uint32_t core = 0; core < 2; core++) house.cores[core].keep_notes_by([&parts, core](const std::string &text) { parts[core] += text; });
    house.outside.keep_notes_by([&parts](const std::string &text) { parts[2] += text; });
    std::vector<std::thread> threads;
    unsigned long right = 0;
    for (auto &core : house.cores) threads.emplace_back([&core] { runs_to_its_end(core.run(twice)); });
    for (unsigned long number = 0; number < 500; number++) {
        auto sent = house.outside.submit(number % 2, 0, counted(number));
        right += sent.ticket && house.outside.wait_for(*sent.ticket).answer == 2 * number;
    }
    is("a house runs on once its journals were full", right, 500);
    house.outside.close_all(mode::finish);
    for (auto &each : threads) each.join();
    for (uint32_t core = 0; core < 2; core++) is("what is kept goes out", house.cores[core].pass_on(parts[core]), FX_OK);
    is("of the outside actor, too", house.outside.pass_on(parts[2]), FX_OK);
    std::size_t had = parts[2].size();
    is("and no note goes out twice", house.outside.pass_on(parts[2]) == FX_OK && parts[2].size() == had, 1);
    unsigned long lines[3] = {};
    for (int each = 0; each < 3; each++)
        for (char letter : parts[each]) lines[each] += letter == '\n';
    // A job takes three notes of its sender, and of its core it is delivered, picked, started and done.
    is("all notes went on", lines[2] >= 1500 && lines[0] + lines[1] >= 2000, 1);
    is("it ends", house.end(), FX_OK);
    fx_code told = FX_OK;
    try {
        house.audit();
    } catch (const fairexec::error &error) {
        told = error.code();
    }
    is("the house can't judge", told, FX_PASSED_ON);
    is("and has nothing left", house.text() == "journal 1\ncores 2 cap 4\nend\n", 1);
}

// In bytes each part says how many notes of its actor came before, also behind notes that were forgotten.
static void notes_go_on_in_bytes() {
    linked::config with = {1, 4, 1, 1u << 12, linked::form::bytes};
    linked::house<counted> house(with);
    auto &core = house.cores[0];
    std::string part, none;
    uint64_t count = 0, gone = 0, found = 0, parts = 0;
    auto runs = [&](unsigned long jobs) {
        for (unsigned long number = 0; number < jobs; number++) {
            auto sent = house.outside.submit(0, 0, counted(number));
            while (core.round(twice) == FX_OK) {}
            is("a job is done", house.outside.wait_for(*sent.ticket).answer, 2 * number);
        }
    };
    is("the head has the numbers", with.head() == std::string("fxh1\1\1\4\0", 8), 1);
    runs(3);
    is("of no notes there is no part", core.copy(12, 9, none, count) == FX_OK && count == 0 && none.empty(), 1);
    is("notes are forgotten", core.forget(gone) == FX_OK && gone == 12, 1);
    core.keep_notes_by([&](const std::string &more) { part += more; });
    runs(1000);
    is("the rest goes out", core.pass_on(part), FX_OK);
    // Of each part: the actor, how many notes came before, how many it has, and how many bytes these have.
    auto number = [&](std::size_t from) {
        uint64_t made = 0;
        for (std::size_t each = 8; each > 0; each--) made = made << 8 | static_cast<uint8_t>(part[from + each - 1]);
        return made;
    };
    std::size_t at = 0;
    for (bool right = true; right && at < part.size(); parts++) {
        right = part.compare(at, 5, std::string("fxp1\0", 5)) == 0 && number(at + 5) == gone + found && number(at + 13) > 0;
        is("a part goes on from the one before", right, 1);
        found += number(at + 13);
        at += 45 + static_cast<std::size_t>(number(at + 21));
    }
    is("no note is missing", found == 4000 && at == part.size() && parts >= 4, 1);
}

// Notes are counted, copied whole and in pieces, and forgotten.
static void notes_are_forgotten() {
    linked::house<counted> house({1, 2, 1, 40});
    auto &core = house.cores[0];
    uint64_t kept = 0, free_notes = 0, count = 0;
    std::string whole, pieces;
    auto sent = house.outside.submit(0, 0, counted(4));
    while (core.round(twice) == FX_OK) {}
    is("four notes are kept", core.notes_kept(kept, free_notes) == FX_OK && kept == 4 && free_notes == 36, 1);
    is("they are copied", core.copy(0, 9, whole, count) == FX_OK && count == 4, 1);
    for (uint64_t from = 0; from < 4; from++) is("one by one, too", core.copy(from, 1, pieces, count) == FX_OK && count == 1, 1);
    is("alike", whole == pieces && whole.substr(0, 16) == "0 took 1>0#1 q0\n", 1);
    is("and forgotten", core.forget(count) == FX_OK && count == 4, 1);
    is("then none is kept", core.notes_kept(kept, free_notes) == FX_OK && kept == 0 && free_notes == 40, 1);
    is("the outcome comes all the same", house.outside.wait_for(*sent.ticket).answer, 8);
}

// The journal has many notes when somebody is named who takes them. No call hands on more than a pause may take.
static void no_call_hands_on_many() {
    linked::house<counted> house({1, 4, 1, 1u << 16});
    auto &core = house.cores[0];
    uint64_t kept = 0, free_notes = 0;
    unsigned long most_copied = 0;
    long now = 0, most = 0;
    std::string all;
    auto jobs = [&](unsigned long count) {
        unsigned long right = 0;
        for (unsigned long number = 0; number < count; number++) {
            bool did = false;
            auto sent = house.outside.submit(0, 0, counted(number));
            copied = 0;
            right += core.deliver(did) == FX_OK && did;
            most_copied = std::max(most_copied, copied);
            copied = 0, now = 0;
            right += core.run_turn(twice) == FX_DONE;
            most_copied = std::max(most_copied, copied);
            now = 0;
            right += house.outside.wait_for(*sent.ticket).answer == 2 * number;
        }
        return right;
    };
    house.outside.keep_notes_by([](const std::string &) {});
    is("many jobs are done", jobs(12000), 36000);
    is("their notes are kept", core.notes_kept(kept, free_notes) == FX_OK && kept == 48000, 1);
    core.keep_notes_by([&](const std::string &text) {
        now += std::count(text.begin(), text.end(), '\n');
        most = std::max(most, now);
        all += text;
    });
    is("more jobs are done", jobs(4000), 12000);
    is("some thousand notes at most go on at a time", most >= 256 && most <= 4096, 1);
    is("and no call copies more than one of the library", most_copied, 128);
    is("soon nearly none is kept", core.notes_kept(kept, free_notes) == FX_OK && kept < 2048, 1);
    is("the rest goes out", core.pass_on(all), FX_OK);
    is("each went on once", static_cast<unsigned long>(std::count(all.begin(), all.end(), '\n')), 64000);
    is("in their order", all.compare(0, 16, "0 took 1>0#1 q0\n") == 0 && all.find("0 done 1>0#16000 ") == all.rfind("0 done "), 1);
    is("the core closes", core.close(mode::finish), FX_OK);
    while (core.round(twice) == FX_OK) {}
    is("it ends", house.end(), FX_OK);
}

// Who takes notes throws each second time. A call that this leaves is made again.
template <class Job> struct fails_often {
    linked::house<Job> house;
    std::string parts[2];
    unsigned long calls = 0, thrown = 0;

    explicit fails_often(const linked::config &with) : house(with) {
        house.cores[0].keep_notes_by([this](const std::string &text) { takes(0, text); });
        house.outside.keep_notes_by([this](const std::string &text) { takes(1, text); });
    }
    void takes(int actor, const std::string &text) {
        if (++calls % 2 == 1) throw std::runtime_error("mine");
        parts[actor] += text;
    }
    template <class Call> auto again(Call call) {
        for (;;) {
            try {
                return call();
            } catch (const std::runtime_error &) {
                thrown++;
            }
        }
    }
    // What is kept goes out, and the house ends.
    template <class Run> void end(Run run) {
        auto &core = house.cores[0];
        is("an end comes too early", house.end(), FX_NOT_DRAINED);
        is("the core closes", again([&] { return core.close(mode::finish); }), FX_OK);
        is("it drains", again([&] { return core.run(run); }), FX_OK);
        is("the last notes go out", core.pass_on(parts[0]) == FX_OK && house.outside.pass_on(parts[1]) == FX_OK, 1);
        is("it ends", house.end(), FX_OK);
        is("once", house.end(), FX_EMPTY);
    }
    // How many of the jobs of the outside actor were sent and done, in their order, once each.
    unsigned long whole(unsigned long jobs) const {
        std::size_t sent = 0, done = 0;
        unsigned long count = 0, lines = 0;
        for (unsigned long number = 1; number <= jobs; number++) {
            std::string name = "1>0#" + std::to_string(number) + " ";
            sent = parts[1].find("1 sent " + name, sent);
            done = parts[0].find("0 done " + name, done);
            if (sent != std::string::npos && done != std::string::npos) count++;
        }
        for (std::size_t at = 0; (at = parts[1].find("1 sent ", at)) != std::string::npos; at++) lines++;
        return lines == jobs ? count : 0;
    }
};

static void no_note_is_lost() {
    fails_often<counted> of({1, 4, 1, 24});
    auto &outside = of.house.outside;
    unsigned long right = 0;
    for (unsigned long number = 0; number < 200; number++) {
        auto sent = of.again([&] { return outside.submit(0, 0, counted(number)); });
        is("a submission that was left was not made", counted::alive.load(), 1);
        (void)of.again([&] { return of.house.cores[0].round(twice); });
        right += of.again([&] { return outside.wait_for(*sent.ticket).answer; }) == 2 * number;
    }
    is("all answers are right", right, 200);
    of.end(twice);
    is("who takes notes threw", of.thrown > 20, 1);
    is("all notes went out once, in their order", of.whole(200), 200);
}

// Who waits for a while is told that the time is over, and may wait again.
static void waits_for_a_while() {
    linked::house<counted> house({1, 4, 1, 1 << 12});
    auto &core = house.cores[0];
    auto &outside = house.outside;
    auto ticket = *outside.submit(0, 0, counted(21)).ticket;
    for (auto longest : {std::chrono::microseconds(0), std::chrono::microseconds(300), std::chrono::microseconds(25000), std::chrono::microseconds(-7)}) {
        auto begin = std::chrono::steady_clock::now();
        is("the time is over", refused([&] { (void)outside.wait_for(ticket, longest); }), FX_PENDING);
        is("and it was waited for", std::chrono::steady_clock::now() - begin >= longest, 1);
    }
    fx_code ended = FX_NULL;
    std::thread thread([&] { ended = core.run(twice); });
    is("the outcome comes", outside.wait_for(ticket, std::chrono::nanoseconds::max()).answer, 42);
    is("it is gone then", refused([&] { (void)outside.wait_for(ticket, std::chrono::hours(1)); }), FX_GONE);
    outside.close_all(mode::finish);
    thread.join();
    is("the core ends", ended, FX_OK);
}

// Who waits is told that the thread of a core has ended, and not that it left its `run` and goes on.
static void waits_for_a_thread_that_ended() {
    linked::house<counted> house({1, 4, 1, 8});
    auto &core = house.cores[0];
    auto &outside = house.outside;
    outside.keep_notes_by([](const std::string &) {});
    fx_code left = FX_OK;
    auto throws = [](counted &job, auto &) {
        if (job.value == 4) throw std::runtime_error("mine");
        return linked::done(2 * job.value);
    };
    std::thread thread([&] {
        left = core.run(throws);
        std::this_thread::sleep_for(std::chrono::milliseconds(30));
        core.keep_notes_by([](const std::string &) {});
        try {
            left = left == FX_JOURNAL_FULL ? core.run(throws) : FX_NULL;
        } catch (const std::runtime_error &) {
        }
    });
    std::vector<linked::ticket> tickets;
    for (unsigned long number = 1; number <= 4; number++) tickets.push_back(*outside.submit(0, 0, counted(number)).ticket);
    is("what was done before is told", outside.wait_for(tickets[0]).answer, 2);
    is("so is what comes behind a full journal", outside.wait_for(tickets[2]).answer, 6);
    is("and what an exception ended", outside.wait_for(tickets[3]).kind, FX_KIND_DONE);
    tickets.push_back(*outside.submit(0, 0, counted(5)).ticket);
    is("nobody runs the last", refused([&] { (void)outside.wait_for(tickets[4]); }), FX_PENDING);
    thread.join();
    is("the journal was full", left, FX_JOURNAL_FULL);
    std::thread again([&] { left = core.run(twice); });
    // That thread may not have begun yet.
    while (refused([&] { is("it runs again", outside.wait_for(tickets[4]).answer, 10); }) == FX_PENDING) std::this_thread::yield();
    is("a detached one lets its place go", outside.detach(tickets[1]), FX_OK);
    is("the core closes with a place", refused([&] { outside.close_all(mode::finish); }), FX_OK);
    again.join();
    is("and drains", left, FX_OK);
}

// A note for which the journal has no room is made later.
static void detaches_later() {
    linked::house<counted> house({1, 2, 1, 4});
    auto &core = house.cores[0];
    auto &outside = house.outside;
    std::string text;
    uint64_t count = 0;
    core.keep_notes_by([](const std::string &) {});
    for (int each = 0; each < 10; each++) {
        auto first = outside.set_shares(0, 0, 900), second = outside.set_shares(0, 0, 800);
        is("both places are free", first.code == FX_OK && second.code == FX_OK, 1);
        while (core.round(twice) == FX_OK) {}
        is("both are collected", outside.collect(count) == FX_OK && count == 2, 1);
        is("the first is let go", outside.detach(*first.ticket), FX_OK);
        is("so is the second", outside.detach(*second.ticket), FX_OK);
        is("the notes go out", outside.pass_on(text), FX_OK);
        is("and those of both come behind", outside.collect(count) == FX_OK && outside.pass_on(text) == FX_OK, 1);
    }
}

int main() {
    waits_for_a_while();
    waits_for_a_thread_that_ended();
    detaches_later();
    one_core();
    what_came();
    what_comes_back();
    notes_go_on();
    notes_go_on_in_bytes();
    notes_are_forgotten();
    no_call_hands_on_many();
    no_note_is_lost();
    exceptions();
    two_cores();
#if defined(__cpp_impl_coroutine)
    coroutines();
    coroutines_that_ask();
    is("each core on a thread ran to its end", ends.load(), 6);
#else
    is("each core on a thread ran to its end", ends.load(), 4);
#endif
    std::printf("%u passed, %u failed\n", passed, failed);
    return failed != 0;
}

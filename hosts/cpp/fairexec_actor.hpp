// fairexec_actor.hpp: what the actors of a house do, for fairexec_house.hpp: they submit jobs, collect, and ask for outcomes.
#ifndef FAIREXEC_ACTOR_HPP
#define FAIREXEC_ACTOR_HPP

#include "fairexec.hpp"
#include "fairexec_notes.hpp"
#include <algorithm>
#include <atomic>
#include <condition_variable>
#include <cstdint>
#include <deque>
#include <functional>
#include <list>
#include <memory>
#include <mutex>
#include <string>

namespace fairexec::linked {

// What the run of a job came to: a step, and the answer of a job that is done.
struct result {
    step came_to;
    uint64_t answer;
    result(step came_to, uint64_t answer = 0) : came_to(came_to), answer(answer) {}
};

inline result done(uint64_t answer) { return {step::done, answer}; }

// The right to ask for the outcome of a submission. `name` names the job, too: by it a job is woken. Of a job it has the place where that stands.
// A ticket that is destroyed lets nothing go: its submission keeps its place of the link until it is redeemed or detached. `by` is the number of the
// handle that submitted (fairexec_callers.hpp), or 0.
struct ticket {
    fx_name name;
    uint64_t house;
    std::optional<uint32_t> place;
    uint64_t by = 0;
};

// What became of a submission: as fx_outcome, with the job that comes back. `answer` is 0 unless `kind` is FX_KIND_DONE.
template <class Job> struct [[nodiscard]] outcome {
    fx_kind kind;
    uint32_t why, queue;
    uint64_t answer;
    std::optional<Job> back;
};

// What a submission came to: a ticket if the code is FX_OK, else the job, if it was one.
template <class Job> struct [[nodiscard]] submitted {
    fx_code code;
    std::optional<fairexec::linked::ticket> ticket;
    std::optional<Job> refused;
};

// The thread that runs a core: 0 before the first one does, and 1 once it has ended.
using runner = std::atomic<std::uintptr_t>;

// What a thread does at its end: it tells the cores that no other thread has run since.
class ending {
    std::vector<std::weak_ptr<runner>> ran;
    std::uintptr_t own() const noexcept { return reinterpret_cast<std::uintptr_t>(this); }

public:
    void run(const std::shared_ptr<runner> &core) {
        if (core->load() == own()) return;
        ran.erase(std::remove_if(ran.begin(), ran.end(), [](auto &each) { return each.expired(); }), ran.end());
        ran.push_back(core);
        core->store(own());
    }
    ~ending() {
        for (auto &each : ran) {
            std::uintptr_t of = own();
            if (auto core = each.lock()) core->compare_exchange_strong(of, 1);
        }
    }
};
inline thread_local ending ends_thread;

// Where the jobs stand, from each actor to each core, and the bells of the actors. A place goes with its job, without a lock. First the sender alone
// has it. An order that was accepted hands it to the core, which has it from each run that the library tells until it settles that run. An outcome
// that was redeemed hands it back.
template <class Job> class lanes {
    struct bell {
        std::atomic<bool> sleeps{false};
        std::shared_ptr<runner> runs = std::make_shared<runner>(0);
        std::mutex lock;
        std::condition_variable rings;
        bool rung = false;
        std::function<void()> calls;
    };
    uint32_t core_count, room_of_lane;
    std::unique_ptr<std::optional<Job>[]> all;
    std::unique_ptr<bell[]> bells;
    uint64_t number;

    std::optional<Job> &at(uint32_t from, uint32_t to, uint64_t place) { return all[(from * core_count + to) * std::size_t{room_of_lane} + place]; }
    static uint64_t next_house() noexcept {
        static std::atomic<uint64_t> houses{0};
        return houses++;
    }

public:
    const form how;

    // A lane has one place more than its link, so that the link judges.
    lanes(uint32_t cores, uint32_t places, form how)
        : core_count(cores), room_of_lane(places + 1), all(new std::optional<Job>[(cores + 1) * cores * std::size_t{room_of_lane}]), bells(new bell[cores + 1]), number(next_house()), how(how) {}
    uint32_t cores() const noexcept { return core_count; }
    uint32_t room() const noexcept { return room_of_lane; }
    // Which house it is, of all that this process opens.
    uint64_t house() const noexcept { return number; }

    // The caller is the actor that has the place.
    void put(uint32_t from, uint32_t to, uint64_t place, Job &&job) noexcept { at(from, to, place).emplace(std::move(job)); }
    std::optional<Job> take(uint32_t from, uint32_t to, uint64_t place) noexcept {
        std::optional<Job> job = std::move(at(from, to, place));
        at(from, to, place).reset();
        return job;
    }

    void on_ring(uint32_t actor, std::function<void()> calls) { bells[actor].calls = std::move(calls); }
    void ring(uint32_t actor) {
        bell &it = bells[actor];
        if (!it.sleeps.load()) return;
        if (it.calls) return it.calls();
        std::lock_guard<std::mutex> guard(it.lock);
        it.rung = true;
        it.rings.notify_one();
    }
    // This thread runs the core from now on. Whether the thread that ran it last has ended.
    void run(uint32_t core) { ends_thread.run(bells[core].runs); }
    bool is_left(uint32_t core) const { return bells[core].runs->load() == 1; }
    void set_asleep(uint32_t actor, bool sleeps) { bells[actor].sleeps.store(sleeps); }
    // No clause says that a link shows at once what the other end did, so a sleeper looks again after 10 ms.
    void wait(uint32_t actor, std::chrono::nanoseconds longest) {
        bell &it = bells[actor];
        std::unique_lock<std::mutex> guard(it.lock);
        it.rings.wait_for(guard, std::min<std::chrono::nanoseconds>(longest, std::chrono::milliseconds(10)), [&] { return it.rung; });
        it.rung = false;
    }
};

// What each actor does. The calls answer the codes of fairexec.h.
template <class Job> class actor : public noted {
    // A job of the own core that parks until the outcome of a submission has come, and what that was.
    struct waiting {
        ticket of;
        fx_name job;
        bool is_woken = false, has_come = false;
        fx_code code = FX_PENDING;
        std::optional<outcome<Job>> told;
        waiting(const ticket &of, const fx_name &job) : of(of), job(job) {}
    };
    // Of the submissions to one core: the places where no job of this actor stands, from that which is vacant longest, of which so many stay so; and how
    // many outcomes weren't collected.
    struct sent {
        std::deque<uint32_t> vacant;
        std::size_t stay = 0;
        uint64_t pending = 0;
    };
    std::vector<sent> to_core;
    // Jobs for whose outcome nobody asks. They are redeemed once they are collected, since a job that comes back has a place.
    std::vector<ticket> loose;
    std::list<waiting> waits;
    // Whether outcomes were collected for which nobody asked yet.
    bool are_new = false;
    // Where jobs go that come back and for which nobody asks, if somebody destroys them behind a lock.
    std::vector<Job> *back = nullptr;
    template <class> friend class behind_lock;

    void let_go(std::optional<outcome<Job>> &told) {
        if (back && told && told->back) back->push_back(std::move(*told->back));
    }

    // So many outcomes were collected just now.
    void came(uint64_t count, std::vector<fx_name> &names) {
        uint64_t kept = 0, more = 0;
        fx_name name{};
        (void)this->notes_kept(kept, more);
        for (; count > 0; count--)
            if (fx_seat_came(&seat, kept - count, &name) == FX_OK) names.push_back(name);
    }
    // Asks for all outcomes that may have come. What a full journal refuses is asked for the next time, and so is all behind an exception of `takes`.
    void ask() {
        if (!are_new) return;
        bool again = false;
        for (std::size_t each = 0; each < loose.size();) {
            auto [code, told] = redeem(loose[each]);
            let_go(told);
            again = again || code == FX_JOURNAL_FULL;
            if (code == FX_PENDING || code == FX_JOURNAL_FULL) each++;
            else loose[each] = loose.back(), loose.pop_back();
        }
        for (auto &each : waits) {
            if (each.has_come) continue;
            auto [code, told] = redeem(each.of);
            again = again || code == FX_JOURNAL_FULL;
            if (code == FX_PENDING || code == FX_JOURNAL_FULL) continue;
            each.has_come = true;
            each.code = code;
            if (told) each.told.emplace(std::move(*told));
        }
        are_new = again;
    }
    // Wakes the jobs whose outcomes have come. A wake that the link doesn't take waits for the next time.
    void wake_waiting() {
        for (auto &each : waits) {
            if (!each.has_come || each.is_woken) continue;
            auto sent = wake(each.job);
            each.is_woken = sent.code == FX_OK;
            if (!sent.ticket) continue;
            try {
                (void)detach(*sent.ticket);
            } catch (...) {
                loose.push_back(*sent.ticket);
                throw;
            }
        }
    }

protected:
    uint32_t own = 0;
    std::shared_ptr<lanes<Job>> shared;

    // No job of this actor takes the last place of its link to itself: a lane has one place more than its link.
    void keep_place() { to_core[own].stay = 2; }
    // The library submitted a wake to this core.
    void sent_to_itself() { to_core[own].pending++; }
    submitted<Job> accepted(const fx_name &name, std::optional<uint32_t> place) {
        to_core[name.to].pending++;
        shared->ring(name.to);
        return {FX_OK, ticket{name, shared->house(), place}, std::nullopt};
    }
    submitted<Job> ordered(uint32_t code, const fx_name &name) {
        if (code != FX_OK) return {static_cast<fx_code>(code), std::nullopt, std::nullopt};
        return accepted(name, std::nullopt);
    }

public:
    actor(fx_house &house, std::shared_ptr<lanes<Job>> lanes) : shared(std::move(lanes)) {
        how = shared->how;
        to_core.resize(shared->cores());
        for (auto &each : to_core)
            for (uint32_t place = 0; place < shared->room(); place++) each.vacant.push_back(place);
        uint32_t code = fx_house_take(&house, &seat, &own);
        if (code == FX_NO_MEMORY) throw std::bad_alloc();
        if (code != FX_OK) throw error(code);
    }
    actor(actor &&other) noexcept
        : noted(std::move(other)), to_core(std::move(other.to_core)), loose(std::move(other.loose)), waits(std::move(other.waits)), are_new(other.are_new), own(other.own), shared(std::move(other.shared)) {
    }
    actor(const actor &) = delete;
    actor &operator=(actor &&) = delete;
    ~actor() { fx_seat_free(&seat); }

    uint32_t number() const noexcept { return own; }

    submitted<Job> submit(uint32_t to, uint32_t queue, Job job) {
        if (to >= shared->cores()) return {FX_UNKNOWN_CORE, std::nullopt, std::move(job)};
        auto &vacant = to_core[to].vacant;
        if (vacant.size() <= to_core[to].stay) return {FX_FULL, std::nullopt, std::move(job)};
        uint32_t place = vacant.front();
        shared->put(own, to, place, std::move(job));
        fx_name name;
        uint32_t code;
        try {
            code = called([&] { return fx_seat_submit(&seat, to, queue, place, &name); });
        } catch (...) {
            shared->take(own, to, place);
            throw;
        }
        if (code != FX_OK) return {static_cast<fx_code>(code), std::nullopt, shared->take(own, to, place)};
        vacant.pop_front();
        return accepted(name, place);
    }
    // Orders that are no jobs: each is answered with an fx_answer.
    submitted<Job> create(uint32_t to, uint32_t shares) {
        fx_name name{};
        return ordered(called([&] { return fx_seat_create(&seat, to, shares, &name); }), name);
    }
    submitted<Job> set_shares(uint32_t to, uint32_t queue, uint32_t shares) {
        fx_name name{};
        return ordered(called([&] { return fx_seat_set_shares(&seat, to, queue, shares, &name); }), name);
    }
    submitted<Job> close_queue(uint32_t to, uint32_t queue, mode mode) {
        fx_name name{};
        return ordered(called([&] { return fx_seat_close_queue(&seat, to, queue, static_cast<uint32_t>(mode), &name); }), name);
    }
    submitted<Job> close_core(uint32_t to, mode mode) {
        fx_name name{};
        return ordered(called([&] { return fx_seat_close_core(&seat, to, static_cast<uint32_t>(mode), &name); }), name);
    }
    submitted<Job> wake(const fx_name &job) {
        fx_name name{};
        return ordered(called([&] { return fx_seat_wake(&seat, &job, &name); }), name);
    }

    // Collects what all links show, and writes how many outcomes there were. With `names` the names of what came go behind those, in the order in which they
    // came: so who has many tickets redeems these alone. The name of a submission that was let go is among them.
    [[nodiscard]] fx_code collect(uint64_t &count, std::vector<fx_name> *names = nullptr) {
        count = 0;
        for (uint32_t core = 0; core < shared->cores(); core++) {
            uint64_t some = 0;
            if (to_core[core].pending == 0) continue;
            if (names) names->reserve(names->size() + static_cast<std::size_t>(to_core[core].pending));
            uint32_t code = called([&] { return fx_seat_collect(&seat, core, &some); });
            if (code != FX_OK) return static_cast<fx_code>(code);
            // Each outcome is a note, and a call makes some four.
            this->count_more(some / 4);
            to_core[core].pending -= some;
            are_new = are_new || some > 0;
            count += some;
            if (names) came(some, *names);
        }
        ask();
        wake_waiting();
        return FX_OK;
    }
    // The outcome of a submission wakes this job of the own core, and is kept for it.
    void wake_with(const ticket &of, const fx_name &job) { waits.emplace_back(of, job); }
    // What was kept: as `redeem` tells it, with the outcome in `told`, and FX_PENDING until it has come.
    [[nodiscard]] fx_code kept(const ticket &of, std::optional<outcome<Job>> &told) {
        for (auto each = waits.begin(); each != waits.end(); ++each) {
            if (each->of.name.to != of.name.to || each->of.name.number != of.name.number || !each->has_come) continue;
            fx_code code = each->code;
            if (each->told) told.emplace(std::move(*each->told));
            waits.erase(each);
            return code;
        }
        return FX_PENDING;
    }
    // The outcome of a submission that was collected: FX_OK and the outcome, or why there is none. The ticket of another house is unknown.
    [[nodiscard]] std::pair<fx_code, std::optional<outcome<Job>>> redeem(const ticket &of) {
        if (of.house != shared->house()) return {FX_UNKNOWN, std::nullopt};
        fx_outcome told{};
        told.size = sizeof told;
        uint32_t code = called([&] { return fx_seat_redeem(&seat, &of.name, &told); });
        if (code != FX_OK) return {static_cast<fx_code>(code), std::nullopt};
        outcome<Job> is{static_cast<fx_kind>(told.kind), told.why, told.queue, told.answer, std::nullopt};
        if (told.kind == FX_KIND_BACK) is.back.emplace(std::move(*shared->take(of.name.from, of.name.to, told.job)));
        // An outcome is redeemed once, so no place is vacant twice.
        if (of.place) to_core[of.name.to].vacant.push_back(*of.place);
        return {FX_OK, std::move(is)};
    }
    // Nobody will ask for the outcome. A job that comes back is destroyed. If the journal is too full for the note, `collect` makes it later.
    [[nodiscard]] fx_code detach(const ticket &of) {
        bool is_order = !of.place && of.house == shared->house();
        fx_code code;
        if (is_order) {
            code = static_cast<fx_code>(called([&] { return fx_seat_detach(&seat, &of.name); }));
        } else {
            auto [redeemed, told] = redeem(of);
            let_go(told);
            code = redeemed;
        }
        if (code != FX_PENDING && code != FX_JOURNAL_FULL) return code;
        are_new = are_new || code == FX_JOURNAL_FULL;
        loose.push_back(of);
        return FX_OK;
    }

    // A thread that sleeps by its own means, as by epoll, lets `calls` be called where there is something to do: it says so before the threads
    // of the house start. It asks may_sleep, sleeps if that says so, and then calls is_awake.
    void on_ring(std::function<void()> calls) { shared->on_ring(own, std::move(calls)); }
    bool may_sleep() {
        shared->set_asleep(own, true);
        return fx_seat_shows(&seat) == FX_IDLE;
    }
    void is_awake() { shared->set_asleep(own, false); }
    // It sleeps for so long at most, and never for more than 10 ms.
    void sleep(std::chrono::nanoseconds longest = std::chrono::nanoseconds::max()) {
        if (may_sleep()) shared->wait(own, longest);
        is_awake();
    }
};

// What a job may do while it runs.
template <class Job> class cx {
    actor<Job> &of;
    sleepers &asleep;

public:
    const fx_name name;
    const uint32_t queue;
    cx(actor<Job> &of, sleepers &asleep, const fx_turn &turn) : of(of), asleep(asleep), name(turn.name), queue(turn.queue) {}
    actor<Job> *operator->() noexcept { return &of; }
    // The step of a job that sleeps until this time, as in `return here.sleep_until(time);`: see `sleep_until` of fairexec::house.
    [[nodiscard]] step sleep_until(sleep_clock::time_point time) { return asleep.sleep_until(time); }
};

} // namespace fairexec::linked

#endif

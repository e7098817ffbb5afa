// fairexec_house.hpp: the house of fairexec.h for C++17, header only: cores on threads of their own, with links between them.
//
//     fairexec::linked::house<fairexec::linked::job> house({2});
//     fx_code codes[2];
//     std::thread first([&] { codes[0] = house.cores[0].run(); }), second([&] { codes[1] = house.cores[1].run(); });
//     auto sent = house.outside.submit(1, 0, [](fairexec::linked::cx<fairexec::linked::job> &) { return fairexec::linked::done(42); });
//     ... if (sent.code == FX_OK) house.outside.wait_for(*sent.ticket) ...
//
// With C++20 a job may be a coroutine, `task`. A house keeps what its jobs are: a job moves to the core that it is submitted to, and is destroyed there when it is done. A core is used by one thread at a time, and goes to another as fairexec.h says. Any thread reads its counts by `shared_stats`.
#ifndef FAIREXEC_HOUSE_HPP
#define FAIREXEC_HOUSE_HPP

#include "fairexec_actor.hpp"
#include "fairexec_board.h"

namespace fairexec::linked {

// What a house is opened with: see fx_config. And how notes are passed on.
struct config {
    uint32_t cores = 1, places = 64, burst = 1, notes = 1u << 20;
    form how = form::text;

    // What stands before the parts of all actors if they are passed on in bytes: `fxh1`, the count of the cores, the burst, and the places.
    std::string head() const {
        auto byte = [](uint32_t number) { return static_cast<char>(number & 255u); };
        return {'f', 'x', 'h', '1', byte(cores), byte(burst), byte(places), byte(places >> 8)};
    }
};

// The counts of a core and of its queues by their numbers, as they were together at one time.
struct counts {
    fx_core_stats core;
    std::vector<fx_queue_stats> queues;
};

// The counts of a core, for any thread: see `shared_stats` of `core`. It is cheap to copy, and may outlive the core and its house.
class board {
    std::shared_ptr<const fx_board> shared;

public:
    explicit board(std::shared_ptr<const fx_board> of) : shared(std::move(of)) {}
    // What the core told last. The core waits for no reader. A reader waits while counts are written.
    counts read() const {
        auto found = std::make_unique<fx_counts>();
        fx_board_read(shared.get(), found.get());
        return {found->core, {found->queues, found->queues + found->core.queues}};
    }
};

// A core. An exception of a job leaves run_turn: the job is then done with answer 0, and destroyed.
template <class Job, class Clock = std::chrono::steady_clock> class core : public actor<Job> {
    static_assert(std::is_nothrow_move_constructible_v<Job>, "a job moves in and out without an exception");
    static_assert(noexcept(Clock::now()), "a clock tells the time without an exception");

    sleepers asleep;

    // Settles the run that it saw begin, also if an exception ends it.
    struct running {
        core &of;
        const fx_turn &turn;
        fx_code &told;
        typename Clock::time_point began, &ended;
        std::optional<Job> job = of.shared->take(turn.name.from, turn.name.to, turn.job);
        result came_to = step::done;

        ~running() {
            ended = Clock::now();
            auto spent = std::chrono::duration_cast<std::chrono::nanoseconds>(ended - began).count();
            const fx_name &name = turn.name;
            // The job is in its place, or gone, before the library gives it on.
            if (came_to.came_to == step::done) job.reset();
            else of.shared->put(name.from, name.to, turn.job, std::move(*job));
            told = of.asleep.settle(of.seat, came_to.came_to, came_to.answer, spent < 0 ? 0 : static_cast<uint64_t>(spent));
            if (told == FX_DONE && name.from != of.own) of.shared->ring(name.from);
        }
    };

    // Whether a run is over, when the first began, and when the last ended.
    struct times {
        bool are_told = false;
        typename Clock::time_point first{}, ended{};
    };

    // Runs the next job once. The run began as the last one ended, if that is told.
    template <class Run> fx_code run_turn(Run &run, times &of) {
        fx_turn turn{};
        turn.size = sizeof turn;
        fx_code code = static_cast<fx_code>(this->called([&] { return fx_seat_next(&this->seat, &turn); }));
        if (code == FX_BACK) this->shared->ring(turn.name.from);
        if (code != FX_START && code != FX_RESUME) return code;
        asleep.until = FX_NEVER;
        typename Clock::time_point began = of.are_told ? of.ended : Clock::now();
        if (!std::exchange(of.are_told, true)) of.first = began;
        {
            running now{*this, turn, code, began, of.ended};
            cx<Job> here(*this, asleep, turn);
            now.came_to = run(*now.job, here);
        }
        return code;
    }

    // A round runs jobs for so long at most, or one job, and no more than so many. What other actors submit meanwhile waits so long.
    static constexpr std::chrono::nanoseconds longest{5000};
    static constexpr uint32_t most = 64;

    // Where it leaves its counts for other threads, if somebody asked for them.
    std::shared_ptr<fx_board> told_on;

    // So many turns were made, or deliveries that may make some.
    void count_turns(uint32_t turns) noexcept {
        if (told_on && turns > 0) fx_board_count(told_on.get(), &this->seat, turns);
    }
    // The core has nothing to do.
    void rest() noexcept {
        if (told_on) fx_board_rest(told_on.get(), &this->seat);
    }

    // Runs jobs, each from the end of the one before: the code of the last turn.
    template <class Run> fx_code run_turns(Run &run, bool &did) {
        times of;
        fx_code code = FX_OK;
        for (uint32_t count = 0; count < most; count++) {
            code = run_turn(run, of);
            if (code == FX_IDLE || code == FX_JOURNAL_FULL || code == FX_SPENT) return code;
            did = true;
            if (of.are_told && of.ended - of.first >= longest) break;
        }
        return code;
    }

public:
    using actor<Job>::actor;
    core(core &&) noexcept = default;
    ~core() { show_stats(); }

    // Runs the next job once, by `run`, which is called with the job and a cx: FX_OK, FX_PARKED, FX_DONE, FX_BACK, FX_IDLE, FX_JOURNAL_FULL or FX_SPENT.
    template <class Run> [[nodiscard]] fx_code run_turn(Run &&run) {
        times of;
        fx_code code = run_turn(run, of);
        count_turns(code == FX_IDLE || code == FX_JOURNAL_FULL || code == FX_SPENT ? 0 : 1);
        return code;
    }

    // Delivers an order of each actor, or so many. Before that it wakes the jobs whose time has come. A closed core shuts the gates: its own once no job
    // is inside, since jobs may have to be woken.
    [[nodiscard]] fx_code deliver(bool &did, uint32_t of_each = 1) {
        if (asleep.may_be_due() && wake_due() == FX_JOURNAL_FULL) return FX_JOURNAL_FULL;
        for (uint32_t sender = this->shared->cores() + 1; sender-- > 0;) {
            if (sender == this->own && stats().held > 0) continue;
            uint32_t code = this->called([&] { return fx_seat_shut(&this->seat, sender); });
            did = did || code == FX_OK;
            if (code == FX_OPEN) break;
            if (code == FX_JOURNAL_FULL) return FX_JOURNAL_FULL;
        }
        for (uint32_t sender = 0; sender <= this->shared->cores(); sender++) {
            for (uint32_t count = 0; count < of_each; count++) {
                uint32_t code = this->called([&] { return fx_seat_deliver(&this->seat, sender); });
                if (code == FX_JOURNAL_FULL) return FX_JOURNAL_FULL;
                if (code != FX_OK) break;
                did = true;
            }
        }
        count_turns(did ? 1 : 0);
        return FX_OK;
    }

    // Opens timers: from now on jobs of this core may sleep by sleep_clock, and `deliver` wakes those whose time has come. It asks for memory, 80 bytes for
    // each place of each link to this core. A wake is an order of the core to itself, so one place of that link stays free of its jobs. It throws `error`
    // with FX_BAD_NUMBER if links have a single place, or std::bad_alloc. A second call does nothing.
    void open_timers() {
        uint32_t places = this->shared->room() - 1;
        if (places < 2) throw error(FX_BAD_NUMBER, "places = 1");
        if (asleep) return;
        asleep.open((this->shared->cores() + 1) * places);
        this->keep_place();
    }
    // When the next timer is due, if one is set: a thread that sleeps by its own means sleeps until then at most.
    std::optional<sleep_clock::time_point> next_time() noexcept { return asleep.next_time(); }
    // Submits a wake of each job whose time has come by then, which is delivered as any order: FX_IDLE, FX_JOURNAL_FULL, FX_FULL if the link takes no more
    // for now, or FX_EMPTY without timers.
    fx_code wake_due(sleep_clock::time_point now = sleep_clock::now()) {
        return asleep.wake_due([&](timers &timers) {
            uint32_t code = this->called([&] { return fx_seat_wake_due(&this->seat, &timers.get(), in_timers(now)); });
            if (code == FX_OK) this->sent_to_itself();
            return code;
        });
    }

    // One round: it delivers what the links show, runs jobs for 5 us or as long as one run takes, and collects: FX_OK if anything happened, else FX_IDLE,
    // or FX_JOURNAL_FULL or FX_SPENT. If a round has several runs, each is measured from the end of the one before, so the time between them counts too.
    template <class Run> [[nodiscard]] fx_code round(Run &&run) {
        bool did = false, ran = false;
        uint64_t count = 0;
        fx_code code = deliver(did, most);
        if (code != FX_OK) return code;
        code = run_turns(run, ran);
        count_turns(ran ? most : 0);
        if (code == FX_JOURNAL_FULL || code == FX_SPENT) return code;
        code = this->collect(count);
        if (code != FX_OK) return code;
        return did || ran || count > 0 ? FX_OK : FX_IDLE;
    }

    // Rounds until the core is drained: FX_OK, or FX_JOURNAL_FULL or FX_SPENT. Behind these and behind an exception it may be called again.
    template <class Run> [[nodiscard]] fx_code run(Run &&by) {
        // Other threads are told what it came to, also if an exception leaves it.
        std::unique_ptr<core, void (*)(core *)> leaving(this, [](core *of) { of->show_stats(); });
        this->shared->run(this->own);
        while (!is_drained()) {
            fx_code code = round(by);
            if (code == FX_IDLE) sleep();
            else if (code != FX_OK) return code;
        }
        return FX_OK;
    }
    // The same for jobs that are callables, with a cx or without.
    static result call(Job &job, cx<Job> &here) {
        if constexpr (std::is_invocable_v<Job &, cx<Job> &>) return job(here);
        else return job();
    }
    [[nodiscard]] fx_code round() { return round(call); }
    [[nodiscard]] fx_code run() { return run(call); }

    [[nodiscard]] fx_code close(mode mode) {
        return static_cast<fx_code>(this->called([&] { return fx_seat_close(&this->seat, static_cast<uint32_t>(mode)); }));
    }
    bool is_drained() noexcept { return fx_seat_drained(&this->seat) == FX_OK; }
    fx_core_stats stats() noexcept {
        fx_core_stats stats{};
        stats.size = sizeof stats;
        fx_seat_stats(&this->seat, &stats);
        return stats;
    }
    fx_queue_stats stats_of(uint32_t queue) {
        fx_queue_stats stats{};
        stats.size = sizeof stats;
        uint32_t code = fx_seat_stats_of_queue(&this->seat, queue, &stats);
        if (code != FX_OK) throw error(code);
        return stats;
    }

    // The counts of the core and of its queues, for any thread; who has the core calls this. From now on it tells them behind each 1024 turns or some
    // more (see fairexec_board.h), where a round counts as 64; before it sleeps; as `run` is left; and before it ends or is destroyed: these stay. If
    // nobody asked before the core ended, this throws `error` with FX_EMPTY.
    [[nodiscard]] board shared_stats() {
        if (told_on) return show_stats(), board(told_on);
        auto made = std::make_shared<fx_board>();
        uint32_t code = fx_board_open(made.get(), &this->seat);
        if (code != FX_OK) throw error(code);
        return board(told_on = std::move(made));
    }
    // Tells them now, if somebody asked for them. What ended or was moved from tells nothing.
    void show_stats() noexcept {
        if (told_on) fx_board_tell(told_on.get(), &this->seat);
    }

    // As those of `actor`. The counts are told before, and a timer that is due ends the sleep.
    bool may_sleep() {
        rest();
        return actor<Job>::may_sleep();
    }
    void sleep(std::chrono::nanoseconds longest = std::chrono::nanoseconds::max()) {
        rest();
        actor<Job>::sleep(std::min(longest, asleep.left()));
    }
};

// The outside actor: the part of the host that belongs to no core.
template <class Job> class outside : public actor<Job> {
public:
    using actor<Job>::actor;

    // Waits for the outcome of a submission. It throws `error` if there will be none. With FX_PENDING the outcome hasn't come, and the thread that
    // called `run` of the core last has ended.
    outcome<Job> wait_for(const ticket &of) { return wait_until(of, std::chrono::steady_clock::time_point::max()); }
    // Waits for so long at most. It throws FX_PENDING, too, if the time is over, and the ticket is good for further calls.
    outcome<Job> wait_for(const ticket &of, std::chrono::nanoseconds longest) {
        auto now = std::chrono::steady_clock::now(), never = std::chrono::steady_clock::time_point::max();
        return wait_until(of, longest < never - now ? now + longest : never);
    }
    // As wait_for, until this time.
    outcome<Job> wait_until(const ticket &of, std::chrono::steady_clock::time_point end) {
        for (bool is_last = false;;) {
            uint64_t count = 0;
            fx_code code = this->collect(count);
            if (code != FX_OK) throw error(code);
            auto [told, is] = this->redeem(of);
            if (told == FX_OK) return std::move(*is);
            if (told != FX_PENDING || is_last) throw error(told);
            // What the core did before is collected once more.
            auto left = end - std::chrono::steady_clock::now();
            is_last = left.count() <= 0 || this->shared->is_left(of.name.to);
            if (!is_last) this->sleep(left);
        }
    }
    // Orders each core to close, and waits for none. Each order takes a place of its link: `error` with FX_FULL if none is free.
    void close_all(mode mode) {
        for (uint32_t core = 0; core < this->shared->cores(); core++) {
            auto told = this->close_core(core, mode);
            if (told.code != FX_OK && told.code != FX_CLOSED) throw error(told.code);
            fx_code code = told.ticket ? this->detach(*told.ticket) : FX_OK;
            if (code != FX_OK) throw error(code);
        }
    }
};

// A house with all its actors. Each core is used by the thread that it was given to, and the outside actor by one thread.
template <class Job, class Clock = std::chrono::steady_clock> class house {
    struct owned {
        fx_house at = FX_NO_HOUSE;
        ~owned() { fx_house_free(&at); }
    } handle;
    std::shared_ptr<lanes<Job>> shared;
    // How many cores have ended.
    std::size_t ended = 0;

    std::shared_ptr<lanes<Job>> opened(const config &with) {
        if (fx_version() != FX_VERSION) throw std::runtime_error("libfairexec.a has another version than fairexec.h");
        fx_config asked{};
        asked.size = sizeof asked;
        asked.cores = with.cores;
        asked.places = with.places;
        asked.burst = with.burst;
        asked.notes = with.notes;
        uint32_t code = fx_house_open(&handle.at, &asked);
        if (code == FX_NO_MEMORY) throw std::bad_alloc();
        if (code == FX_BAD_NUMBER) throw error(code, wrong(with));
        if (code != FX_OK) throw error(code);
        return std::make_shared<lanes<Job>>(with.cores, with.places, with.how);
    }
    // The number of the config that is out of its range.
    static std::string wrong(const config &with) {
        if (with.cores < 1 || with.cores > 16) return "cores = " + std::to_string(with.cores);
        if (with.places < 1 || with.places > 1024) return "places = " + std::to_string(with.places);
        if (with.burst < 1 || with.burst > 64) return "burst = " + std::to_string(with.burst);
        return "notes = " + std::to_string(with.notes);
    }

public:
    linked::outside<Job> outside;
    std::vector<core<Job, Clock>> cores;

    explicit house(const config &with) : shared(opened(with)), outside(handle.at, shared) {
        // The outside actor comes first, and then the cores from the greatest number on.
        std::vector<core<Job, Clock>> taken;
        for (uint32_t left = with.cores; left > 0; left--) taken.emplace_back(handle.at, shared);
        cores.reserve(taken.size());
        for (std::size_t left = taken.size(); left > 0; left--) cores.push_back(std::move(taken[left - 1]));
    }
    house(const house &) = delete;
    house &operator=(const house &) = delete;

    // Ends all actors: FX_OK; or FX_NOT_DRAINED, and none has ended by this call; or FX_NO_MEMORY, and the next call goes on with who is left. No
    // thread uses the actors any more.
    [[nodiscard]] fx_code end() {
        for (std::size_t each = ended; each < cores.size(); each++)
            if (!cores[each].is_drained()) return FX_NOT_DRAINED;
        for (; ended < cores.size(); ended++) {
            cores[ended].show_stats();
            fx_code code = cores[ended].end(handle.at);
            if (code != FX_OK) return code;
        }
        return outside.end(handle.at);
    }
    // After the end: the verdict over the journals of all actors, and the text of the notes that they kept. If an actor passed notes on, the
    // house can't judge, and audit throws `error` with FX_PASSED_ON.
    fx_verdict audit() {
        fx_verdict verdict{};
        verdict.size = sizeof verdict;
        uint32_t code = fx_house_audit(&handle.at, &verdict);
        if (code == FX_NO_MEMORY) throw std::bad_alloc();
        if (code != FX_OK) throw error(code);
        return verdict;
    }
    std::string text() {
        std::string all;
        std::vector<uint8_t> part(1 << 16);
        uint64_t count = 0;
        do {
            uint32_t code = fx_house_text(&handle.at, all.size(), part.data(), part.size(), &count);
            if (code == FX_NO_MEMORY) throw std::bad_alloc();
            if (code != FX_OK) throw error(code);
            all.append(part.begin(), part.begin() + static_cast<std::ptrdiff_t>(count));
        } while (count == part.size());
        return all;
    }
};

} // namespace fairexec::linked

#include "fairexec_task.hpp"

#endif

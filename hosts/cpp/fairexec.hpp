// fairexec.hpp: the calls of fairexec.h for C++17, header only.
//
//     fairexec::house<fairexec::job> house(64);
//     if (house.submit(0, [n = 0]() mutable { return ++n == 3 ? fairexec::step::done : fairexec::step::yield; }) != FX_OK) return;
//     while (house.run_turn().code != FX_IDLE) {}
//
// `core` is a core whose jobs are numbers, and `timers` are for those that sleep. `house` is a core that keeps what its jobs are: `job` is any callable,
// and `task` a coroutine, where the compiler has them (C++20). Its jobs sleep behind `open_timers`. Nothing here is shared or locked: a core and a house
// belong to one thread at a time, and move between threads as fairexec.h says.
#ifndef FAIREXEC_HPP
#define FAIREXEC_HPP

#include "fairexec_timers.hpp"
#include <chrono>
#include <cstddef>
#include <memory>
#include <new>
#include <optional>
#include <stdexcept>
#include <string>
#include <type_traits>
#include <utility>
#include <vector>
#if defined(__cpp_impl_coroutine)
#include <coroutine>
#include <exception>
#endif

namespace fairexec {

// How a queue or a core closes: its jobs run on, or each goes back.
enum class mode : uint32_t { finish = FX_MODE_FINISH, give_back = FX_MODE_RETURN };

// A core whose jobs are numbers. It is moved, and never copied. One that was moved from has no core: its calls answer FX_EMPTY.
class core {
    fx_core handle = FX_NO_CORE;

    static void check(uint32_t code) {
        if (code == FX_NO_MEMORY) throw std::bad_alloc();
        if (code != FX_OK) throw error(code);
    }

public:
    // Room for this many jobs, 1 to 131070.
    explicit core(uint32_t jobs) {
        if (fx_version() != FX_VERSION) throw std::runtime_error("libfairexec.a has another version than fairexec.h");
        uint32_t code = fx_open(&handle, jobs);
        if (code == FX_BAD_NUMBER) throw error(code, "jobs = " + std::to_string(jobs));
        check(code);
    }
    core(core &&other) noexcept { std::swap(handle, other.handle); }
    core &operator=(core &&other) noexcept {
        core taken(std::move(other));
        std::swap(handle, taken.handle);
        return *this;
    }
    core(const core &) = delete;
    core &operator=(const core &) = delete;
    ~core() { fx_free(&handle); }

    // These throw `error`, or std::bad_alloc, if they are refused.
    uint32_t create(uint32_t shares) {
        uint32_t queue = 0;
        check(fx_create(&handle, shares, &queue));
        return queue;
    }
    void set_shares(uint32_t queue, uint32_t shares) { check(fx_set_shares(&handle, queue, shares)); }
    fx_core_stats stats() {
        fx_core_stats stats{};
        stats.size = sizeof stats;
        check(fx_stats(&handle, &stats));
        return stats;
    }
    fx_queue_stats stats_of(uint32_t queue) {
        fx_queue_stats stats{};
        stats.size = sizeof stats;
        check(fx_stats_of_queue(&handle, queue, &stats));
        return stats;
    }

    // These answer the codes of fairexec.h.
    [[nodiscard]] fx_code submit(uint32_t queue, uint64_t job) noexcept { return static_cast<fx_code>(fx_submit(&handle, queue, job)); }
    [[nodiscard]] fx_code submit(uint32_t queue, uint64_t job, uint64_t &order) noexcept { return static_cast<fx_code>(fx_submit_numbered(&handle, queue, job, &order)); }
    [[nodiscard]] fx_code wake(uint64_t order) noexcept { return static_cast<fx_code>(fx_wake(&handle, order)); }
    [[nodiscard]] fx_code next(uint64_t &job) noexcept { return static_cast<fx_code>(fx_next(&handle, &job)); }
    [[nodiscard]] fx_code settle(step step, uint64_t spent) noexcept { return static_cast<fx_code>(fx_settle(&handle, static_cast<uint32_t>(step), spent)); }
    [[nodiscard]] fx_code settle(step step, uint64_t spent, timers &timers, uint64_t until) noexcept {
        return static_cast<fx_code>(fx_settle_until(&handle, &timers.get(), static_cast<uint32_t>(step), spent, until));
    }
    [[nodiscard]] fx_code wake_due(timers &timers, uint64_t now) noexcept { return static_cast<fx_code>(fx_wake_due(&handle, &timers.get(), now)); }
    [[nodiscard]] fx_code close_queue(uint32_t queue, mode mode) noexcept { return static_cast<fx_code>(fx_close_queue(&handle, queue, static_cast<uint32_t>(mode))); }
    [[nodiscard]] fx_code close(mode mode) noexcept { return static_cast<fx_code>(fx_close(&handle, static_cast<uint32_t>(mode))); }
};

// A core that keeps its jobs. `Clock` is what their runs are measured by.
//
// An exception of a job leaves run_turn: the job is then done, and destroyed. What a house still has when it ends is destroyed with it.
// A house isn't moved or freed while a job of it runs.
template <class Job, class Clock = std::chrono::steady_clock> class house {
    static_assert(std::is_nothrow_move_constructible_v<Job>, "a job moves in and out without an exception");
    static_assert(noexcept(Clock::now()), "a clock tells the time without an exception");

    // Places are never added, so a job that submits another one stays where it is.
    std::vector<std::optional<Job>> places;
    std::vector<uint32_t> vacant;
    core inner;
    sleepers asleep;

    fx_code settle(step came_to, uint64_t spent) noexcept {
        if (!asleep) return inner.settle(came_to, spent);
        return asleep.settle(came_to, [&](step step, timers &timers, uint64_t until) { return inner.settle(step, spent, timers, until); });
    }

    // Settles the run that it saw begin, also if an exception ends it.
    struct running {
        house &of;
        uint64_t place;
        fx_code &told;
        typename Clock::time_point began = Clock::now();
        step came_to = step::done;

        ~running() {
            auto spent = std::chrono::duration_cast<std::chrono::nanoseconds>(Clock::now() - began).count();
            told = of.settle(came_to, spent < 0 ? 0 : static_cast<uint64_t>(spent));
            if (came_to == step::done) of.vacate(place);
        }
    };

    std::optional<Job> vacate(uint64_t place) noexcept {
        std::optional<Job> job = std::move(places[static_cast<std::size_t>(place)]);
        places[static_cast<std::size_t>(place)].reset();
        vacant.push_back(static_cast<uint32_t>(place));
        return job;
    }

public:
    // What a turn came to: FX_OK (the job yielded, or parked and stays), FX_PARKED, FX_DONE, FX_IDLE, FX_SPENT, FX_BUSY, or FX_BACK, with
    // the job that came back.
    struct [[nodiscard]] turn {
        fx_code code;
        std::optional<Job> back;
    };

    explicit house(uint32_t jobs) : inner(jobs) {
        std::size_t room = static_cast<std::size_t>(inner.stats().room);
        places.resize(room);
        vacant.reserve(room);
        for (std::size_t place = room; place > 0; place--) vacant.push_back(static_cast<uint32_t>(place - 1));
    }

    uint32_t create(uint32_t shares) { return inner.create(shares); }
    void set_shares(uint32_t queue, uint32_t shares) { inner.set_shares(queue, shares); }
    fx_core_stats stats() { return inner.stats(); }
    fx_queue_stats stats_of(uint32_t queue) { return inner.stats_of(queue); }
    [[nodiscard]] fx_code close_queue(uint32_t queue, mode mode) noexcept { return inner.close_queue(queue, mode); }
    [[nodiscard]] fx_code close(mode mode) noexcept { return inner.close(mode); }

    // Takes the job if it answers FX_OK, and leaves it as it was if it answers FX_CLOSED, FX_FULL, FX_SPENT or FX_NO_QUEUE. A job that
    // tells that it is empty, as one that was moved from, isn't taken: FX_BAD_NUMBER.
    [[nodiscard]] fx_code submit(uint32_t queue, Job &&job) noexcept {
        uint64_t order = 0;
        return submit(queue, std::move(job), order);
    }

    // The same, and tells the number by which `wake` names the job.
    [[nodiscard]] fx_code submit(uint32_t queue, Job &&job, uint64_t &order) noexcept {
        if constexpr (std::is_class_v<Job> && std::is_constructible_v<bool, const Job &>) {
            if (!static_cast<bool>(job)) return FX_BAD_NUMBER;
        }
        if (asleep && vacant.size() < 2) return inner.stats().closed != 0 ? FX_CLOSED : FX_FULL;
        uint32_t place = vacant.empty() ? 0 : vacant.back();
        fx_code code = inner.submit(queue, place, order);
        if (code != FX_OK) return code;
        vacant.pop_back();
        places[place].emplace(std::move(job));
        return FX_OK;
    }

    // Wakes the job of this number: FX_OK, or FX_FULL, FX_SPENT, FX_ABSENT. It looks again for what it waits for.
    [[nodiscard]] fx_code wake(uint64_t order) noexcept { return inner.wake(order); }

    // Opens timers: from now on jobs may sleep by sleep_clock, and run_turn wakes those whose time has come. It asks for memory, 80 bytes a job. One place
    // of the house stays free for wakes from then on, so there is room for one job less. It throws `error` with FX_FULL if none is free, or
    // std::bad_alloc. A second call does nothing.
    void open_timers() {
        if (asleep) return;
        if (vacant.empty()) throw error(FX_FULL);
        asleep.open(static_cast<uint32_t>(places.size()));
    }
    // The step of a job that sleeps until this time, as in `return house.sleep_until(time);`. It runs again once that has come, or a wake: so it looks at
    // the clock, or for what it waits for. The time of the last call in a run counts. Without timers it throws `error` with FX_EMPTY.
    [[nodiscard]] step sleep_until(sleep_clock::time_point time) { return asleep.sleep_until(time); }
    // When the next timer is due, if one is set: behind FX_IDLE the thread may sleep until then.
    std::optional<sleep_clock::time_point> next_time() noexcept { return asleep.next_time(); }
    // Wakes the jobs whose time has come by then: FX_IDLE, or FX_EMPTY without timers.
    fx_code wake_due(sleep_clock::time_point now = sleep_clock::now()) noexcept {
        return asleep.wake_due([&](timers &timers) { return inner.wake_due(timers, in_timers(now)); });
    }

    // Runs the next job once: `run` is called with the job and the house, and answers a step.
    template <class Run> turn run_turn(Run &&run) {
        uint64_t place = 0;
        if (asleep.may_be_due()) wake_due();
        fx_code code = inner.next(place);
        if (code == FX_BACK) return {code, vacate(place)};
        if (code != FX_START && code != FX_RESUME) return {code, std::nullopt};
        asleep.until = FX_NEVER;
        turn told{FX_OK, std::nullopt};
        {
            running now{*this, place, told.code};
            now.came_to = run(*places[static_cast<std::size_t>(place)], *this);
        }
        return told;
    }

    // The same for jobs that are callables.
    turn run_turn() {
        return run_turn([](Job &job, house &house) {
            if constexpr (std::is_invocable_r_v<step, Job &, fairexec::house<Job, Clock> &>) return job(house);
            else return job();
        });
    }
};

// Any callable that answers a step, also one that can only be moved. It is called with its house if it takes one.
template <class Clock> class any_job {
    struct base {
        virtual ~base() = default;
        virtual step run(house<any_job, Clock> &house) = 0;
    };
    template <class Call> struct holding final : base {
        Call call;
        explicit holding(Call &&given) : call(std::move(given)) {}
        step run(house<any_job, Clock> &house) override {
            if constexpr (std::is_invocable_r_v<step, Call &, fairexec::house<any_job, Clock> &>) return call(house);
            else return call();
        }
    };
    std::unique_ptr<base> held;

public:
    template <class Call, class = std::enable_if_t<!std::is_same_v<std::decay_t<Call>, any_job>>>
    any_job(Call call) : held(std::make_unique<holding<Call>>(std::move(call))) {}
    explicit operator bool() const noexcept { return held != nullptr; }
    step operator()(house<any_job, Clock> &house) { return held->run(house); }
};

using job = any_job<std::chrono::steady_clock>;

#if defined(__cpp_impl_coroutine)
// `co_await fairexec::again;` ends the run of a task, which wants to run again.
struct again_type {};
inline constexpr again_type again{};

// `co_await fairexec::park;` ends the run of a task, which waits for a wake: it looks again for what it waits for, since a wake may be early.
struct park_type {};
inline constexpr park_type park{};

// A coroutine as a job. It starts with its first run. An exception of it leaves run_turn. It awaits nothing but `again`, `park`, `until`, `sleep_for` and
// `park_until`: each run resumes it, except one before the time of `until` or `sleep_for`. One that sleeps is called with its house, as run_turn does,
// and throws `error` with FX_EMPTY if that has no timers.
class task {
public:
    struct promise_type {
        std::exception_ptr thrown;
        bool parks = false;
        std::optional<until_type> sleeps;
        task get_return_object() { return task(std::coroutine_handle<promise_type>::from_promise(*this)); }
        std::suspend_always initial_suspend() noexcept { return {}; }
        std::suspend_always final_suspend() noexcept { return {}; }
        std::suspend_always await_transform(again_type) noexcept { return {}; }
        std::suspend_always await_transform(park_type) noexcept {
            parks = true;
            return {};
        }
        std::suspend_always await_transform(until_type until) noexcept {
            sleeps = until;
            return {};
        }
        void return_void() noexcept {}
        void unhandled_exception() noexcept { thrown = std::current_exception(); }
    };

    task(task &&other) noexcept : at(std::exchange(other.at, nullptr)) {}
    task &operator=(task &&) = delete;
    ~task() {
        if (at) at.destroy();
    }
    explicit operator bool() const noexcept { return at != nullptr; }

    template <class House> step operator()(House &of) {
        std::optional<until_type> &sleeps = at.promise().sleeps;
        if (sleeps && !sleeps->is_over()) return of.sleep_until(sleeps->time);
        step told = resumed();
        return sleeps ? of.sleep_until(sleeps->time) : told;
    }
    // Without a house none sleeps.
    step operator()() {
        sleepers none;
        return (*this)(none);
    }

private:
    std::coroutine_handle<promise_type> at;
    explicit task(std::coroutine_handle<promise_type> at) : at(at) {}

    step resumed() {
        promise_type &of = at.promise();
        of.parks = false;
        of.sleeps.reset();
        at.resume();
        if (of.thrown) std::rethrow_exception(std::exchange(of.thrown, nullptr));
        return at.done() ? step::done : of.parks ? step::park : step::yield;
    }
};
#endif

} // namespace fairexec

#endif

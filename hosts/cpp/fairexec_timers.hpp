// fairexec_timers.hpp: jobs that park until a time, for fairexec.hpp, which includes it. And the steps and errors that all wrappers share.
#ifndef FAIREXEC_TIMERS_HPP
#define FAIREXEC_TIMERS_HPP

#include "fairexec.h"
#include <algorithm>
#include <chrono>
#include <cstdint>
#include <new>
#include <optional>
#include <stdexcept>
#include <string>
#include <utility>

namespace fairexec {

// What the run of a job came to: it wants to run again, it is done, or it leaves its queue until it is woken.
enum class step : uint32_t { yield = FX_STEP_YIELD, done = FX_STEP_DONE, park = FX_STEP_PARK };

// A call that was refused. `what` tells the code in words, behind the number that is out of its range if one is.
class error : public std::runtime_error {
    fx_code code_;

public:
    explicit error(uint32_t code) : std::runtime_error(fx_text(code)), code_(static_cast<fx_code>(code)) {}
    error(uint32_t code, const std::string &of) : std::runtime_error(of + ": " + fx_text(code)), code_(static_cast<fx_code>(code)) {}
    fx_code code() const noexcept { return code_; }
};

// The timers of the jobs of one core. They are moved, and never copied. What they were moved from is empty: calls with it answer FX_EMPTY.
class timers {
    fx_timers handle = FX_NO_TIMERS;

public:
    // For this many jobs, 1 to 131070: as many as the core has room for.
    explicit timers(uint32_t jobs) {
        if (fx_version() != FX_VERSION) throw std::runtime_error("libfairexec.a has another version than fairexec.h");
        uint32_t code = fx_timers_open(&handle, jobs);
        if (code == FX_NO_MEMORY) throw std::bad_alloc();
        if (code != FX_OK) throw error(code, "jobs = " + std::to_string(jobs));
    }
    timers(timers &&other) noexcept { std::swap(handle, other.handle); }
    timers &operator=(timers &&other) noexcept {
        timers taken(std::move(other));
        std::swap(handle, taken.handle);
        return *this;
    }
    timers(const timers &) = delete;
    timers &operator=(const timers &) = delete;
    ~timers() { fx_timers_free(&handle); }

    // When the next timer is due, if one is set.
    std::optional<uint64_t> next_time() noexcept {
        uint64_t time = 0;
        return fx_next_time(&handle, &time) == FX_OK ? std::optional<uint64_t>(time) : std::nullopt;
    }
    // For the calls of fairexec.h.
    fx_timers &get() noexcept { return handle; }
};

// The clock by which jobs of a house sleep. It isn't what their runs are measured by: the processor time of a thread stands still while that sleeps.
using sleep_clock = std::chrono::steady_clock;

// A time as the timers of a house have it, in nanoseconds. The last time of the clock is FX_NEVER: there is none.
inline uint64_t in_timers(sleep_clock::time_point time) noexcept {
    auto since = std::chrono::ceil<std::chrono::nanoseconds>(time.time_since_epoch()).count();
    return time == sleep_clock::time_point::max() ? FX_NEVER : since < 0 ? 0 : static_cast<uint64_t>(since);
}
inline uint64_t now_in_timers() noexcept {
    auto since = std::chrono::floor<std::chrono::nanoseconds>(sleep_clock::now().time_since_epoch()).count();
    return since < 0 ? 0 : static_cast<uint64_t>(since);
}

// What a coroutine awaits that sleeps.
struct until_type {
    sleep_clock::time_point time;
    // A wake before its time ends the sleep.
    bool is_woken;
    // Whether a coroutine that awaits it and runs may go on.
    bool is_over() const noexcept { return is_woken || now_in_timers() >= in_timers(time); }
};

// `co_await fairexec::until(time);` ends the run of a task, which goes on once this time has come, and not before: a wake that comes earlier is passed
// over. `sleep_for` says how long it is until then.
inline until_type until(sleep_clock::time_point time) noexcept { return {time, false}; }
inline until_type sleep_for(std::chrono::nanoseconds longest) noexcept {
    auto now = sleep_clock::now(), never = sleep_clock::time_point::max();
    return {longest < never - now ? now + std::chrono::ceil<sleep_clock::duration>(longest) : never, false};
}
// `co_await fairexec::park_until(time);` parks a task for so long at most: it goes on at a wake, or once this time has come.
inline until_type park_until(sleep_clock::time_point time) noexcept { return {time, true}; }

// The timers of a core that keeps its jobs, if somebody opened them.
class sleepers {
    std::optional<timers> all;
    // No timer is due before this. That of a job that ran goes without a look, so the next one may be due later.
    uint64_t next = FX_NEVER;
    // The core took the last wake not.
    bool is_refused = false;

public:
    // Until then the job that runs sleeps if it parks.
    uint64_t until = FX_NEVER;

    sleepers() = default;
    sleepers(sleepers &&other) noexcept : all(std::exchange(other.all, std::nullopt)), next(std::exchange(other.next, FX_NEVER)), is_refused(other.is_refused) {}
    sleepers &operator=(sleepers &&other) noexcept {
        all = std::exchange(other.all, std::nullopt);
        next = std::exchange(other.next, FX_NEVER);
        is_refused = other.is_refused;
        return *this;
    }
    explicit operator bool() const noexcept { return all.has_value(); }
    void open(uint32_t jobs) { all.emplace(jobs); }

    // What a job asks that is to sleep.
    step sleep_until(sleep_clock::time_point time) {
        if (!all) throw error(FX_EMPTY, "a job sleeps on a core without timers");
        until = in_timers(time);
        return step::park;
    }
    // Settles a run, by this call. If each timer is set, some for jobs that went back, the job stays in its queue, and looks again.
    template <class Settles> fx_code settle(step came_to, Settles settles) {
        uint32_t code = settles(came_to, *all, until);
        if (code == FX_FULL) code = settles(step::yield, *all, FX_NEVER);
        if (code == FX_PARKED) next = std::min(next, until);
        return static_cast<fx_code>(code);
    }
    // Settles a run of a core of a house.
    fx_code settle(fx_seat &seat, step came_to, uint64_t answer, uint64_t spent) noexcept {
        if (!all) return static_cast<fx_code>(fx_seat_settle(&seat, static_cast<uint32_t>(came_to), answer, spent));
        return settle(came_to, [&](step step, timers &timers, uint64_t until) {
            return fx_seat_settle_until(&seat, &timers.get(), static_cast<uint32_t>(step), answer, spent, until);
        });
    }
    // Whether a timer may be due. Where none is set the clock isn't asked.
    bool may_be_due() const noexcept { return next != FX_NEVER && next <= now_in_timers(); }
    // Makes this call until it is refused: its code, or FX_EMPTY if nobody opened timers.
    template <class Wakes> fx_code wake_due(Wakes wakes) {
        if (!all) return FX_EMPTY;
        uint32_t code = FX_OK;
        while (code == FX_OK || code == FX_ABSENT) code = wakes(*all);
        is_refused = code != FX_IDLE;
        next = all->next_time().value_or(FX_NEVER);
        return static_cast<fx_code>(code);
    }
    std::optional<sleep_clock::time_point> next_time() noexcept {
        std::optional<uint64_t> time = all ? all->next_time() : std::nullopt;
        if (!time) return std::nullopt;
        return sleep_clock::time_point(std::chrono::ceil<sleep_clock::duration>(std::chrono::nanoseconds(*time)));
    }
    // How long it is until a timer may be due, where a wake may come. A core that took the last one not looks again behind its own sleep.
    std::chrono::nanoseconds left() const noexcept {
        if (next == FX_NEVER || is_refused) return std::chrono::nanoseconds::max();
        uint64_t now = now_in_timers();
        return std::chrono::nanoseconds(next > now ? next - now : 0);
    }
};

} // namespace fairexec

#endif

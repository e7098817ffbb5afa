// fairexec_task.hpp: callables and coroutines as jobs of a house, for fairexec_house.hpp, which includes it.
#ifndef FAIREXEC_TASK_HPP
#define FAIREXEC_TASK_HPP

#include "fairexec_house.hpp"

namespace fairexec::linked {

// Any callable that answers a result or a step, with a cx or without, also one that can only be moved.
class job {
    struct base {
        virtual ~base() = default;
        virtual result run(cx<job> &here) = 0;
    };
    template <class Call> struct holding final : base {
        Call call;
        explicit holding(Call &&given) : call(std::move(given)) {}
        result run(cx<job> &here) override {
            if constexpr (std::is_invocable_v<Call &, cx<job> &>) return call(here);
            else return call();
        }
    };
    std::unique_ptr<base> held;

public:
    template <class Call, class = std::enable_if_t<!std::is_same_v<std::decay_t<Call>, job>>>
    job(Call call) : held(std::make_unique<holding<Call>>(std::move(call))) {}
    result operator()(cx<job> &here) { return held->run(here); }
};

#if defined(__cpp_impl_coroutine)
// A coroutine as a job of a house: `co_return 42;` is its answer, `co_await again;` and `co_await park;` end a run, and
// `co_await ask(core, queue, task)` submits another one and goes on with its outcome. Until that has come it is parked, and the other holds a place of
// the link: coroutines that wait for more others than a link has places wait for ever. An exception of a coroutine leaves run_turn; a submission that is
// refused for good throws `error` in the coroutine. On a core with timers it also awaits `until`, `sleep_for` and `park_until` (fairexec_timers.hpp); on
// one without them that is an exception of it, `error` with FX_EMPTY.
class task {
public:
    struct promise_type;
    struct asking;

    task(task &&other) noexcept : at(std::exchange(other.at, nullptr)) {}
    task &operator=(task &&) = delete;
    ~task() {
        if (at) at.destroy();
    }
    result operator()(cx<task> &here);

private:
    std::coroutine_handle<promise_type> at;
    explicit task(std::coroutine_handle<promise_type> at) : at(at) {}
};

struct task::asking {
    uint32_t to, queue;
    task job;
};

inline task::asking ask(uint32_t to, uint32_t queue, task job) { return {to, queue, std::move(job)}; }

struct task::promise_type {
    std::exception_ptr thrown;
    bool parks = false;
    std::optional<until_type> sleeps;
    uint64_t answer = 0;
    // What it asks another core, from the submission to the outcome.
    std::optional<asking> sends;
    std::optional<ticket> waits;
    std::optional<outcome<task>> told;
    fx_code refused = FX_OK;

    struct awaits {
        promise_type &of;
        bool await_ready() noexcept { return false; }
        void await_suspend(std::coroutine_handle<>) noexcept {}
        outcome<task> await_resume() {
            if (of.refused != FX_OK) throw error(std::exchange(of.refused, FX_OK));
            outcome<task> told = std::move(*of.told);
            of.told.reset();
            return told;
        }
    };

    task get_return_object() { return task(std::coroutine_handle<promise_type>::from_promise(*this)); }
    std::suspend_always initial_suspend() noexcept { return {}; }
    std::suspend_always final_suspend() noexcept { return {}; }
    std::suspend_always await_transform(again_type) noexcept { return {}; }
    std::suspend_always await_transform(park_type) noexcept {
        parks = true;
        return {};
    }
    std::suspend_always await_transform(until_type until) noexcept {
        sleeps = until;
        return {};
    }
    awaits await_transform(asking what) {
        sends.emplace(std::move(what));
        return {*this};
    }
    void return_value(uint64_t with) noexcept { answer = with; }
    void unhandled_exception() noexcept { thrown = std::current_exception(); }

    // Whether the coroutine may go on: what it asks for has come, or is refused.
    bool may_go_on(cx<task> &here) {
        if (sends) {
            auto sent = here->submit(sends->to, sends->queue, std::move(sends->job));
            if (sent.code == FX_FULL) {
                asking again{sends->to, sends->queue, std::move(*sent.refused)};
                sends.reset();
                sends.emplace(std::move(again));
                return false;
            }
            sends.reset();
            refused = sent.code;
            waits = sent.ticket;
            if (waits) here->wake_with(*waits, here.name);
        }
        if (!waits) return true;
        fx_code code = here->kept(*waits, told);
        if (code == FX_PENDING) return false;
        waits.reset();
        refused = code;
        return true;
    }
};

inline result task::operator()(cx<task> &here) {
    promise_type &of = at.promise();
    if (of.sleeps && !of.sleeps->is_over()) return here.sleep_until(of.sleeps->time);
    while (of.may_go_on(here)) {
        of.parks = false;
        of.sleeps.reset();
        at.resume();
        if (of.thrown) std::rethrow_exception(std::exchange(of.thrown, nullptr));
        if (at.done()) return done(of.answer);
        if (of.sleeps) return here.sleep_until(of.sleeps->time);
        if (!of.sends) return of.parks ? step::park : step::yield;
    }
    return of.waits ? step::park : step::yield;
}

#endif

} // namespace fairexec::linked

#endif

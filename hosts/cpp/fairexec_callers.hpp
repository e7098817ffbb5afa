// fairexec_callers.hpp: handles on the outside actor of a house, for C++17, header only. Any thread submits and waits by a handle.
//
//     fairexec::linked::callers<fairexec::linked::job> callers(house.outside);
//     std::thread caller([handle = callers.handle()]() mutable {
//         auto sent = handle.submit(1, 0, [] { return fairexec::linked::done(42); });
//         ... if (sent.code == FX_OK) handle.wait_for(*sent.ticket) ...
//     });
//     ... caller.join(); if (callers.end() == FX_OK) house.end() ...
//
// Each call of a handle takes a lock, makes the call of the outside actor that has its name, and gives the lock back. So what all handles did is what one
// thread could have done, and the journal is that of one actor. One that waits has the lock for each look, and not while it sleeps. Who takes notes
// (keep_notes_by) is called under the lock, so it calls no handle. A job that comes back is destroyed behind it.
//
// Of those that wait one leads: it sleeps until a core rings, for 10 ms at most. The others follow, each on a condition variable of its own. Who collects
// redeems what came for those that wait, and wakes these alone. The leader that leaves names the next one.
#ifndef FAIREXEC_CALLERS_HPP
#define FAIREXEC_CALLERS_HPP

#include "fairexec_house.hpp"
#include <set>

namespace fairexec::linked {

template <class Job> class caller;

// The outside actor behind a lock, and who waits.
template <class Job> class behind_lock {
    using clock = std::chrono::steady_clock;

    struct waiter {
        const ticket &of;
        bool leads, has_told = false;
        fx_code code = FX_PENDING;
        std::optional<outcome<Job>> told{};
        std::condition_variable wakes{};
        waiter(const ticket &of, bool leads) : of(of), leads(leads) {}
    };
    actor<Job> &of;
    std::mutex lock;
    // In the order in which they came. If there are some and none of them was told, one leads.
    std::deque<waiter *> waiters;
    // The handles that aren't gone.
    std::set<uint64_t> out;

    friend class caller<Job>;
    template <class> friend class callers;

    // A call under the lock. Jobs that come back meanwhile are destroyed behind it.
    class inside {
        behind_lock &of;
        std::vector<Job> back;
        std::unique_lock<std::mutex> guard;

    public:
        // What one was told that an exception takes away.
        std::optional<outcome<Job>> lost;
        explicit inside(behind_lock &of) : of(of), guard(of.lock) { of.of.back = &back; }
        ~inside() {
            if (!guard) return;
            of.of.back = nullptr;
            guard.unlock();
        }
        inside(const inside &) = delete;
        void leave() {
            of.of.back = nullptr;
            guard.unlock();
            back.clear();
        }
        void enter() {
            guard.lock();
            of.of.back = &back;
        }
        // Sleeps without the lock until it is woken, or until that time.
        void wait(waiter &own, clock::time_point end) {
            of.of.back = nullptr;
            if (end == clock::time_point::max()) own.wakes.wait(guard);
            else own.wakes.wait_until(guard, end);
            of.of.back = &back;
        }
    };

    uint64_t add() {
        static std::atomic<uint64_t> handles{0};
        std::lock_guard<std::mutex> guard(lock);
        return *out.insert(++handles).first;
    }
    void remove(uint64_t number) {
        std::lock_guard<std::mutex> guard(lock);
        out.erase(number);
    }

    // The cores whose threads have ended, a bit each. What these did before is collected behind this.
    uint32_t are_left() const {
        uint32_t left = 0;
        for (uint32_t core = 0; core < of.shared->cores(); core++) left |= of.shared->is_left(core) ? 1u << core : 0u;
        return left;
    }
    // Collects, and tells those that wait for what came.
    fx_code collect(uint64_t &count) {
        uint32_t left = waiters.empty() ? 0 : are_left();
        fx_code code = of.collect(count);
        if (code != FX_OK || (count == 0 && left == 0)) return code;
        for (waiter *each : waiters) {
            if (each->has_told) continue;
            auto [redeemed, is] = of.redeem(each->of);
            if (redeemed == FX_PENDING && !(left >> each->of.name.to & 1u)) continue;
            if (is) each->told.emplace(std::move(*is));
            each->code = redeemed;
            each->has_told = true;
            if (each->leads) of.shared->ring(of.own);
            else each->wakes.notify_one();
        }
        return FX_OK;
    }

    // One that waits, as long as it does.
    struct waiting {
        behind_lock &of;
        inside &now;
        waiter own;
        waiting(behind_lock &of, inside &now, const ticket &ticket) : of(of), now(now), own(ticket, true) {
            for (waiter *each : of.waiters) own.leads = own.leads && !each->leads;
            of.waiters.push_back(&own);
        }
        // The lock is held. If it led, the one leads from now on who waits longest and wasn't told.
        ~waiting() {
            of.waiters.erase(std::find(of.waiters.begin(), of.waiters.end(), &own));
            if (own.told) now.lost.emplace(std::move(*own.told));
            if (!own.leads) return;
            auto next = std::find_if(of.waiters.begin(), of.waiters.end(), [](waiter *each) { return !each->has_told; });
            if (next == of.waiters.end()) return;
            (*next)->leads = true;
            (*next)->wakes.notify_one();
        }
    };

    // Sleeps without the lock until a core rings, unless a link shows something or it was told by now.
    void lead(inside &now, waiter &own, std::chrono::nanoseconds longest) {
        now.leave();
        of.shared->set_asleep(of.own, true);
        now.enter();
        bool is_idle = !own.has_told && fx_seat_shows(&of.seat) == FX_IDLE;
        now.leave();
        if (is_idle) of.shared->wait(of.own, longest);
        of.is_awake();
        now.enter();
    }

    outcome<Job> wait_until(const ticket &ticket, clock::time_point end) {
        inside now(*this);
        bool is_last = are_left() >> ticket.name.to & 1u;
        uint64_t count = 0;
        fx_code code = collect(count);
        if (code != FX_OK) throw error(code);
        auto [told, is] = of.redeem(ticket);
        if (told == FX_OK) return std::move(*is);
        if (told != FX_PENDING || is_last) throw error(told);
        waiting in(*this, now, ticket);
        for (;;) {
            auto left = end - clock::now();
            bool is_over = left.count() <= 0;
            if (!in.own.has_told && (in.own.leads || is_over)) code = collect(count);
            if (in.own.has_told) {
                if (in.own.code != FX_OK) throw error(in.own.code);
                return std::move(*in.own.told);
            }
            if (code != FX_OK) throw error(code);
            if (is_over) throw error(FX_PENDING);
            if (in.own.leads) lead(now, in.own, left);
            else now.wait(in.own, end);
        }
    }

    void close_all(mode mode) {
        inside now(*this);
        for (uint32_t core = 0; core < of.shared->cores(); core++) {
            auto told = of.close_core(core, mode);
            if (told.code != FX_OK && told.code != FX_CLOSED) throw error(told.code);
            fx_code code = told.ticket ? of.detach(*told.ticket) : FX_OK;
            if (code != FX_OK) throw error(code);
        }
    }

public:
    explicit behind_lock(actor<Job> &of) : of(of) {}
};

// A handle on the outside actor. It goes to any thread, several threads may use it, and a copy is a handle of its own. The calls answer the codes of
// fairexec.h, as those of the outside actor. The ticket of another handle is FX_UNKNOWN.
template <class Job> class caller {
    std::shared_ptr<behind_lock<Job>> shared;
    uint64_t own = 0;

    using inside = typename behind_lock<Job>::inside;
    bool owns(const ticket &of) const noexcept { return of.by == own; }
    template <class Call> submitted<Job> sent(Call call) {
        inside now(*shared);
        submitted<Job> told = call(shared->of);
        if (told.ticket) told.ticket->by = own;
        return told;
    }

public:
    explicit caller(std::shared_ptr<behind_lock<Job>> of) : shared(std::move(of)), own(shared->add()) {}
    caller(const caller &other) : caller(other.shared) {}
    // One that was moved from is gone.
    caller(caller &&other) noexcept : shared(std::move(other.shared)), own(other.own) {}
    caller &operator=(caller other) noexcept {
        std::swap(shared, other.shared);
        std::swap(own, other.own);
        return *this;
    }
    ~caller() {
        if (shared) shared->remove(own);
    }

    // No two handles of a process have the same, and none has 0.
    uint64_t number() const noexcept { return own; }

    submitted<Job> submit(uint32_t to, uint32_t queue, Job job) {
        return sent([&](actor<Job> &of) { return of.submit(to, queue, std::move(job)); });
    }
    submitted<Job> create(uint32_t to, uint32_t shares) {
        return sent([&](actor<Job> &of) { return of.create(to, shares); });
    }
    submitted<Job> set_shares(uint32_t to, uint32_t queue, uint32_t shares) {
        return sent([&](actor<Job> &of) { return of.set_shares(to, queue, shares); });
    }
    submitted<Job> close_queue(uint32_t to, uint32_t queue, mode mode) {
        return sent([&](actor<Job> &of) { return of.close_queue(to, queue, mode); });
    }
    submitted<Job> close_core(uint32_t to, mode mode) {
        return sent([&](actor<Job> &of) { return of.close_core(to, mode); });
    }
    // It wakes any job, also another's.
    submitted<Job> wake(const fx_name &job) {
        return sent([&](actor<Job> &of) { return of.wake(job); });
    }
    // As that of the outside actor.
    void close_all(mode mode) { shared->close_all(mode); }
    // Collects what all links show, whoever submitted, and wakes those that wait for it.
    [[nodiscard]] fx_code collect(uint64_t &count) {
        inside now(*shared);
        return shared->collect(count);
    }
    [[nodiscard]] std::pair<fx_code, std::optional<outcome<Job>>> redeem(const ticket &of) {
        if (!owns(of)) return {FX_UNKNOWN, std::nullopt};
        inside now(*shared);
        return shared->of.redeem(of);
    }
    [[nodiscard]] fx_code detach(const ticket &of) {
        if (!owns(of)) return FX_UNKNOWN;
        inside now(*shared);
        return shared->of.detach(of);
    }
    // These wait as those of the outside actor. Others make their calls while it sleeps.
    outcome<Job> wait_for(const ticket &of) { return wait_until(of, std::chrono::steady_clock::time_point::max()); }
    outcome<Job> wait_for(const ticket &of, std::chrono::nanoseconds longest) {
        auto now = std::chrono::steady_clock::now(), never = std::chrono::steady_clock::time_point::max();
        return wait_until(of, longest < never - now ? now + longest : never);
    }
    outcome<Job> wait_until(const ticket &of, std::chrono::steady_clock::time_point end) {
        if (!owns(of)) throw error(FX_UNKNOWN);
        return shared->wait_until(of, end);
    }
    [[nodiscard]] fx_code pass_on(std::string &text) {
        inside now(*shared);
        return shared->of.pass_on(text);
    }
    [[nodiscard]] fx_code notes_kept(uint64_t &kept, uint64_t &free_notes) {
        inside now(*shared);
        return shared->of.notes_kept(kept, free_notes);
    }
    [[nodiscard]] fx_code forget(uint64_t &count) {
        inside now(*shared);
        return shared->of.forget(count);
    }
};

// The outside actor behind a lock. As long as handles are out, nobody uses the actor itself, and its house isn't ended.
template <class Job> class callers {
    std::shared_ptr<behind_lock<Job>> shared;

public:
    explicit callers(outside<Job> &of) : shared(std::make_shared<behind_lock<Job>>(of)) {}
    callers(const callers &) = delete;
    callers &operator=(const callers &) = delete;

    // A new handle. As many as the host likes may be out.
    caller<Job> handle() { return caller<Job>(shared); }
    // The numbers of the handles that aren't gone.
    std::vector<uint64_t> out() const {
        std::lock_guard<std::mutex> guard(shared->lock);
        return {shared->out.begin(), shared->out.end()};
    }
    // FX_OK once all handles are gone: the host uses the actor itself again, and ends the house. FX_BUSY before.
    [[nodiscard]] fx_code end() const { return out().empty() ? FX_OK : FX_BUSY; }
};

} // namespace fairexec::linked

#endif

// A key-value store sharded over the cores of a house. Each core has a thread, a part of the keys in a map without a lock, and an epoll of its
// own. Requests have 900 shares of a core, and the compaction of its log has 100. A client connects to any core: a request is submitted to the
// core of its key, and its answer goes out once its outcome has come, in the order of the requests. At the end it tells the shares, the waits
// and the audit's verdict.
//
//   g++ -std=c++17 -O2 -Ihosts/c -Ihosts/cpp hosts/examples/sharded.cpp hosts/out/libfairexec.a -pthread
//
// The protocol has lines: `put KEY VALUE` is answered `ok`, and `get KEY` is answered the value, or `none`.
#include "fairexec_house.hpp"
#include <arpa/inet.h>
#include <cstdio>
#include <cstdlib>
#include <ctime>
#include <deque>
#include <netinet/tcp.h>
#include <string>
#include <sys/epoll.h>
#include <sys/eventfd.h>
#include <sys/socket.h>
#include <thread>
#include <unistd.h>
#include <unordered_map>

namespace linked = fairexec::linked;
using fairexec::step;

constexpr uint32_t cores = 2, requests = 0, compaction = 1;
constexpr unsigned keys = 2000, rounds = 6, batch = 100;

// Jobs are charged for the processor's time, so a thread that the system set aside isn't charged for that.
struct thread_clock {
    using duration = std::chrono::nanoseconds;
    using rep = duration::rep;
    using period = duration::period;
    using time_point = std::chrono::time_point<thread_clock>;
    static constexpr bool is_steady = true;
    static time_point now() noexcept {
        timespec time{};
        clock_gettime(CLOCK_THREAD_CPUTIME_ID, &time);
        return time_point(std::chrono::seconds(time.tv_sec) + std::chrono::nanoseconds(time.tv_nsec));
    }
};
using wall = std::chrono::steady_clock;
using house = linked::house<linked::job, thread_clock>;

static int must(long answer, const char *what) {
    if (answer < 0) {
        std::perror(what);
        std::exit(1);
    }
    return static_cast<int>(answer);
}

static sockaddr_in loopback(uint16_t port) {
    sockaddr_in address{};
    address.sin_family = AF_INET;
    address.sin_port = htons(port);
    address.sin_addr.s_addr = htonl(INADDR_LOOPBACK);
    return address;
}

// A request and its answer. The core of its key has it from the submission until the outcome.
struct request {
    std::string line, answer;
    wall::time_point since = wall::now();
};

// A socket, what came in without its end of line, and the requests whose answers are due, in their order. One without a ticket waits for a
// place of its link.
struct connection {
    struct due {
        std::shared_ptr<request> what;
        std::optional<linked::ticket> ticket;
    };
    int socket;
    std::string begun;
    std::deque<due> asked;
    explicit connection(int socket) : socket(socket) {
        int on = 1;
        must(setsockopt(socket, IPPROTO_TCP, TCP_NODELAY, &on, sizeof on), "no delay");
    }
    connection(const connection &) = delete;
    ~connection() { close(socket); }
    void say(const std::string &text) const { must(send(socket, text.data(), text.size(), MSG_NOSIGNAL), "send"); }
};

struct entry {
    std::string key, value;
};

// One core: its part of the store, and its connections. Its thread alone uses it, and the jobs on its core.
class shard {
    linked::core<linked::job, thread_clock> &core;
    shard *const *all;
    std::vector<entry> log;
    std::unordered_map<std::string, std::size_t> index;
    bool is_compacting = false;
    unsigned long compactions = 0, runs = 0;
    std::chrono::nanoseconds waited{}, longest{};
    std::unordered_map<int, connection> connections;
    int events = must(epoll_create1(0), "epoll"), listener = must(socket(AF_INET, SOCK_STREAM, 0), "socket"), bell = must(eventfd(0, EFD_NONBLOCK), "bell");

    void watch(int socket) {
        epoll_event event{};
        event.events = EPOLLIN;
        event.data.fd = socket;
        must(epoll_ctl(events, EPOLL_CTL_ADD, socket, &event), "watch");
    }

    // Drops overwritten entries from the log, some at each run.
    struct compacting {
        shard &of;
        std::vector<entry> fresh = {};
        std::unordered_map<std::string, std::size_t> moved = {};
        std::size_t at = 0;
        step operator()() {
            for (unsigned each = 0; each < 16; each++) {
                if (at == of.log.size()) {
                    of.log.swap(fresh);
                    of.index.swap(moved);
                    of.compactions++;
                    of.is_compacting = false;
                    return step::done;
                }
                const entry &next = of.log[at];
                if (of.index[next.key] == at++) {
                    moved[next.key] = fresh.size();
                    fresh.push_back(next);
                }
            }
            return step::yield;
        }
    };

    // Runs on this core, as a job.
    void answer(request &to) {
        auto wait = std::chrono::duration_cast<std::chrono::nanoseconds>(wall::now() - to.since);
        runs++;
        waited += wait;
        longest = std::max(longest, wait);
        std::size_t blank = to.line.find(' ', 4);
        std::string key = to.line.substr(4, blank - 4);
        if (to.line.compare(0, 4, "put ") != 0) {
            auto found = index.find(key);
            to.answer = found == index.end() ? "none\n" : log[found->second].value + "\n";
            return;
        }
        index[key] = log.size();
        log.push_back({key, to.line.substr(blank + 1)});
        to.answer = "ok\n";
        if (log.size() <= 2 * index.size() || is_compacting) return;
        auto begun = core.submit(core.number(), compaction, compacting{*this});
        is_compacting = begun.ticket.has_value();
        if (begun.ticket) must(core.detach(*begun.ticket) == FX_OK ? 0 : -1, "detach");
    }

    // Submits the requests of a connection that have no ticket yet, as far as the links take them.
    void submit(connection &of) {
        for (auto &each : of.asked) {
            if (each.ticket) continue;
            std::size_t blank = each.what->line.find(' ', 4);
            uint32_t owner = static_cast<uint32_t>(std::stoul(each.what->line.substr(4, blank - 4)) % cores);
            each.ticket = core.submit(owner, requests, [shard = all[owner], what = each.what] { return shard->answer(*what), step::done; }).ticket;
            if (!each.ticket) return;
        }
    }

    // Sends the answers that have come.
    void reply(connection &to) {
        std::string text;
        while (!to.asked.empty() && to.asked.front().ticket && core.redeem(*to.asked.front().ticket).first == FX_OK) {
            text += to.asked.front().what->answer;
            to.asked.pop_front();
        }
        if (!text.empty()) to.say(text);
    }

    void read(int socket) {
        connection &from = connections.at(socket);
        char bytes[4096];
        ssize_t count = recv(socket, bytes, sizeof bytes, 0);
        if (count <= 0) {
            connections.erase(socket);
            return;
        }
        from.begun.append(bytes, static_cast<std::size_t>(count));
        std::size_t end;
        while ((end = from.begun.find('\n')) != std::string::npos) {
            auto what = std::make_shared<request>();
            what->line = from.begun.substr(0, end);
            from.asked.push_back({std::move(what), std::nullopt});
            from.begun.erase(0, end + 1);
        }
    }

    void take(int ready) {
        uint64_t rung = 0;
        if (ready == bell) {
            if (::read(bell, &rung, sizeof rung) < 0) return;
        } else if (ready == listener) {
            int socket = must(accept(listener, nullptr, nullptr), "accept");
            connections.emplace(socket, socket);
            watch(socket);
        } else {
            read(ready);
        }
    }

public:
    shard(linked::core<linked::job, thread_clock> &core, shard *const *all) : core(core), all(all) {
        sockaddr_in address = loopback(0);
        must(bind(listener, reinterpret_cast<sockaddr *>(&address), sizeof address), "bind");
        must(listen(listener, 8), "listen");
        watch(listener);
        watch(bell);
        core.on_ring([this] { must(eventfd_write(bell, 1), "ring"); });
    }
    shard(const shard &) = delete;
    ~shard() {
        close(listener);
        close(bell);
        close(events);
    }

    uint16_t port() const {
        sockaddr_in address{};
        socklen_t size = sizeof address;
        must(getsockname(listener, reinterpret_cast<sockaddr *>(&address), &size), "name");
        return ntohs(address.sin_port);
    }

    // Sockets and rounds by turns until the core is drained. If there is nothing to do the thread sleeps in its epoll.
    void serve() {
        for (bool is_idle = false; !core.is_drained();) {
            epoll_event ready[16];
            int count = epoll_wait(events, ready, 16, is_idle && core.may_sleep() ? 10 : 0);
            core.is_awake();
            for (int each = 0; each < count; each++) take(ready[each].data.fd);
            for (auto &each : connections) submit(each.second);
            is_idle = count <= 0;
            for (int each = 0; each < 32; each++) {
                fx_code code = core.round();
                if (code == FX_IDLE) break;
                must(code == FX_OK ? 0 : -1, "round");
                is_idle = false;
            }
            for (auto &each : connections) reply(each.second);
        }
    }

    void tell() {
        double first = static_cast<double>(core.stats_of(requests).time_low), second = static_cast<double>(core.stats_of(compaction).time_low);
        std::printf("core %u: requests %.1f %% of the time, compaction %.1f %%; %lu requests waited %.1f us on average and %.1f us at most; %lu compactions\n", core.number(), 100 * first / (first + second),
                    100 * second / (first + second), runs, runs ? static_cast<double>(waited.count()) / static_cast<double>(runs) / 1e3 : 0, static_cast<double>(longest.count()) / 1e3, compactions);
    }
};

// A client of one core, with its half of the keys, which are of all cores: puts in batches, then gets. The answer: how many were right.
static unsigned long drive(uint16_t port, unsigned client) {
    connection to(must(socket(AF_INET, SOCK_STREAM, 0), "socket"));
    sockaddr_in address = loopback(port);
    must(connect(to.socket, reinterpret_cast<sockaddr *>(&address), sizeof address), "connect");
    unsigned long right = 0;
    std::string asked, wanted;
    auto exchange = [&] {
        to.say(asked);
        std::string got(wanted.size(), '\0');
        for (std::size_t at = 0; at < got.size();) {
            int count = must(recv(to.socket, &got[at], got.size() - at, 0), "receive");
            at += static_cast<std::size_t>(must(count == 0 ? -1 : count, "receive"));
        }
        right += got == wanted ? batch : 0;
        asked.clear();
        wanted.clear();
    };
    for (unsigned round = 0; round < rounds; round++) {
        for (unsigned kind = 0; kind < 2; kind++) {
            for (unsigned key = 0, count = 0; key < keys; key++) {
                if (key / 2 % cores != client) continue;
                std::string name = std::to_string(key), value = std::to_string(key * 7 + round);
                asked += kind == 0 ? "put " + name + " " + value + "\n" : "get " + name + "\n";
                wanted += kind == 0 ? "ok\n" : value + "\n";
                if (++count % batch == 0) exchange();
            }
        }
    }
    return right;
}

// Makes the queues of a core. Whether the core made them.
static bool make_queues(linked::outside<linked::job> &outside, uint32_t core) {
    auto shares = outside.set_shares(core, requests, 900), queue = outside.create(core, 100);
    return outside.wait_for(*shares.ticket).why == FX_ANSWER_SHARES_SET && outside.wait_for(*queue.ticket).queue == compaction;
}

int main() {
    house house({cores, 256});
    shard *all[cores];
    std::vector<std::unique_ptr<shard>> shards;
    std::vector<std::thread> servers, clients;
    unsigned long right[cores] = {}, sum = 0;
    for (uint32_t core = 0; core < cores; core++) {
        shards.push_back(std::make_unique<shard>(house.cores[core], all));
        all[core] = shards.back().get();
    }
    for (auto &each : shards) servers.emplace_back([&each] { each->serve(); });
    bool made = true;
    for (uint32_t core = 0; core < cores; core++) made = make_queues(house.outside, core) && made;
    for (unsigned client = 0; client < cores; client++) clients.emplace_back([&, client] { right[client] = drive(shards[client]->port(), client); });
    for (auto &each : clients) each.join();
    house.outside.close_all(fairexec::mode::finish);
    for (auto &each : servers) each.join();
    for (uint32_t core = 0; core < cores; core++) {
        shards[core]->tell();
        sum += right[core];
    }
    bool sound = house.end() == FX_OK && house.audit().sound;
    std::printf("%lu of %u answers were right, and the journals are %s\n", sum, 2 * rounds * keys, sound ? "sound" : "not sound");
    return made && sound && sum == 2 * rounds * keys ? 0 : 1;
}

// A key-value store on two cores. Each core has a thread, a part of the keys in a map without a lock, and an epoll of its own. Reads and
// writes have 900 shares of the core, and the compaction of its log has 100. A client on the same machine puts keys and gets them.
//
//   g++ -std=c++17 -O2 -Ihosts/c -Ihosts/cpp hosts/examples/store.cpp hosts/out/libfairexec.a -pthread
//
// The protocol has lines: `put KEY VALUE` is answered `ok`, and `get KEY` is answered the value, or `none`.
#include "fairexec.hpp"
#include <arpa/inet.h>
#include <atomic>
#include <cstdio>
#include <cstdlib>
#include <ctime>
#include <netinet/tcp.h>
#include <string>
#include <sys/epoll.h>
#include <sys/socket.h>
#include <thread>
#include <unistd.h>
#include <unordered_map>

using fairexec::step;

constexpr unsigned cores = 2, keys = 2000, rounds = 6, batch = 100;
constexpr uint32_t requests = 0;

// Jobs are charged for the processor's time, so a thread that the system set aside isn't charged for that.
struct thread_clock {
    using duration = std::chrono::nanoseconds;
    using rep = duration::rep;
    using period = duration::period;
    using time_point = std::chrono::time_point<thread_clock>;
    static constexpr bool is_steady = true;
    static time_point now() noexcept {
        timespec time{};
        clock_gettime(CLOCK_THREAD_CPUTIME_ID, &time);
        return time_point(std::chrono::seconds(time.tv_sec) + std::chrono::nanoseconds(time.tv_nsec));
    }
};
using wall = std::chrono::steady_clock;
using job = fairexec::any_job<thread_clock>;

static int must(int answer, const char *what) {
    if (answer < 0) {
        std::perror(what);
        std::exit(1);
    }
    return answer;
}

static sockaddr_in loopback(uint16_t port) {
    sockaddr_in address{};
    address.sin_family = AF_INET;
    address.sin_port = htons(port);
    address.sin_addr.s_addr = htonl(INADDR_LOOPBACK);
    return address;
}

// A socket, and what came in without its end of line.
struct connection {
    int socket;
    std::string begun;
    explicit connection(int socket) : socket(socket) {
        int on = 1;
        must(setsockopt(socket, IPPROTO_TCP, TCP_NODELAY, &on, sizeof on), "no delay");
    }
    connection(const connection &) = delete;
    ~connection() { close(socket); }
    void say(const std::string &text) const { must(static_cast<int>(send(socket, text.data(), text.size(), MSG_NOSIGNAL)), "send"); }
};

struct entry {
    std::string key, value;
};

// One core: its part of the store, and the jobs on it. One thread alone uses it.
class shard {
    fairexec::house<job, thread_clock> house{1024};
    uint32_t compaction = house.create(100);
    std::vector<entry> log, fresh;
    std::unordered_map<std::string, std::size_t> index, moved;
    std::size_t compacted = 0;
    bool is_compacting = false, is_idle = true;
    unsigned long compactions = 0, runs = 0;
    std::chrono::nanoseconds waited{}, longest{};
    std::unordered_map<int, std::shared_ptr<connection>> connections;
    int events = must(epoll_create1(0), "epoll"), listener = must(socket(AF_INET, SOCK_STREAM, 0), "socket");

    void watch(int socket) {
        epoll_event event{};
        event.events = EPOLLIN;
        event.data.fd = socket;
        must(epoll_ctl(events, EPOLL_CTL_ADD, socket, &event), "watch");
    }

    std::string answer(const std::string &line) {
        std::size_t blank = line.find(' ', 4);
        std::string key = line.substr(4, blank - 4);
        if (line.compare(0, 4, "put ") == 0) {
            index[key] = log.size();
            log.push_back({key, line.substr(blank + 1)});
            if (log.size() > 2 * index.size() && !is_compacting) {
                is_compacting = house.submit(compaction, job([this] { return compact(); })) == FX_OK;
            }
            return "ok\n";
        }
        auto found = index.find(key);
        return found == index.end() ? "none\n" : log[found->second].value + "\n";
    }

    // Each request is a job of one run.
    void take(const std::shared_ptr<connection> &from, std::string line) {
        job work([this, from, line = std::move(line), since = wall::now()] {
            auto wait = wall::now() - since;
            runs++;
            waited += wait;
            longest = std::max<std::chrono::nanoseconds>(longest, wait);
            from->say(answer(line));
            return step::done;
        });
        while (house.submit(requests, std::move(work)) == FX_FULL && house.run_turn().code != FX_IDLE) {}
    }

    // Drops overwritten entries from the log, some at each run.
    step compact() {
        for (unsigned each = 0; each < 16; each++) {
            if (compacted == log.size()) {
                log.swap(fresh);
                index.swap(moved);
                fresh.clear();
                moved.clear();
                compacted = 0;
                compactions++;
                is_compacting = false;
                return step::done;
            }
            const entry &next = log[compacted];
            if (index[next.key] == compacted++) {
                moved[next.key] = fresh.size();
                fresh.push_back(next);
            }
        }
        return step::yield;
    }

    void read(int socket) {
        auto from = connections.at(socket);
        char bytes[4096];
        ssize_t count = recv(socket, bytes, sizeof bytes, 0);
        if (count <= 0) {
            connections.erase(socket);
            return;
        }
        from->begun.append(bytes, static_cast<std::size_t>(count));
        std::size_t end;
        while ((end = from->begun.find('\n')) != std::string::npos) {
            take(from, from->begun.substr(0, end));
            from->begun.erase(0, end + 1);
        }
    }

public:
    shard() {
        house.set_shares(requests, 900);
        sockaddr_in address = loopback(0);
        must(bind(listener, reinterpret_cast<sockaddr *>(&address), sizeof address), "bind");
        must(listen(listener, 8), "listen");
        watch(listener);
    }
    shard(const shard &) = delete;
    ~shard() {
        close(listener);
        close(events);
    }

    uint16_t port() const {
        sockaddr_in address{};
        socklen_t size = sizeof address;
        must(getsockname(listener, reinterpret_cast<sockaddr *>(&address), &size), "name");
        return ntohs(address.sin_port);
    }

    // Sockets and jobs by turns. If no queue has work the thread waits for its sockets, and looks for `stop` each 10 ms.
    void serve(const std::atomic<bool> &stop) {
        while (!stop || !connections.empty()) {
            epoll_event ready[16];
            int count = epoll_wait(events, ready, 16, is_idle ? 10 : 0);
            for (int each = 0; each < count; each++) {
                if (ready[each].data.fd != listener) {
                    read(ready[each].data.fd);
                    continue;
                }
                int socket = must(accept(listener, nullptr, nullptr), "accept");
                connections.emplace(socket, std::make_shared<connection>(socket));
                watch(socket);
            }
            is_idle = false;
            for (int each = 0; each < 32 && !is_idle; each++) is_idle = house.run_turn().code == FX_IDLE;
        }
    }

    void tell(unsigned number) {
        double first = static_cast<double>(house.stats_of(requests).time_low), second = static_cast<double>(house.stats_of(compaction).time_low);
        std::printf("core %u: requests %.1f %% of the time, compaction %.1f %%; %lu requests waited %.1f us on average and %.1f us at most; %lu compactions\n", number, 100 * first / (first + second),
                    100 * second / (first + second), runs, runs ? static_cast<double>(waited.count()) / static_cast<double>(runs) / 1e3 : 0, static_cast<double>(longest.count()) / 1e3, compactions);
    }
};

// The keys of one core, by one connection: puts in batches, then gets. The answer: how many were right.
static unsigned long drive(uint16_t port, unsigned core) {
    connection to(must(socket(AF_INET, SOCK_STREAM, 0), "socket"));
    sockaddr_in address = loopback(port);
    must(connect(to.socket, reinterpret_cast<sockaddr *>(&address), sizeof address), "connect");
    unsigned long right = 0;
    std::string asked, wanted;
    auto exchange = [&] {
        to.say(asked);
        std::string got(wanted.size(), '\0');
        for (std::size_t at = 0; at < got.size();) at += static_cast<std::size_t>(must(static_cast<int>(recv(to.socket, &got[at], got.size() - at, 0)), "receive"));
        right += got == wanted ? batch : 0;
        asked.clear();
        wanted.clear();
    };
    for (unsigned round = 0; round < rounds; round++) {
        for (unsigned kind = 0; kind < 2; kind++) {
            for (unsigned key = 0, count = 0; key < keys; key++) {
                if (key % cores != core) continue;
                std::string name = std::to_string(key), value = std::to_string(key * 7 + round);
                asked += kind == 0 ? "put " + name + " " + value + "\n" : "get " + name + "\n";
                wanted += kind == 0 ? "ok\n" : value + "\n";
                if (++count % batch == 0) exchange();
            }
        }
    }
    return right;
}

int main() {
    shard shards[cores];
    std::atomic<bool> stop{false};
    std::vector<std::thread> servers, clients;
    unsigned long right[cores] = {};
    for (auto &each : shards) servers.emplace_back([&each, &stop] { each.serve(stop); });
    for (unsigned core = 0; core < cores; core++) clients.emplace_back([&, core] { right[core] = drive(shards[core].port(), core); });
    for (auto &each : clients) each.join();
    stop = true;
    for (auto &each : servers) each.join();
    unsigned long all = 0;
    for (unsigned core = 0; core < cores; core++) {
        shards[core].tell(core);
        all += right[core];
    }
    std::printf("%lu of %u answers were right\n", all, 2 * rounds * keys);
    return all == 2 * rounds * keys ? 0 : 1;
}

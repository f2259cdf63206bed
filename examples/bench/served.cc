// A client that calls `ping` of a server, or a name service, by plain sockets, and a bare exchange of the same bytes (the floor). GIOP
// 1.2, a thread a connection, TCP_NODELAY. To be run by hand, by `examples/bench/served` and `examples/bench/named`.
//   served floor CONNS COUNT ASKED ANSWERED         COUNT exchanges a connection of so many bytes, with a server of its own
//   served current PORT CONNS COUNT WINDOW PRIORITY [FLOOD]   COUNT calls of `current` a connection, at most WINDOW unanswered; FLOOD
//                                                   further connections call without pause at priority 0 until the others have ended
//   served echo PORT CONNS COUNT SIZE               COUNT calls of `echo` a connection with texts of SIZE bytes
//   served blocks PORT COUNT BLOCKS                 COUNT calls of `current` on one connection, told in so many parts
//   served kept PORT COUNT KEPT PRIORITY            first KEPT oneway calls of `slow` at priority 0, on connections of 60 each that are then
//                                                   closed, and then COUNT calls of `current` on one connection
//   served fill PORT KEYS [LEN TARGET]              binds so many keys, k0000 and so on, of LEN bytes to texts of TARGET bytes, by default
//                                                   5 and 200
//   served resolve PORT CONNS COUNT KEY             COUNT calls of `resolve` a connection
//   served bind PORT COUNT KEY                      binds and unbinds a key COUNT times, and tells the binds
//   served cosnaming PORT CONNS COUNT NAME          COUNT calls of CosNaming's `resolve` of a name of one component, with an empty kind
// Prints p50 and p99 of a call in microseconds, and calls a second.
#include <algorithm>
#include <arpa/inet.h>
#include <atomic>
#include <chrono>
#include <cstdint>
#include <cstdio>
#include <cstdlib>
#include <cstring>
#include <netinet/tcp.h>
#include <string>
#include <sys/socket.h>
#include <thread>
#include <unistd.h>
#include <vector>
using namespace std;

static double now() { return chrono::duration<double>(chrono::steady_clock::now().time_since_epoch()).count(); }

static void fail(const char *what) {
    perror(what);
    exit(1);
}

static void no_delay(int socket) {
    int one = 1;
    setsockopt(socket, IPPROTO_TCP, TCP_NODELAY, &one, sizeof one);
}

static sockaddr_in local(uint16_t port) {
    sockaddr_in at{};
    at.sin_family = AF_INET;
    at.sin_addr.s_addr = htonl(INADDR_LOOPBACK);
    at.sin_port = htons(port);
    return at;
}

static int connected(uint16_t port) {
    int socket = ::socket(AF_INET, SOCK_STREAM, 0);
    sockaddr_in at = local(port);
    if (connect(socket, (sockaddr *)&at, sizeof at)) fail("connect");
    no_delay(socket);
    return socket;
}

static void send_all(int socket, const string &bytes) {
    for (size_t sent = 0; sent < bytes.size();) {
        ssize_t n = send(socket, bytes.data() + sent, bytes.size() - sent, MSG_NOSIGNAL);
        if (n <= 0) fail("send");
        sent += n;
    }
}

static bool read_all(int socket, char *into, size_t size) {
    for (size_t had = 0; had < size;) {
        ssize_t n = recv(socket, into + had, size - had, 0);
        if (n <= 0) return false;
        had += n;
    }
    return true;
}

static void put_long(string &to, uint32_t n) {
    to.resize((to.size() + 3) / 4 * 4);
    to.append((const char *)&n, 4); // the host is little-endian, as the flags say
}

// A text after others, from a place on that is a multiple of 8.
static void put_text(string &to, const string &text) {
    put_long(to, text.size() + 1);
    to += text + '\0';
}

static string spelled(const vector<string> &texts) {
    string all;
    for (auto &text : texts) put_text(all, text);
    return all;
}

// A request of an object, with the service context of a priority, or without one below 0; to `slow` it is a oneway one.
static string request(uint32_t id, const string &operation, int priority, const string &arguments, const string &key) {
    string body;
    put_long(body, id);
    body += string(key == "slow" ? "\0\0\0\0\0\0\0\0" : "\3\0\0\0\0\0\0\0", 8);
    put_long(body, key.size());
    body += key;
    put_long(body, operation.size() + 1);
    body += operation + '\0';
    put_long(body, priority < 0 ? 0 : 1);
    if (priority >= 0) {
        put_long(body, 10);
        put_long(body, 4);
        body += string({1, 0, (char)(priority & 255), (char)(priority >> 8)});
    }
    if (!arguments.empty()) {
        body.resize((body.size() + 12 + 7) / 8 * 8 - 12);
        body += arguments;
    }
    string whole("GIOP\1\2\1\0", 8);
    put_long(whole, body.size());
    return whole + body;
}

// Reads one reply, which is to have no exception; gives its id.
static uint32_t reply(int socket, vector<char> &room) {
    char head[12];
    uint32_t size;
    if (!read_all(socket, head, 12)) fail("reply");
    memcpy(&size, head + 8, 4);
    if (room.size() < size) room.resize(size);
    if (head[7] != 1 || !read_all(socket, room.data(), size)) fail("not a reply");
    uint32_t numbers[2];
    memcpy(numbers, room.data(), 8);
    if (numbers[1]) fail("an exception");
    return numbers[0];
}

using Times = vector<double>;

static Times call(uint16_t port, int count, int window, const string &operation, int priority, const string &arguments = "", const atomic<bool> *stop = nullptr,
                  const string &key = "ping") {
    int socket = connected(port);
    vector<char> room;
    Times began(count), took;
    int sent = 0, had = 0;
    took.reserve(count);
    while (had < count && !(stop && *stop && had == sent)) {
        while (sent < count && sent - had < window && !(stop && *stop)) {
            string bytes = request(sent, operation, priority, arguments, key);
            began[sent++] = now();
            send_all(socket, bytes);
        }
        if (had == sent) break;
        uint32_t id = reply(socket, room);
        took.push_back(now() - began.at(id));
        had++;
    }
    close(socket);
    return took;
}

static void tell(const char *what, Times took, double seconds) {
    size_t calls = took.size();
    sort(took.begin(), took.end());
    if (calls) printf("%-10s p50 %7.1f us  p99 %8.1f us  %8.0f calls/s  %zu calls\n", what, took[calls / 2] * 1e6, took[calls * 99 / 100] * 1e6, calls / seconds, calls);
    fflush(stdout);
}

// Makes the same calls on several connections, and tells them.
template <class Call> static void on_each(const char *what, int conns, Call call) {
    vector<Times> took(conns);
    vector<thread> threads;
    double start = now();
    for (int i = 0; i < conns; i++) threads.emplace_back([&, i] { took[i] = call(); });
    for (auto &t : threads) t.join();
    double seconds = now() - start;
    Times all;
    for (auto &t : took) all.insert(all.end(), t.begin(), t.end());
    tell(what, all, seconds);
}

static void serve_floor(int listener, size_t asked, size_t answered, int conns) {
    vector<thread> threads;
    for (int i = 0; i < conns; i++)
        threads.emplace_back([=, socket = accept(listener, nullptr, nullptr)] {
            no_delay(socket);
            vector<char> in(asked);
            string out(answered, 'a');
            while (read_all(socket, in.data(), asked)) send_all(socket, out);
            close(socket);
        });
    for (auto &t : threads) t.join();
}

static void floor_of(int conns, int count, size_t asked, size_t answered) {
    int listener = socket(AF_INET, SOCK_STREAM, 0);
    sockaddr_in at = local(0);
    socklen_t len = sizeof at;
    if (::bind(listener, (sockaddr *)&at, sizeof at) || listen(listener, 64) || getsockname(listener, (sockaddr *)&at, &len)) fail("listen");
    if (fork() == 0) {
        serve_floor(listener, asked, answered, conns);
        _exit(0);
    }
    uint16_t port = ntohs(at.sin_port);
    on_each("floor", conns, [=] {
        int socket = connected(port);
        string out(asked, 'q');
        vector<char> in(answered);
        Times took;
        for (int i = 0; i < count; i++) {
            double start = now();
            send_all(socket, out);
            if (!read_all(socket, in.data(), answered)) fail("read");
            took.push_back(now() - start);
        }
        close(socket);
        return took;
    });
}

static void current(uint16_t port, int conns, int count, int window, int priority, int flood) {
    atomic<bool> stop{false};
    vector<thread> threads;
    atomic<size_t> flooded{0};
    for (int i = 0; i < flood; i++)
        threads.emplace_back([&] { flooded += call(port, 1 << 16, 1, "current", 0, "", &stop).size(); });
    if (flood) this_thread::sleep_for(chrono::milliseconds(100));
    on_each(flood ? "flooded" : "current", conns, [=] { return call(port, count, window, "current", priority); });
    stop = true;
    for (auto &t : threads) t.join();
    if (flood) printf("           %zu calls of the flood\n", flooded.load());
}

static void keep(uint16_t port, int kept) {
    for (int sent = 0; sent < kept;) {
        int socket = connected(port);
        string all;
        for (int i = 0; i < 60 && sent < kept; i++, sent++) all += request(i, "work", 0, "", "slow");
        send_all(socket, all);
        shutdown(socket, SHUT_WR);
        char end;
        while (recv(socket, &end, 1, 0) > 0) {}
        close(socket);
    }
}

static const string names = "NameService";

static void fill(uint16_t port, int keys, size_t length, size_t target) {
    int socket = connected(port);
    vector<char> room;
    for (int i = 0; i < keys; i++) {
        char key[16];
        snprintf(key, sizeof key, "k%04d", i);
        string text = key;
        text.resize(max(text.size(), length), 'k');
        send_all(socket, request(i, "bind", -1, spelled({text, string(target, 'i')}), names));
        reply(socket, room);
    }
    close(socket);
}

static void binds(uint16_t port, int count, const string &key) {
    int socket = connected(port);
    vector<char> room;
    Times took;
    for (int i = 0; i < count; i++) {
        double start = now();
        send_all(socket, request(2 * i, "bind", -1, spelled({key, string(200, 'i')}), names));
        reply(socket, room);
        took.push_back(now() - start);
        send_all(socket, request(2 * i + 1, "unbind", -1, spelled({key}), names));
        reply(socket, room);
    }
    close(socket);
    double seconds = 0;
    for (double one : took) seconds += one;
    tell("bind", took, seconds);
}

int main(int n, char **words) {
    auto number = [&](int i) { return i < n ? atoi(words[i]) : 0; };
    string what = n > 1 ? words[1] : "";
    if (what == "floor") floor_of(number(2), number(3), number(4), number(5));
    else if (what == "current") current(number(2), number(3), number(4), number(5), number(6), number(7));
    else if (what == "echo") {
        string text = spelled({string(number(5), 'e')});
        on_each("echo", number(3), [&] { return call(number(2), number(4), 1, "echo", -1, text); });
    } else if (what == "kept") {
        keep(number(2), number(4));
        current(number(2), 1, number(3), 1, number(5), 0);
    } else if (what == "fill") fill(number(2), number(3), n > 4 ? number(4) : 5, n > 5 ? number(5) : 200);
    else if (what == "bind") binds(number(2), number(3), words[4]);
    else if (what == "resolve") {
        string key = spelled({words[5]});
        on_each("resolve", number(3), [&] { return call(number(2), number(4), 1, "resolve", -1, key, nullptr, names); });
    } else if (what == "cosnaming") {
        string name;
        put_long(name, 1);
        put_text(name, words[5]);
        put_text(name, "");
        on_each("cosnaming", number(3), [&] { return call(number(2), number(4), 1, "resolve", -1, name, nullptr, names); });
    } else if (what == "blocks") {
        double start = now();
        Times took = call(number(2), number(3), 1, "current", -1);
        double seconds = now() - start;
        int blocks = max(1, number(4));
        size_t each = took.size() / blocks;
        for (int i = 0; i < blocks; i++) tell("block", Times(took.begin() + i * each, took.begin() + (i + 1) * each), seconds / blocks);
    } else {
        fprintf(stderr, "see the head of served.cc\n");
        return 1;
    }
}

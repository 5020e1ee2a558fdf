// lamp serve PORT: a CoAP server of coap://127.0.0.1:PORT/lamp, which a client switches by a PUT of "on" or "off".
// lamp switch PORT on|off: that client. Its status is 0 where the lamp was switched, 1 where it was not, and 3 where
// nobody knows.
#include "knifesilver.hpp"
#include <algorithm>
#include <arpa/inet.h>
#include <cstdio>
#include <cstdlib>
#include <cstring>
#include <poll.h>
#include <sys/socket.h>
#include <unistd.h>

using namespace knifesilver;

static Moment now() {
    return std::chrono::duration_cast<Moment>(std::chrono::steady_clock::now().time_since_epoch());
}

// A UDP socket of 127.0.0.1.
class Socket {
public:
    explicit Socket(std::uint16_t port) : udp_(socket(AF_INET, SOCK_DGRAM, 0)) {
        const sockaddr_in at = of({{127, 0, 0, 1}, port});
        if (udp_ < 0 || bind(udp_, reinterpret_cast<const sockaddr *>(&at), sizeof at) < 0)
            std::perror("bind"), std::exit(2);
    }
    Socket(const Socket &) = delete;
    Socket &operator=(const Socket &) = delete;
    ~Socket() { close(udp_); }

    // What the socket does not take is lost, and sent again if it is to be.
    void send(const Outgoing &out) const {
        const sockaddr_in to = of(out.to);
        (void)!sendto(udp_, out.bytes.data(), out.bytes.size(), 0, reinterpret_cast<const sockaddr *>(&to),
                      sizeof to);
    }

    // Waits for a datagram, at most until that moment, and feeds it to the end.
    template <class End> void feed(End &end) {
        const auto due = end.due();
        const auto wait = due ? std::clamp(*due - now(), Moment(0), Moment(60000)) : Moment(-1);
        pollfd on{udp_, POLLIN, 0};
        sockaddr_in from{};
        socklen_t from_len = sizeof from;
        if (poll(&on, 1, int(wait.count())) <= 0) return;
        const auto len =
            recvfrom(udp_, room_.data(), room_.size(), MSG_DONTWAIT, reinterpret_cast<sockaddr *>(&from), &from_len);
        if (len < 0) return;
        Address peer{{}, ntohs(from.sin_port)};
        std::memcpy(peer.ip, &from.sin_addr, sizeof peer.ip);
        end.feed(now(), peer, {room_.data(), std::size_t(len)});
    }

private:
    static sockaddr_in of(const Address &address) {
        sockaddr_in it{};
        it.sin_family = AF_INET, it.sin_port = htons(address.port);
        std::memcpy(&it.sin_addr, address.ip, sizeof address.ip);
        return it;
    }

    int udp_;
    std::vector<std::uint8_t> room_ = std::vector<std::uint8_t>(65536);
};

static int serve(std::uint16_t port) {
    Socket socket(port);
    knifesilver::Config config = {};
    config.base = ks_base(knifesilver::random_word());
    Server server(config);
    server.set(now(), "lamp", "off", 0);
    for (;;) {
        server.tick(now());
        while (auto applied = server.next_applied()) {
            const auto lamp = server.get("lamp");
            if (applied->path == "/lamp" && applied->method == KS_PUT && lamp) {
                std::printf("switched %s\n", std::string(Bytes(lamp->body).text()).c_str());
                std::fflush(stdout);
            }
        }
        while (auto out = server.next_out()) socket.send(*out);
        socket.feed(server);
    }
}

static int switch_it(std::uint16_t port, const char *state) {
    Socket socket(0);
    Client client({{127, 0, 0, 1}, port});
    client.call(now(), Request::put("lamp", state, 0));
    for (;;) {
        client.tick(now());
        while (auto out = client.next_out()) socket.send(*out);
        if (const auto report = client.next_report()) {
            if (report->succeeded()) return std::puts("the lamp was switched once"), 0;
            if (report->failed()) return std::printf("not switched: %s\n", report->code.text().c_str()), 1;
            return std::printf("perhaps switched: report %d\n", int(report->kind)), 3;
        }
        socket.feed(client);
    }
}

int main(int argc, char **argv) {
    const std::string_view what = argc > 1 ? argv[1] : "";
    if (what == "serve" && argc == 3) return serve(std::uint16_t(std::atoi(argv[2])));
    if (what == "switch" && argc == 4) return switch_it(std::uint16_t(std::atoi(argv[2])), argv[3]);
    return std::fprintf(stderr, "lamp serve PORT | lamp switch PORT on|off\n"), 2;
}

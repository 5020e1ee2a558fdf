// Tries knifesilver.hpp: each call of both ends and of names, in one process and over no socket, what is refused, and
// moves.
#include "knifesilver.hpp"
#include "knifesilver_easy.h"
#include <cstdio>
#include <cstdlib>
#include <type_traits>
#if __has_include(<span>) && __cplusplus >= 202002L
#include <span>
#endif

using namespace knifesilver;

static_assert(!std::is_copy_constructible_v<Server> && !std::is_copy_constructible_v<Client>);
static_assert(!std::is_copy_assignable_v<Server> && !std::is_copy_assignable_v<Client>);
static_assert(!std::is_copy_constructible_v<Names> && std::is_move_assignable_v<Names>);
static_assert(std::is_move_constructible_v<Server> && std::is_move_assignable_v<Client>);
static_assert(code(4, 4).number == KS_CODE(4, 04));

#define WANT(holds)                                                                                                  \
    do {                                                                                                             \
        if (!(holds)) std::printf("%s:%d: not %s\n", __FILE__, __LINE__, #holds), std::exit(1);                      \
    } while (0)

static const Address here{{127, 0, 0, 1}, 40001}, there{{127, 0, 0, 1}, 5683};

static std::uint64_t word() {
    static std::uint64_t s = 88172645463325252u;
    s ^= s << 13, s ^= s >> 7, s ^= s << 17;
    return s;
}

// Both ends, and a network that carries what is out; what the server is told to have applied.
struct Pair {
    Server server;
    Client client;
    Moment now{0};
    std::vector<Applied> applied{};

    explicit Pair(const Config &config = {}) : server(config, word), client(there, config, word) {}

    void turn() {
        for (bool more = true; more;) {
            more = false;
            client.tick(now), server.tick(now);
            while (auto out = client.next_out()) {
                WANT(out->to.port == there.port);
                server.feed(now, here, out->bytes), more = true;
            }
            while (auto out = server.next_out()) {
                WANT(out->to.port == here.port);
                client.feed(now, there, out->bytes), more = true;
            }
        }
        while (auto it = server.next_applied()) applied.push_back(*it);
    }

    Report await() {
        for (int i = 0; i < 100000; i++, now += Moment(50)) {
            turn();
            if (auto report = client.next_report()) return *report;
        }
        std::puts("no report"), std::exit(1);
    }

    Report ask(const Request &request) {
        const auto id = client.call(now, request);
        Report report = await();
        WANT(report.id == id);
        return report;
    }
};

// The answer of the refusal that this throws; 0 where it throws none.
template <class Call> static std::int32_t refused(Call call) {
    try {
        call();
    } catch (const Refused &why) {
        return why.answer();
    }
    return KS_OK;
}

static void of_requests() {
    Pair it;
    WANT(it.server.set(it.now, "temperature", "22.3 C", 0) == 1);
    WANT(it.server.update(it.now, "temperature", "22.3 C", 0) == std::make_pair(std::uint64_t(1), false));
    WANT(it.server.update(it.now, "temperature", "22.4 C", 0) == std::make_pair(std::uint64_t(2), true));
    Report got = it.ask(Request::get("temperature"));
    WANT(got.kind == KS_BODY && got.succeeded() && got.text() == "22.4 C" && got.format == Format(0)
         && got.tag->size() == 8);
    Request known = Request::get("temperature");
    known.etags = {*got.tag};
    WANT(it.ask(known).kind == KS_VALID);
    Report put = it.ask(Request::put("lamp", std::string("on")));
    WANT(put.kind == KS_SUCCESS && put.code == code(2, 1) && put.code.text() == "2.01");
    WANT(it.applied.size() == 1 && it.applied[0].path == "/lamp" && it.applied[0].method == KS_PUT);
    WANT(it.applied[0].version == 3 && it.applied[0].from.port == here.port && it.applied[0].token.size() <= 8);
    WANT(it.applied[0].held && Bytes(it.applied[0].held->body).text() == "on" && it.applied[0].held->version == 3);
    Request twice = Request::put("lamp", "off");
    twice.if_none_match = true;
    Report late = it.ask(twice);
    WANT(late.failed() && late.code == code(4, 12) && !late.succeeded());
    WANT(it.ask(Request::post("lamp", "!")).code == code(2, 4));
    WANT(Bytes(it.server.get("lamp")->body).text() == "on!" && !it.server.get("lamp")->format);
    WANT(it.ask(Request::del("lamp")).code == code(2, 2) && !it.server.get("lamp"));
    WANT(it.server.paths() == std::vector<std::string>{"/temperature"});
    WANT(it.server.remove(it.now, "temperature") && !it.server.remove(it.now, "temperature"));
    WANT(it.server.paths().empty());
    WANT(it.ask(Request::get("lamp")).code == code(4, 4));
    const std::vector<std::uint8_t> big(30000, 7);
    WANT(it.ask(Request::put("big", big)).code == code(2, 1) && it.server.get("big")->body == big);
    WANT(it.ask(Request::get("big")).body == big);
}

static void of_observations() {
    Pair it;
    it.server.set(it.now, "temperature", "1");
    const auto id = it.client.observe(it.now, "temperature");
    WANT(it.await().text() == "1");
    it.server.set(it.now, "temperature", "2");
    const Report second = it.await();
    WANT(second.id == id && second.kind == KS_VALUE && second.text() == "2");
    it.client.cancel(it.now, id);
    WANT(it.await().kind == KS_CANCELLED && !it.client.forget(id));
    const auto other = it.client.observe(it.now, "temperature");
    WANT(!it.server.forget(there));
    WANT(it.await().id == other && it.client.forget(other));
    // The server still has the observation: that goes with its peer.
    WANT(it.server.forget(here) && !it.server.forget(here));
    it.server.set(it.now, "temperature", "3"), it.server.tick(it.now);
    WANT(!it.server.next_out());
}

static void of_refusals() {
    Pair it;
    const std::string deep(40, '/'), large(70000, 'x');
    WANT(refused([&] { it.server.set(it.now, deep, ""); }) == KS_BAD_PATH);
    WANT(refused([&] { it.server.set(it.now, "a", large); }) == KS_SET_TOO_LARGE);
    for (int i = 0; i < 16; i++)
        it.server.set_delay(std::to_string(i), Moment(5)), it.server.set_plain(std::to_string(i));
    WANT(refused([&] { it.server.set_delay("another", Moment(5)); }) == KS_DELAY_FULL);
    WANT(refused([&] { it.server.set_plain("another"); }) == KS_PLAIN_FULL);
    for (int i = 0; i < 8; i++) it.client.call(it.now, Request::get("a"));
    WANT(refused([&] { it.client.call(it.now, Request::get("a")); }) == KS_CALL_QUEUE_FULL);
    WANT(refused([&] { it.client.cancel(it.now, 77); }) == KS_CANCEL_UNKNOWN);
    const std::vector<std::uint8_t> ping{0x40, 0, 0, 9};
    WANT(refused([&] { it.server.refuse_by(it.now, Address{{127, 0, 0, 1}, 9}, ping, 0x45); }) == KS_BAD_ARGUMENT);
    WANT(!it.server.refuse_by(it.now, Address{{127, 0, 0, 1}, 9}, ping, 0x83));
    Request tagged = Request::get("a");
    tagged.etags = {Tag(9, 1)};
    WANT(refused([&] { it.client.call(it.now, tagged); }) == KS_BAD_ARGUMENT);
    tagged.etags = {Tag()};
    WANT(refused([&] { it.client.call(it.now, tagged); }) == KS_BAD_ARGUMENT);
    Config wrong{};
    wrong.block_size = 17;
    WANT(refused([&] { Server(wrong, word); }) == KS_BAD_BLOCK_SIZE);
    try {
        Client(there, wrong, word);
        WANT(false);
    } catch (const Refused &why) {
        WANT(std::string(why.what()).find("ks_client_new") == 0);
    }
}

static void of_moves() {
    Server one({}, word);
    one.set(Moment(0), "a", "b");
    Server two = std::move(one);
    WANT(two.get("a")->version == 1);
    WANT(refused([&] { one.set(Moment(0), "a", "b"); }) == KS_NOT_LIVE);
    one = Server();
    WANT(!one.get("a"));
    one = std::move(two);
    WANT(one.get("a")->version == 1 && one.due() == std::nullopt);
    Server &same = one;
    one = std::move(same);
    WANT(one.get("a")->version == 1);
    std::vector<Client> many;
    for (int i = 0; i < 20; i++) many.emplace_back(there, Config{}, word);
    WANT(many[0].call(Moment(0), Request::get("a")) == many[19].call(Moment(0), Request::get("a")));
    WANT(many[0].due().has_value());
}

static bool is_same(const Address &a, const Address &b) {
    return a.ip[0] == b.ip[0] && a.ip[1] == b.ip[1] && a.ip[2] == b.ip[2] && a.ip[3] == b.ip[3] && a.port == b.port;
}

static void of_names() {
    Names names(2, true, word);
    const Address one = names.fed(Moment(0), "one").value(), two = names.fed(Moment(0), "two").value();
    WANT(one.ip[0] == 0 && two.ip[0] == 0 && !is_same(one, two) && is_same(one, *names.fed(Moment(0), "one")));
    WANT(Bytes(names.key(one).value()).text() == "one" && Bytes(names.sent(Moment(0), two).value()).text() == "two");
    WANT(is_same(names.of("two").value(), two) && !names.of("three") && !names.key(here) && names.size() == 2);
    WANT(!names.fed(Moment(247000), "three") && names.hold(one) && names.hold(one) && !names.hold(here));
    const Address three = names.fed(Moment(247001), "three").value();
    WANT(!names.key(two) && !names.sent(Moment(247001), two) && names.key(one) && !is_same(three, two));
    WANT(names.release(Moment(247001), one) && !names.release(Moment(247001), one));
    WANT(names.retire(one) && !names.retire(one) && names.size() == 1);
    const Address again = names.fed(Moment(247001), "one").value();
    WANT(!is_same(again, one) && !is_same(again, two) && !is_same(again, three));
    const std::string longest(KS_KEY_ROOM, 'k'), longer(KS_KEY_ROOM + 1, 'k');
    WANT(names.retire(again) && names.key(names.fed(Moment(247001), longest).value())->size() == longest.size());
    WANT(refused([&] { names.fed(Moment(0), longer); }) == KS_BAD_ARGUMENT);
    WANT(refused([&] { names.of(""); }) == KS_BAD_ARGUMENT);
    WANT(refused([&] { Names(0, true, word); }) == KS_BAD_ARGUMENT);
    Names moved = std::move(names);
    WANT(moved.size() == 2 && refused([&] { names.size(); }) == KS_NOT_LIVE);
    names = Names(1, false, word);
    WANT(names.fed(Moment(0), "one")->port == 1 && names.size() == 1);
}

// A client of a server that has no IPv4 address: each end has a table, by which a datagram finds its peer.
static void of_named_peers() {
    Names of_server(4, true, word), of_client(4, true, word);
    const Address name = of_client.fed(Moment(0), "server").value();
    Server server({}, word);
    Client client(name, {}, word);
    WANT(of_client.hold(name));
    server.set(Moment(0), "temperature", "22.3 C");
    client.call(Moment(0), Request::get("temperature"));
    client.tick(Moment(0));
    while (auto out = client.next_out()) {
        WANT(Bytes(of_client.sent(Moment(0), out->to).value()).text() == "server");
        server.feed(Moment(0), of_server.fed(Moment(0), "client").value(), out->bytes);
    }
    while (auto out = server.next_out()) {
        WANT(Bytes(of_server.sent(Moment(0), out->to).value()).text() == "client");
        client.feed(Moment(0), of_client.fed(Moment(0), "server").value(), out->bytes);
    }
    WANT(client.next_report()->text() == "22.3 C");
}

#ifdef __cpp_lib_span
static void of_spans() {
    const std::uint8_t bytes[] = {'h', 'i'};
    Server server({}, word);
    server.set(Moment(0), "a", std::span(bytes));
    WANT(Bytes(server.get("a")->body).text() == "hi"
         && server.get("a")->body.size() == std::span(Bytes("hi")).size());
}
#else
static void of_spans() {}
#endif

int main() {
    of_requests();
    of_observations();
    of_refusals();
    of_moves();
    of_names();
    of_named_peers();
    of_spans();
    std::puts("knifesilver.hpp: passed");
}

// knifesilver.hpp: a client and a server of CoAP, and names for peers, for C++17, over knifesilver.h, whose comments
// say what each call does.
//
// An end is a value that can be moved and not copied. It has no input and no output: hand it what arrived by `feed`,
// do what is due by `tick`, and after each call take what is out by `next_out`, and by `next_applied` of a server or
// `next_report` of a client. Then wait for a datagram, at most until `due`. One call of an end at a time.
//
// A call that is refused throws `Refused`, and nothing came of it; where an allocation was refused, std::bad_alloc.
#ifndef KNIFESILVER_HPP
#define KNIFESILVER_HPP

#include "knifesilver.h"
#include <array>
#include <chrono>
#include <cstddef>
#include <cstdint>
#include <deque>
#include <functional>
#include <new>
#include <optional>
#include <random>
#include <stdexcept>
#include <string>
#include <string_view>
#include <utility>
#include <vector>
#if __cplusplus >= 202002L && __has_include(<span>)
#include <span>
#endif

namespace knifesilver {

// Milliseconds since a moment that you chose once, the same one for all calls of an end.
using Moment = std::chrono::milliseconds;
using Address = ks_address;
using Config = ks_config;

// Bytes that somebody else holds: std::span of C++20, for C++17.
class Bytes {
public:
    constexpr Bytes() noexcept = default;
    constexpr Bytes(const void *data, std::size_t size) noexcept : data_(data), size_(size) {}
    constexpr Bytes(std::string_view text) noexcept : data_(text.data()), size_(text.size()) {}
    Bytes(const char *text) : Bytes(std::string_view(text)) {}
    Bytes(const std::string &text) noexcept : data_(text.data()), size_(text.size()) {}
    Bytes(const std::vector<std::uint8_t> &bytes) noexcept : data_(bytes.data()), size_(bytes.size()) {}

#ifdef __cpp_lib_span
    template <std::size_t N> constexpr Bytes(std::span<const std::uint8_t, N> bytes) noexcept
        : data_(bytes.data()), size_(bytes.size()) {}
    operator std::span<const std::uint8_t>() const noexcept { return {begin(), size_}; }
#endif

    // Never NULL, also where there are none.
    const void *data() const noexcept { return data_ != nullptr ? data_ : ""; }
    std::size_t size() const noexcept { return size_; }
    std::string_view text() const noexcept { return {static_cast<const char *>(data()), size_}; }
    const std::uint8_t *begin() const noexcept { return static_cast<const std::uint8_t *>(data()); }
    const std::uint8_t *end() const noexcept { return begin() + size_; }

private:
    const void *data_ = nullptr;
    std::size_t size_ = 0;
};

// A call was not carried out: the end is as it was. `answer` is one of the numbers of knifesilver.h.
class Refused : public std::runtime_error {
public:
    Refused(const char *call, std::int32_t answer)
        : std::runtime_error(std::string(call) + ": " + text(answer)), answer_(answer) {}

    std::int32_t answer() const noexcept { return answer_; }

private:
#if KS_VERSION >= 200
    static std::string text(std::int32_t answer) { return ks_answer_text(answer); }
#else
    static std::string text(std::int32_t answer) { return "refused by " + std::to_string(answer); }
#endif

    std::int32_t answer_;
};

// The library is of another version than the header.
class WrongVersion : public std::runtime_error {
public:
    explicit WrongVersion(std::uint32_t library)
        : std::runtime_error("libknifesilver is version " + spelled(library) + ", and knifesilver.h "
                             + spelled(KS_VERSION)) {}

private:
    static std::string spelled(std::uint32_t version) {
        return std::to_string(version / 10000) + "." + std::to_string(version / 100 % 100) + "."
               + std::to_string(version % 100);
    }
};

// A code of a message: class and detail, 2 and 5 of 2.05.
struct Code {
    std::uint8_t number = 0;

    constexpr unsigned kind() const noexcept { return number >> 5; }
    constexpr unsigned detail() const noexcept { return number & 31u; }
    std::string text() const {
        return {char('0' + kind()), '.', char('0' + detail() / 10), char('0' + detail() % 10)};
    }
};

constexpr Code code(unsigned kind, unsigned detail) noexcept { return {std::uint8_t(kind << 5 | (detail & 31u))}; }
constexpr bool operator==(Code a, Code b) noexcept { return a.number == b.number; }
constexpr bool operator!=(Code a, Code b) noexcept { return a.number != b.number; }

// An entity-tag of 1 to 8 bytes.
using Tag = std::vector<std::uint8_t>;

// A Content-Format, if one is told (RFC 7252, section 12.3).
using Format = std::optional<std::uint16_t>;

// A datagram that is to be sent, at once or never. Its bytes are the end's, until its next call of `next_out`.
struct Outgoing {
    Address to;
    Bytes bytes;
};

// What a path holds.
struct Representation {
    std::uint64_t version = 0;
    Format format;
    std::vector<std::uint8_t> body;
};

// A request of a client that was applied. Its version is 0 where it changed nothing.
struct Applied {
    std::uint64_t version = 0;
    Address from{};
    ks_method method = KS_POST;
    std::vector<std::uint8_t> token;
    std::string path;
    // What the path held as soon as the request was applied; none where it held nothing, as after a DELETE.
    std::optional<Representation> held;
};

// What a client asks for. The views are used up by the call.
struct Request {
    ks_method method = KS_GET;
    std::string_view path;
    Bytes body{};
    Format format{};
    Format accept{};
    std::vector<Tag> etags{};
    std::vector<Tag> if_match{};
    bool if_none_match = false;

    static Request get(std::string_view path) { return of(KS_GET, path); }
    static Request put(std::string_view path, Bytes body, Format format = {}) {
        return of(KS_PUT, path, body, format);
    }
    static Request post(std::string_view path, Bytes body, Format format = {}) {
        return of(KS_POST, path, body, format);
    }
    static Request del(std::string_view path) { return of(KS_DELETE, path); }

private:
    static Request of(ks_method method, std::string_view path, Bytes body = {}, Format format = {}) {
        Request it;
        it.method = method, it.path = path, it.body = body, it.format = format;
        return it;
    }
};

// What became of a call or an observation. Each but KS_VALUE is the last report of its number.
struct Report {
    std::uint64_t id = 0;
    ks_report_kind kind = KS_BODY;
    Code code;
    std::uint32_t sequence = 0;
    Format format;
    std::optional<Tag> tag;
    std::vector<std::uint8_t> body;

    // Applied once; the answer to a GET is in `body`.
    bool succeeded() const noexcept { return kind == KS_BODY || kind == KS_VALID || kind == KS_SUCCESS; }
    // Not applied, and it never will be.
    bool failed() const noexcept { return kind == KS_FAILED; }
    std::string_view text() const noexcept { return Bytes(body).text(); }
};

// Where random words come from: 64 bits at each call.
using Words = std::function<std::uint64_t()>;

inline std::uint64_t random_word() {
    thread_local std::random_device device;
    return std::uint64_t(device()) << 32 | std::uint32_t(device());
}

namespace detail {

inline Format format_of(std::int32_t number) noexcept {
    return number < 0 ? Format() : Format(static_cast<std::uint16_t>(number));
}

inline std::int32_t number_of(Format format) noexcept { return format ? std::int32_t(*format) : KS_NO_FORMAT; }

inline std::uint64_t ms(Moment now) noexcept { return now.count() < 0 ? 0 : std::uint64_t(now.count()); }

// KS_OK or KS_DONE.
inline bool done(const char *call, std::int32_t answer) {
    if (answer == KS_OK || answer == KS_DONE) return answer == KS_DONE;
    if (answer == KS_NO_MEMORY) throw std::bad_alloc();
    throw Refused(call, answer);
}

// KS_OK, of a call that doesn't answer KS_DONE.
inline void ok(const char *call, std::int32_t answer) {
    if (answer == KS_OK) return;
    if (answer == KS_NO_MEMORY) throw std::bad_alloc();
    throw Refused(call, answer);
}

inline Config sized(Config config) noexcept {
    config.size = sizeof config;
    return config;
}

inline ks_seed seed(const Words &words) {
    if (ks_version() != KS_VERSION) throw WrongVersion(ks_version());
    const std::uint64_t word = words(), key0 = words(), key1 = words();
    return {word, key0, key1};
}

// The raw handle, freed when it goes. A raw handle may be moved while no call runs; what is left is empty.
template <class Raw, void (*release)(Raw *)> class Handle {
public:
    Handle() noexcept = default;
    Handle(Handle &&other) noexcept : raw_(std::exchange(other.raw_, Raw{})) {}
    Handle &operator=(Handle &&other) noexcept {
        if (this != &other) {
            release(&raw_);
            raw_ = std::exchange(other.raw_, Raw{});
        }
        return *this;
    }
    ~Handle() { release(&raw_); }
    Raw *get() const noexcept { return &raw_; }

private:
    mutable Raw raw_{};
};

inline std::vector<ks_tag> raw_tags(const std::vector<Tag> &tags) {
    std::vector<ks_tag> raw(tags.size());
    for (std::size_t i = 0; i < tags.size(); i++) {
        raw[i].len = std::uint8_t(tags[i].size() < 255 ? tags[i].size() : 255);
        for (std::size_t k = 0; k < tags[i].size() && k < sizeof raw[i].bytes; k++) raw[i].bytes[k] = tags[i][k];
    }
    return raw;
}

} // namespace detail

// A server: paths that hold representations, which whoever reaches its port may get, put, post to and delete.
class Server {
public:
    // A server that holds nothing; a field of the configuration that is 0 is the usual.
    explicit Server(const Config &config = {}, Words words = random_word)
        : words_(std::move(words)), room_(KS_DATAGRAM_ROOM), path_(KS_PATH_ROOM) {
        const Config sized = detail::sized(config);
        const ks_seed seed = detail::seed(words_);
        detail::ok("ks_server_new", ks_server_new(raw_.get(), &sized, &seed));
    }

    // Has the path hold the body, also where it is the same. Its version.
    std::uint64_t set(Moment now, std::string_view path, Bytes body, Format format = {}) {
        std::uint64_t version = 0;
        const Bytes text(path);
        detail::ok("ks_server_set", ks_server_set(raw_.get(), detail::ms(now), chars(text), text.size(),
                                                  detail::number_of(format), body.data(), body.size(), &version));
        return version;
    }

    // The same, but nothing changes where it is the same: the version, and whether it was set.
    std::pair<std::uint64_t, bool> update(Moment now, std::string_view path, Bytes body, Format format = {}) {
        std::uint64_t version = 0;
        const Bytes text(path);
        const bool set = detail::done("ks_server_update", ks_server_update(raw_.get(), detail::ms(now), chars(text),
                                                                           text.size(), detail::number_of(format),
                                                                           body.data(), body.size(), &version));
        return {version, set};
    }

    // Takes away what the path holds; whether it held something.
    bool remove(Moment now, std::string_view path) {
        const Bytes text(path);
        return detail::done("ks_server_remove",
                            ks_server_remove(raw_.get(), detail::ms(now), chars(text), text.size()));
    }

    std::optional<Representation> get(std::string_view path) const {
        ks_representation shown{};
        const Bytes text(path);
        Representation held;
        held.body.resize(1);
        std::int32_t answer = 0;
        while (
            (answer = ks_server_get(raw_.get(), chars(text), text.size(), &shown, held.body.data(), held.body.size()))
            == KS_SMALL_ROOM)
            held.body.resize(shown.body_len);
        if (!detail::done("ks_server_get", answer)) return std::nullopt;
        held.body.resize(shown.body_len);
        held.version = shown.version;
        held.format = detail::format_of(shown.format);
        return held;
    }

    // The paths that hold something, as texts, in an order of the server's own.
    std::vector<std::string> paths() {
        std::vector<std::string> all;
        ks_representation shown{};
        std::size_t len = 0;
        while (detail::done("ks_server_paths",
                            ks_server_paths(raw_.get(), all.size(), &shown, path_.data(), path_.size(), &len)))
            all.emplace_back(path_.data(), len);
        return all;
    }

    // Before the first feed, tick, set and remove.
    void set_delay(std::string_view path, Moment delay) {
        const Bytes text(path);
        detail::ok("ks_server_set_delay",
                   ks_server_set_delay(raw_.get(), chars(text), text.size(), detail::ms(delay)));
    }

    // Before the first feed, tick, set and remove.
    void set_plain(std::string_view path) {
        const Bytes text(path);
        detail::ok("ks_server_set_plain", ks_server_set_plain(raw_.get(), chars(text), text.size()));
    }

    void feed(Moment now, const Address &from, Bytes datagram) {
        detail::ok("ks_server_feed",
                   ks_server_feed(raw_.get(), detail::ms(now), &from, datagram.data(), datagram.size(), words_()));
        keep_applied();
    }

#if KS_VERSION >= 200
    // In the place of a feed, of what that sender may not ask: a request is answered by 4.05, and nothing is applied.
    void refuse(Moment now, const Address &from, Bytes datagram) {
        detail::ok("ks_server_refuse",
                   ks_server_refuse(raw_.get(), detail::ms(now), &from, datagram.data(), datagram.size(), words_()));
        keep_applied();
    }

    // The same with another code of class 4 or 5, as 0x83; whether there was a request that is new.
    bool refuse_by(Moment now, const Address &from, Bytes datagram, std::uint8_t code) {
        const bool was = detail::done("ks_server_refuse_by",
                                      ks_server_refuse_by(raw_.get(), detail::ms(now), &from, datagram.data(),
                                                          datagram.size(), words_(), code));
        keep_applied();
        return was;
    }

    // Forgets a peer from which nothing comes any more, but for what tells repeats; whether there was anything of it. Take
    // what is out first: that stays.
    bool forget(const Address &peer) {
        return detail::done("ks_server_forget", ks_server_forget(raw_.get(), &peer));
    }
#endif

    // Does all that is due.
    void tick(Moment now) {
        while (detail::done("ks_server_tick", ks_server_tick(raw_.get(), detail::ms(now), words_()))) keep_applied();
    }

    std::optional<Moment> due() const {
        std::uint64_t at = 0;
        if (!detail::done("ks_server_due", ks_server_due(raw_.get(), &at))) return std::nullopt;
        return Moment(static_cast<Moment::rep>(at));
    }

    std::optional<Outgoing> next_out() {
        Address to{};
        std::size_t len = 0;
        const auto answer = ks_server_next_out(raw_.get(), &to, room_.data(), room_.size(), &len);
        if (!detail::done("ks_server_next_out", answer)) return std::nullopt;
        return Outgoing{to, {room_.data(), len}};
    }

    // What clients had this server do, each once, in order; it waits here until it is taken.
    std::optional<Applied> next_applied() {
        if (applied_.empty()) return std::nullopt;
        Applied first = std::move(applied_.front());
        applied_.pop_front();
        return first;
    }

private:
    static const char *chars(const Bytes &text) noexcept { return static_cast<const char *>(text.data()); }

    void keep_applied() {
        ks_applied it{};
        if (!detail::done("ks_server_applied", ks_server_applied(raw_.get(), &it, path_.data(), path_.size())))
            return;
        std::string path(path_.data(), it.path_len);
        std::optional<Representation> held = get(path);
        // (the path of one empty segment is told as "/", which is read as the root)
        if (held && held->version != it.version) held.reset();
        applied_.push_back({it.version,
                            it.from,
                            static_cast<ks_method>(it.method),
                            {it.token, it.token + it.token_len},
                            std::move(path),
                            std::move(held)});
    }

    detail::Handle<ks_server, ks_server_free> raw_;
    Words words_;
    std::vector<std::uint8_t> room_;
    std::vector<char> path_;
    std::deque<Applied> applied_;
};

// A client of one server. One call runs at a time and 8 wait; 16 observations may be live. A call starts in a tick.
class Client {
public:
    explicit Client(const Address &server, const Config &config = {}, Words words = random_word)
        : words_(std::move(words)), room_(KS_DATAGRAM_ROOM), body_(KS_DATAGRAM_ROOM) {
        const Config sized = detail::sized(config);
        const ks_seed seed = detail::seed(words_);
        detail::ok("ks_client_new", ks_client_new(raw_.get(), &server, &sized, &seed));
    }

    // Takes a request. Its number, which its report has, too.
    std::uint64_t call(Moment now, const Request &request) {
        const ks_request what{detail::number_of(request.format), detail::number_of(request.accept),
                              static_cast<std::uint8_t>(request.method), request.if_none_match};
        const Bytes text(request.path);
        const auto etags = detail::raw_tags(request.etags), if_match = detail::raw_tags(request.if_match);
        const ks_tag none{};
        std::uint64_t id = 0;
        detail::ok("ks_client_call",
                   ks_client_call(raw_.get(), detail::ms(now), &what, static_cast<const char *>(text.data()),
                                  text.size(), request.body.data(), request.body.size(),
                                  etags.empty() ? &none : etags.data(), etags.size(),
                                  if_match.empty() ? &none : if_match.data(), if_match.size(), &id));
        return id;
    }

    // Takes an observation. Its number.
    std::uint64_t observe(Moment now, std::string_view path) {
        std::uint64_t id = 0;
        const Bytes text(path);
        detail::ok("ks_client_observe", ks_client_observe(raw_.get(), detail::ms(now),
                                                          static_cast<const char *>(text.data()), text.size(), &id));
        return id;
    }

    // Takes the cancel of an observation, which is asked of the server.
    void cancel(Moment now, std::uint64_t id) {
        detail::ok("ks_client_cancel", ks_client_cancel(raw_.get(), detail::ms(now), id));
    }

    // Forgets an observation, with no message; whether one was live with that number.
    bool forget(std::uint64_t id) { return detail::done("ks_client_forget", ks_client_forget(raw_.get(), id)); }

    void feed(Moment now, const Address &from, Bytes datagram) {
        detail::ok("ks_client_feed",
                   ks_client_feed(raw_.get(), detail::ms(now), &from, datagram.data(), datagram.size(), words_()));
    }

    // Does all that is due, and starts what waits.
    void tick(Moment now) {
        while (detail::done("ks_client_tick", ks_client_tick(raw_.get(), detail::ms(now), words_()))) {}
    }

    std::optional<Moment> due() const {
        std::uint64_t at = 0;
        if (!detail::done("ks_client_due", ks_client_due(raw_.get(), &at))) return std::nullopt;
        return Moment(static_cast<Moment::rep>(at));
    }

    std::optional<Outgoing> next_out() {
        Address to{};
        std::size_t len = 0;
        const auto answer = ks_client_next_out(raw_.get(), &to, room_.data(), room_.size(), &len);
        if (!detail::done("ks_client_next_out", answer)) return std::nullopt;
        return Outgoing{to, {room_.data(), len}};
    }

    std::optional<Report> next_report() {
        ks_report told{};
        std::int32_t answer = 0;
        while ((answer = ks_client_next_report(raw_.get(), &told, body_.data(), body_.size())) == KS_SMALL_ROOM)
            body_.resize(told.body_len);
        if (!detail::done("ks_client_next_report", answer)) return std::nullopt;
        Report report;
        report.id = told.id;
        report.kind = static_cast<ks_report_kind>(told.kind);
        report.code = Code{told.code};
        report.sequence = told.sequence;
        report.format = detail::format_of(told.format);
        if (told.tag_len != 0) report.tag = Tag(told.tag, told.tag + told.tag_len);
        report.body.assign(body_.data(), body_.data() + told.body_len);
        return report;
    }

private:
    detail::Handle<ks_client, ks_client_free> raw_;
    Words words_;
    std::vector<std::uint8_t> room_, body_;
};

#if KS_VERSION >= 200
// The bytes that tell a peer apart: 1 to 60. Two spellings are two peers.
using Key = std::vector<std::uint8_t>;

// Names for peers that have no IPv4 address: an IPv6 address with its scope, a DTLS session, a radio. An end takes
// such a name for the address of its peer. knifesilver.h says what is kept, and which rules are yours.
class Names {
public:
    // A table in which no peer has a name, for at most so many at once. With `this_network` all names are in
    // 0.0.0.0/8, so that peers with an IPv4 address can go by it.
    explicit Names(std::uint32_t places, bool this_network = true, const Words &words = random_word) : room_{} {
        const ks_seed seed = detail::seed(words);
        detail::ok("ks_names_new", ks_names_new(raw_.get(), places, this_network, &seed));
    }

    // A datagram came from this peer: the name that it has, or a new one. None where no name is left for it
    // (KS_NAMES_FULL, KS_NAMES_SPENT): drop the datagram.
    std::optional<Address> fed(Moment now, Bytes key) {
        Address name{};
        const auto answer = ks_names_fed(raw_.get(), detail::ms(now), key.data(), key.size(), &name);
        if (answer == KS_NAMES_FULL || answer == KS_NAMES_SPENT) return std::nullopt;
        detail::ok("ks_names_fed", answer);
        return name;
    }

    // A datagram goes to this name: the key of its peer. None where the name is nobody's: drop the datagram.
    std::optional<Key> sent(Moment now, const Address &name) {
        std::size_t len = 0;
        const auto answer = ks_names_sent(raw_.get(), detail::ms(now), &name, room_.data(), room_.size(), &len);
        return told("ks_names_sent", answer, len);
    }

    // The same, but nothing goes there, and nothing changes.
    std::optional<Key> key(const Address &name) const {
        std::size_t len = 0;
        const auto answer = ks_names_key(raw_.get(), &name, room_.data(), room_.size(), &len);
        return told("ks_names_key", answer, len);
    }

    // The name of a peer, where it has one. Nothing changes.
    std::optional<Address> of(Bytes key) const {
        Address name{};
        if (!detail::done("ks_names_of", ks_names_of(raw_.get(), key.data(), key.size(), &name))) return std::nullopt;
        return name;
    }

    // Keeps a name until it is released or retired; whether it is somebody's.
    bool hold(const Address &name) { return detail::done("ks_names_hold", ks_names_hold(raw_.get(), &name)); }

    // Holds it no more, which counts as a datagram; whether it was held.
    bool release(Moment now, const Address &name) {
        return detail::done("ks_names_release", ks_names_release(raw_.get(), detail::ms(now), &name));
    }

    // Forgets a name at once, where nothing can come from its peer any more; whether it was somebody's.
    bool retire(const Address &name) { return detail::done("ks_names_retire", ks_names_retire(raw_.get(), &name)); }

    // How many peers have a name.
    std::uint64_t size() const {
        std::uint64_t taken = 0;
        detail::ok("ks_names_load", ks_names_load(raw_.get(), &taken));
        return taken;
    }

private:
    std::optional<Key> told(const char *call, std::int32_t answer, std::size_t len) const {
        if (!detail::done(call, answer)) return std::nullopt;
        return Key(room_.data(), room_.data() + len);
    }

    detail::Handle<ks_names, ks_names_free> raw_;
    mutable std::array<std::uint8_t, KS_KEY_ROOM> room_;
};
#endif

} // namespace knifesilver

#endif

// mezulobu.hpp: the shared-buffer negotiator for C++17. It is all in this header, over mezulobu.h, whose structs, names and comments
// hold here too: what a struct of the same name adds is that it sets its own size, and owns its lists.
//
//     mezulobu::Participant camera(MEZULOBU_USE_VIDEO);
//     camera.camping = 3;
//     camera.list.push_back(mezulobu::Entry(DRM_FORMAT_NV12, MEZULOBU_REC709));
//     if (auto settings = mezulobu::negotiate(platform, {camera}))
//         std::printf("%u buffers\n", settings->count);
//     else
//         std::printf("%s\n", settings.error().text().c_str());
//
// A call answers an expected: its value, or why there is none. Nothing is thrown but what the standard library throws.
#ifndef MEZULOBU_HPP
#define MEZULOBU_HPP

#include <mezulobu.h>

#include <cstddef>
#include <cstdint>
#include <cstdlib>
#include <memory>
#include <optional>
#include <string>
#include <string_view>
#include <type_traits>
#include <utility>
#include <variant>
#include <vector>

namespace mezulobu {

/// Why there is no value, on its way into an expected.
template <class E>
struct unexpected {
    E error;
};

template <class E>
unexpected(E) -> unexpected<E>;

/// A value, or why there is none, as std::expected of C++23 has them. What is read has to be there, else the program is aborted.
template <class T, class E>
class [[nodiscard]] expected {
  public:
    expected(T value) : either_(std::in_place_index<0>, std::move(value)) {}
    expected(unexpected<E> why) : either_(std::in_place_index<1>, std::move(why.error)) {}

    bool has_value() const noexcept { return either_.index() == 0; }
    explicit operator bool() const noexcept { return has_value(); }

    T &value() & { return *there(std::get_if<0>(&either_)); }
    const T &value() const & { return *there(std::get_if<0>(&either_)); }
    T &&value() && { return std::move(value()); }
    T &operator*() & { return value(); }
    const T &operator*() const & { return value(); }
    T &&operator*() && { return std::move(*this).value(); }
    T *operator->() { return &value(); }
    const T *operator->() const { return &value(); }
    const E &error() const { return *there(std::get_if<1>(&either_)); }

    template <class U>
    T value_or(U &&other) const &
    {
        return has_value() ? value() : static_cast<T>(std::forward<U>(other));
    }

    /// What a call makes of the value, or the same reason.
    template <class F>
    auto and_then(F call) && -> std::invoke_result_t<F, T &&>
    {
        if (has_value())
            return call(std::move(value()));
        return unexpected<E>{error()};
    }

  private:
    template <class P>
    static P *there(P *at)
    {
        if (!at)
            std::abort();
        return at;
    }

    std::variant<T, E> either_;
};

/// One image format that a participant takes, and its bounds on such images.
struct Entry : mezulobu_entry {
    Entry(std::uint32_t its_format, std::uint32_t its_colors) : mezulobu_entry{}
    {
        struct_size = sizeof(mezulobu_entry);
        format = its_format;
        colors = its_colors;
    }
};
static_assert(sizeof(Entry) == sizeof(mezulobu_entry), "entries stand in a list of C");

/// What a participant asks for. Its entries are those of `list`: `entries` and `n_entries` are set where it is read.
struct Participant : mezulobu_participant {
    std::vector<Entry> list;

    explicit Participant(std::uint8_t its_usage) : mezulobu_participant{}
    {
        struct_size = sizeof(mezulobu_participant);
        usage = its_usage;
    }

    /// As the library reads it, as long as this lives and stays as it is.
    mezulobu_participant flat() const
    {
        mezulobu_participant it = *this;
        it.entries = list.data();
        it.n_entries = list.size();
        return it;
    }
};

/// What the allocator offers.
struct Platform {
    std::vector<mezulobu_heap> heaps;
    std::vector<mezulobu_pair> pairs;
    std::vector<std::uint32_t> colors;

    /// As the library reads it, as long as this lives and stays as it is.
    mezulobu_platform flat() const
    {
        return {sizeof(mezulobu_platform), heaps.data(), heaps.size(), pairs.data(), pairs.size(), colors.data(), colors.size()};
    }
};

/// What all share.
struct Settings : mezulobu_settings {
    Settings() : mezulobu_settings{} { struct_size = sizeof(mezulobu_settings); }

    bool has_image() const noexcept { return image.format != 0; }
};

/// Which call it is, and of a live collection on the node of which name.
inline std::string said_of(std::string_view call, std::string_view node)
{
    std::string line(call);
    return node.empty() ? line : line.append(" of ").append(node);
}

/// Why there are no settings, with the status that says it.
struct Refusal : mezulobu_refusal {
    int status = MEZULOBU_DONE;
    /// Of a live collection the call, as "set_constraints", and the name of its node.
    const char *call = "";
    std::string node;
    /// What `who` numbers: a participant, of a live collection a node, and nothing where there is one alone.
    std::string_view numbered = "participant";

    Refusal() : mezulobu_refusal{} { struct_size = sizeof(mezulobu_refusal); }

    std::string_view status_name() const { return mezulobu_status_name(status); }
    std::string_view field_name() const { return mezulobu_field_name(field); }

    /// The index of the participant, where it is about one.
    std::optional<std::size_t> participant() const
    {
        if (kind == MEZULOBU_KIND_PLATFORM || who == MEZULOBU_NOBODY)
            return std::nullopt;
        return who;
    }

    /// One line for people, as "NO: participant 1: max_size", or "set_constraints of camera: the participant: usage".
    std::string text() const
    {
        if (*call && status != MEZULOBU_REFUSED)
            return said_of(call, node) + ": " + mezulobu_status_text(status, call);
        std::string line = *call ? said_of(call, node) + ": the participant" : std::string(status_name());
        if (kind == MEZULOBU_KIND_PLATFORM)
            line += ": the platform";
        else if (participant() && !numbered.empty())
            line.append(": ").append(numbered).append(" " + std::to_string(who));
        if (field != MEZULOBU_FIELD_NONE)
            line.append(": ").append(field_name());
        return alone ? line + ", even alone" : line;
    }
};

/// Participants as the library reads them, as long as they live and stay as they are.
inline std::vector<mezulobu_participant> flat(const std::vector<Participant> &participants)
{
    std::vector<mezulobu_participant> list;
    list.reserve(participants.size());
    for (const Participant &it : participants)
        list.push_back(it.flat());
    return list;
}

/// The best settings for participants on a platform. Their order is a ranking: those that can be done without stand last.
inline expected<Settings, Refusal> negotiate(const Platform &platform, const std::vector<Participant> &participants)
{
    const mezulobu_platform on = platform.flat();
    const std::vector<mezulobu_participant> list = flat(participants);
    Settings settings;
    Refusal why;
    why.status = mezulobu_negotiate(&on, list.data(), list.size(), &settings, &why);
    if (why.status == MEZULOBU_DONE)
        return settings;
    return unexpected{why};
}

/// The layout of an image whose first plane has rows of `pitch` bytes, its height in pixels; nothing where it can't be laid out.
inline std::optional<mezulobu_layout> planes(std::uint32_t format, std::uint64_t modifier, std::uint32_t pitch, std::uint32_t height)
{
    mezulobu_layout layout{};
    if (mezulobu_planes(format, modifier, pitch, height, &layout) != MEZULOBU_DONE)
        return std::nullopt;
    return layout;
}

/// Why there is no text: the status, and the library's words where it has any, as "script refused: Q4 at call 7".
struct Failure {
    int status;
    std::string words;
};

/// A text, with the status that it came with.
struct Text {
    int status;
    std::string text;
};

/// A report, and the certificate of its decisions.
struct Report {
    std::string text;
    std::string certificate;
};

namespace detail {

/// The room of a text at first.
constexpr std::size_t room = std::size_t{1} << 16;

/// Calls with room for a text, and again with as much as it needs.
template <class Call>
Text filled(Call call)
{
    std::string text(room, '\0');
    for (;;) {
        std::size_t size = text.size();
        const int status = call(text.data(), &size);
        text.resize(size);
        if (status != MEZULOBU_TOO_SMALL)
            return {status, std::move(text)};
    }
}

inline expected<std::string, Failure> done(Text &&it)
{
    if (it.status == MEZULOBU_DONE)
        return std::move(it.text);
    return unexpected{Failure{it.status, std::move(it.text)}};
}

/// A text that three endings of a script have: all went well, or not, or it has a fault.
inline expected<Text, Failure> told(Text &&it)
{
    if (it.status == MEZULOBU_DONE || it.status == MEZULOBU_NO || it.status == MEZULOBU_REFUSED)
        return std::move(it);
    return unexpected{Failure{it.status, {}}};
}

} // namespace detail

/// The report of a script, which is one JSON value.
inline expected<std::string, Failure> run(std::string_view script)
{
    return detail::done(detail::filled([&](char *text, std::size_t *size) {
        return mezulobu_run(script.data(), script.size(), text, size, nullptr, nullptr);
    }));
}

/// The same, with the certificate of its decisions.
inline expected<Report, Failure> run_with_certificate(std::string_view script)
{
    std::string proof(detail::room, '\0');
    Text text = detail::filled([&](char *at, std::size_t *size) {
        std::size_t proof_size = proof.size();
        const int status = mezulobu_run(script.data(), script.size(), at, size, proof.data(), &proof_size);
        proof.resize(proof_size);
        return status;
    });
    if (text.status == MEZULOBU_DONE)
        return Report{std::move(text.text), std::move(proof)};
    return unexpected{Failure{text.status, std::move(text.text)}};
}

/// Tests a certificate against a script. The text's status is DONE for yes, and NO.
inline expected<Text, Failure> check(std::string_view script, std::string_view certificate)
{
    Text text = detail::filled([&](char *at, std::size_t *size) {
        return mezulobu_check(script.data(), script.size(), certificate.data(), certificate.size(), at, size);
    });
    if (text.status == MEZULOBU_DONE || text.status == MEZULOBU_NO)
        return text;
    return unexpected{Failure{text.status, std::move(text.text)}};
}

/// Explains a script. The text's status is DONE where all went well, NO where a call was refused or a domain isn't chosen, and
/// REFUSED where the script has a fault.
inline expected<Text, Failure> explain(std::string_view script, const char *file = nullptr)
{
    return detail::told(detail::filled([&](char *at, std::size_t *size) {
        return mezulobu_explain(script.data(), script.size(), file, true, at, size);
    }));
}

/// The same as objects of JSON, one a line.
inline expected<Text, Failure> explain_json(std::string_view script, const char *file = nullptr)
{
    return detail::told(detail::filled([&](char *at, std::size_t *size) {
        return mezulobu_explain_json(script.data(), script.size(), file, true, at, size);
    }));
}

// ---- Live collections: handles on the nodes of one collection, each on whatever thread. Who destroys one closes its node, and its domain fails if
// it wasn't ready yet: so a driver that ends early keeps nobody waiting.

/// The status of a call of a live collection that isn't done; two of one number are equal.
struct Status {
    int status;
    /// The call, as "bind", and the name of its node: none of an allocator's.
    const char *call = "";
    std::string node = {};

    std::string_view name() const { return mezulobu_status_name(status); }

    /// One line for people, as "check of camera: E9 Pending: nothing is decided yet; explain says who is awaited".
    std::string text() const { return said_of(call, node) + ": " + mezulobu_status_text(status, call); }

    friend bool operator==(const Status &a, const Status &b) { return a.status == b.status; }
    friend bool operator!=(const Status &a, const Status &b) { return a.status != b.status; }
};

/// A call that is done and gives nothing.
using Done = std::monostate;

/// The fault of a record: 1 is S1 and so on, and 0 no JSON; with another status than REFUSED there is none.
struct RecordFault {
    int status;
    std::uint32_t number;
    /// The call, as "set_constraints_record", and the name of its node: none of an allocator's.
    const char *call = "";
    std::string node = {};
    /// What it is, where in the record, and what would be right.
    std::string words = {};

    /// The name of the fault, as "S5 BadUsage".
    std::string_view fault_name() const { return mezulobu_fault_name(number); }

    /// What people read, as "set_constraints_record of camera: S5 usage" and the lines that show it.
    std::string text() const
    {
        return said_of(call, node) + ": " + (status == MEZULOBU_REFUSED ? words : mezulobu_status_text(status, call));
    }
};

namespace detail {

/// What is wrong with a record, in words; without memory for these its name alone.
inline std::string words_of(mezulobu_kind kind, std::string_view record, std::uint32_t number)
{
    Text told = filled([&](char *text, std::size_t *size) { return mezulobu_record_fault(kind, record.data(), record.size(), text, size); });
    if (told.status != MEZULOBU_DONE)
        return mezulobu_fault_name(number);
    told.text.pop_back(); // the end of its last line
    return told.text;
}

/// A handle of C that one owns: moved, and closed at the end. A call that spends it writes null where it is done.
template <class T, int (*Close)(T **), int (*Name)(T *, char *, std::size_t *)>
class Handle {
  public:
    explicit Handle(T *at) noexcept : at_(at) {}
    Handle(Handle &&other) noexcept : at_(std::exchange(other.at_, nullptr)) {}
    /// What it had is closed first.
    Handle &operator=(Handle &&other) noexcept
    {
        Handle taken(std::move(other));
        std::swap(at_, taken.at_);
        return *this;
    }
    ~Handle() { close(); }

    /// The name of the node: what set_name gave it, else root, or n with its number; none without memory for it.
    std::string name() const
    {
        Text told = filled([&](char *text, std::size_t *size) { return Name(at_, text, size); });
        return told.status == MEZULOBU_DONE ? std::move(told.text) : std::string();
    }

    /// The handle as C has it, which stays owned here; null where it is spent.
    T *get() const noexcept { return at_; }
    explicit operator bool() const noexcept { return at_ != nullptr; }

    /// Closes the node, whose domain fails if it wasn't ready yet. It isn't refused of what is open.
    void close() noexcept
    {
        if (at_)
            Close(&at_);
        at_ = nullptr;
    }

  protected:
    /// Why a call on this handle isn't done.
    unexpected<Status> why(const char *call, int status) const { return unexpected{Status{status, call, name()}}; }

    expected<Done, Status> done(const char *call, int status) const
    {
        if (status == MEZULOBU_DONE)
            return Done{};
        return why(call, status);
    }

    expected<std::string, Status> text(const char *call, Text &&it) const
    {
        if (it.status == MEZULOBU_DONE)
            return std::move(it.text);
        return why(call, it.status);
    }

    template <class Made, class Of>
    expected<Made, Status> made(const char *name, int (*call)(T *, Of **)) const
    {
        Of *it = nullptr;
        const int status = call(at_, &it);
        if (status == MEZULOBU_DONE)
            return Made(it);
        return why(name, status);
    }

    T *at_;
};

} // namespace detail

class Collection;
class Group;

/// The right to take part: an open token.
class Token : public detail::Handle<mezulobu_token, mezulobu_token_close, mezulobu_token_name> {
  public:
    using Handle::Handle;

    /// A further token, below this one.
    expected<Token, Status> duplicate() const { return made<Token>("duplicate", mezulobu_token_duplicate); }

    /// A group of alternatives, below this token.
    expected<Group, Status> create_group() const;

    /// Takes part: the token becomes a collection. Refused, it is as it was.
    expected<Collection, Status> bind() &&;

    /// Gives the token up, without harm to the others. Refused, it is as it was.
    expected<Done, Status> release() && { return done("release", mezulobu_token_release(&at_)); }

    /// Names the node, in scripts and explanations; REFUSED of what is no name, NO where another node has it, MISUSED of the first one,
    /// which is root.
    expected<Done, Status> set_name(const char *name) const { return done("set_name", mezulobu_token_set_name(at_, name)); }
};

/// Alternatives, of which one is selected.
class Group : public detail::Handle<mezulobu_group, mezulobu_group_close, mezulobu_group_name> {
  public:
    using Handle::Handle;

    /// The next alternative: of two that can be had, the one that was made first is selected.
    expected<Token, Status> create_child() const { return made<Token>("create_child", mezulobu_group_create_child); }

    /// There are no further children. Only then a group can be released.
    expected<Done, Status> all_children_present() const { return done("all_children_present", mezulobu_group_all_children_present(at_)); }

    expected<Done, Status> release() && { return done("release", mezulobu_group_release(&at_)); }
    expected<Done, Status> set_name(const char *name) const { return done("set_name", mezulobu_group_set_name(at_, name)); }
};

/// A participant.
class Collection : public detail::Handle<mezulobu_collection, mezulobu_collection_close, mezulobu_collection_name> {
  public:
    using Handle::Handle;

    /// Says once what the participant asks for. Of a REFUSED one the refusal says which field is amiss.
    expected<Done, Refusal> set_constraints(const Participant &asked) const
    {
        const mezulobu_participant flat = asked.flat();
        return set(&flat);
    }

    /// Says that it asks for nothing.
    expected<Done, Refusal> set_no_constraints() const { return set(nullptr); }

    /// The same by the JSON of constraints, as scripts have it.
    expected<Done, RecordFault> set_constraints_record(std::string_view record) const
    {
        RecordFault why{MEZULOBU_DONE, 0, "set_constraints_record"};
        why.status = mezulobu_collection_set_constraints_record(at_, record.data(), record.size(), &why.number);
        if (why.status == MEZULOBU_DONE)
            return Done{};
        why.node = name();
        if (why.status == MEZULOBU_REFUSED)
            why.words = detail::words_of(MEZULOBU_KIND_PARTICIPANT, record, why.number);
        return unexpected{why};
    }

    /// A token for a participant who comes later.
    expected<Token, Status> attach_token() const { return made<Token>("attach_token", mezulobu_collection_attach_token); }

    expected<Done, Status> release() && { return done("release", mezulobu_collection_release(&at_)); }
    expected<Done, Status> set_name(const char *name) const { return done("set_name", mezulobu_collection_set_name(at_, name)); }

    /// What was decided: nothing where nothing is yet; why there are no settings.
    expected<std::optional<Settings>, Status> check() const
    {
        Settings settings;
        const int status = mezulobu_collection_check(at_, &settings);
        return decided("check", status, MEZULOBU_PENDING, settings);
    }

    /// The same as soon as it is decided; nothing where it isn't within so many milliseconds. Below 0 it waits as long as it takes.
    expected<std::optional<Settings>, Status> wait(int milliseconds = -1) const
    {
        Settings settings;
        const int status = mezulobu_collection_wait(at_, milliseconds, &settings);
        return decided("wait", status, MEZULOBU_NO, settings);
    }

    /// A file descriptor that polls as readable as soon as something is decided, and stays so; -1 where the system gives none. It is the collection's.
    int descriptor() const { return mezulobu_collection_fd(at_); }

    /// The number of the node: 0 is the first token of all, and each call that makes one takes the next.
    std::uint32_t node() const
    {
        std::uint32_t node = 0;
        mezulobu_collection_node(at_, &node);
        return node;
    }

    /// The name of the node of a number; MISUSED where there is none.
    expected<std::string, Status> name_of(std::uint32_t node) const
    {
        return text("name_of", detail::filled([&](char *at, std::size_t *size) { return mezulobu_collection_name_of(at_, node, at, size); }));
    }

    /// Which alternatives were chosen: of each group that is selected itself, in the order of the tree, the number of its child, counted from 0.
    expected<std::vector<std::uint8_t>, Status> selection() const
    {
        std::vector<std::uint8_t> choices(128);
        for (;;) {
            std::size_t n = choices.size();
            const int status = mezulobu_collection_selection(at_, choices.data(), &n);
            if (status != MEZULOBU_TOO_SMALL && status != MEZULOBU_DONE)
                return why("selection", status);
            choices.resize(n);
            if (status == MEZULOBU_DONE)
                return choices;
        }
    }

    /// Who is in the way, where check is INTERSECTION_EMPTY in a domain without groups that isn't attached: `who` is the number of a node then. The
    /// status is NO where it isn't so: explain tells more.
    expected<Refusal, Status> refusal() const
    {
        Refusal who;
        const int status = mezulobu_collection_refusal(at_, &who);
        who.status = MEZULOBU_NO;
        who.numbered = "node";
        if (status == MEZULOBU_DONE)
            return who;
        return why("refusal", status);
    }

    /// All calls of the whole collection that were done so far, as a script, and what proves its decisions. REFUSED, as of what follows, where there is
    /// none: it would be longer than a script may be.
    expected<Report, Status> script() const
    {
        std::string proof(detail::room, '\0');
        Text told = detail::filled([&](char *at, std::size_t *size) {
            std::size_t proof_size = proof.size();
            const int status = mezulobu_collection_script(at_, at, size, proof.data(), &proof_size);
            proof.resize(proof_size);
            return status;
        });
        if (told.status == MEZULOBU_DONE)
            return Report{std::move(told.text), std::move(proof)};
        return why("script", told.status);
    }

    /// The explanation of the script: who is awaited, what decided each value, who is in the way and which changes help.
    expected<std::string, Status> explain() const
    {
        return text("explain", detail::filled([&](char *at, std::size_t *size) { return mezulobu_collection_explain(at_, at, size); }));
    }

    /// The same as objects of JSON, one a line.
    expected<std::string, Status> explain_json() const
    {
        return text("explain_json", detail::filled([&](char *at, std::size_t *size) { return mezulobu_collection_explain_json(at_, at, size); }));
    }

  private:
    expected<Done, Refusal> set(const mezulobu_participant *asked) const
    {
        Refusal refused;
        refused.numbered = {};
        refused.call = "set_constraints";
        refused.status = mezulobu_collection_set_constraints(at_, asked, &refused);
        if (refused.status == MEZULOBU_DONE)
            return Done{};
        refused.node = name();
        return unexpected{refused};
    }

    expected<std::optional<Settings>, Status> decided(const char *call, int status, int none, const Settings &settings) const
    {
        if (status == MEZULOBU_DONE)
            return std::optional<Settings>(settings);
        if (status == none)
            return std::optional<Settings>();
        return why(call, status);
    }
};

inline expected<Group, Status> Token::create_group() const { return made<Group>("create_group", mezulobu_token_create_group); }

inline expected<Collection, Status> Token::bind() &&
{
    mezulobu_collection *bound = nullptr;
    const int status = mezulobu_token_bind(&at_, &bound);
    if (status == MEZULOBU_DONE)
        return Collection(bound);
    return why("bind", status);
}

/// Makes collections, which are decided for one platform, and live on without it.
class Allocator {
  public:
    static expected<Allocator, Refusal> of(const Platform &platform)
    {
        const mezulobu_platform flat = platform.flat();
        mezulobu_allocator *made = nullptr;
        Refusal why;
        why.status = mezulobu_allocator_new(&flat, &made, &why);
        if (why.status == MEZULOBU_DONE)
            return Allocator(made);
        return unexpected{why};
    }

    /// From the JSON of a platform, as scripts have it.
    static expected<Allocator, RecordFault> of_record(std::string_view record)
    {
        mezulobu_allocator *made = nullptr;
        RecordFault why{MEZULOBU_DONE, 0, "Allocator::of_record"};
        why.status = mezulobu_allocator_new_record(record.data(), record.size(), &made, &why.number);
        if (why.status == MEZULOBU_DONE)
            return Allocator(made);
        if (why.status == MEZULOBU_REFUSED)
            why.words = detail::words_of(MEZULOBU_KIND_PLATFORM, record, why.number);
        return unexpected{why};
    }

    /// A new collection, by the token of its root.
    expected<Token, Status> allocate_shared() const
    {
        mezulobu_token *token = nullptr;
        const int status = mezulobu_allocate_shared(at_.get(), &token);
        if (status == MEZULOBU_DONE)
            return Token(token);
        return unexpected{Status{status, "allocate_shared"}};
    }

    /// The same for a host that lets strangers in: each child of the root has at most so many nodes
    /// below it, whoever makes them, those that are gone included.
    expected<Token, Status> allocate_shared_limited(std::uint32_t most) const
    {
        mezulobu_token *token = nullptr;
        const int status = mezulobu_allocate_shared_limited(at_.get(), most, &token);
        if (status == MEZULOBU_DONE)
            return Token(token);
        return unexpected{Status{status, "allocate_shared_limited"}};
    }

  private:
    struct Free {
        void operator()(mezulobu_allocator *at) const { mezulobu_allocator_free(at); }
    };

    explicit Allocator(mezulobu_allocator *at) : at_(at) {}

    std::unique_ptr<mezulobu_allocator, Free> at_;
};

} // namespace mezulobu

#endif

/* dspec.hpp: dspec.h for C++20. Handles that let go what they hold, probes whose fields the compiler knows, paths that end with their scope,
 * the records of a batch, a trace in a folder. Header only, and nothing is allocated here but a trace's folder.
 *
 * Constructors and the calls that hand something out throw dspec::error, with the status, where they are refused; no call that traces throws.
 * A handle of this header is in one call at a time, and goes to another thread as dspec.h says. Each can be moved and none copied.
 */
#ifndef DSPEC_HPP
#define DSPEC_HPP

#include <array>
#include <bit>
#include <cerrno>
#include <concepts>
#include <cstdint>
#include <initializer_list>
#include <memory>
#include <optional>
#include <span>
#include <stdexcept>
#include <string>
#include <string_view>
#include <system_error>
#include <tuple>
#include <type_traits>
#include <utility>

#include "dspec.h"
#include "dspec_ctf.h"
#include "dspec_reader.h"
#include "dspec_text.h"

namespace dspec {

/* Why something was refused. */
struct error : std::runtime_error {
    dspec_status status;
    explicit error(dspec_status why) : std::runtime_error(dspec_status_text(why)), status(why) {}
};

inline void check(dspec_status status) {
    if (status != DSPEC_OK) throw error(status);
}

/* A text of 8, 16, 24, 32, 40 or 48 bytes, which is so many fields of eight bytes (dspec_text.h has its rules). */
template <std::size_t bytes> struct text {
    static_assert(bytes % 8 == 0 && bytes >= 8 && bytes <= DSPEC_MAX_TEXT, "a text has 8, 16, 24, 32, 40 or 48 bytes");
    std::uint64_t words[bytes / 8] = {};

    text() = default;
    /* Of more bytes it has the first, up to a character's border. */
    template <std::convertible_to<std::string_view> Text> text(const Text &of) noexcept {
        const std::string_view all = of;
        dspec_text_put(words, bytes / 8, all.data(), all.size());
    }

    /* The bytes before its first zero, which are this value's. */
    std::string_view view() const noexcept {
        const dspec_text in = dspec_text_in(words, bytes / 8);
        return {in.bytes, in.len};
    }
    /* Whether nothing of it was cut; false of one that fills it too. */
    bool whole() const noexcept { return words[bytes / 8 - 1] >> 56 == 0; }
    friend bool operator==(const text &, const text &) = default;
};

namespace detail {

template <typename T> inline constexpr bool is_text = false;
template <std::size_t bytes> inline constexpr bool is_text<text<bytes>> = true;

} /* namespace detail */

/* What a field can be: an integer, an enumeration, a bool or a floating point number of 1, 2, 4 or 8 bytes, or a text. */
template <typename T>
concept field = detail::is_text<T> || ((std::integral<T> || std::is_enum_v<T> || std::floating_point<T>) &&
                                       (sizeof(T) == 1 || sizeof(T) == 2 || sizeof(T) == 4 || sizeof(T) == 8));

/* What the numbers 0, 1, .. of a type are called, which a trace shows beside them: a program says it of an enumeration of its own, before the probes that have it as a field.
 *
 *     enum class outcome : std::uint8_t { done, aborted, slow };
 *     template <> inline constexpr std::array<const char *, 3> dspec::labels<outcome>{"done", "aborted", "slow"};
 */
template <typename T> inline constexpr std::array<const char *, 0> labels{};

namespace detail {

template <typename T> inline constexpr std::size_t label_count = labels<T>.size();
template <typename T> inline constexpr dspec_labels labels_of{labels<T>.data(), &label_count<T>};

template <std::size_t bytes>
using unsigned_of = std::conditional_t<bytes == 1, std::uint8_t,
                                       std::conditional_t<bytes == 2, std::uint16_t, std::conditional_t<bytes == 4, std::uint32_t, std::uint64_t>>>;

/* The bits of a number with zeros above them, so that a negative one fits its field, and a float keeps its bits. */
template <field T> constexpr std::uint64_t bits(T value) noexcept { return std::bit_cast<unsigned_of<sizeof(T)>>(value); }

/* The value of the bits that begin here. */
template <field T> constexpr T value(const std::uint64_t *at) noexcept {
    if constexpr (is_text<T>) {
        T made;
        for (std::size_t i = 0; i < sizeof(T) / 8; i++) made.words[i] = at[i];
        return made;
    } else if constexpr (std::same_as<T, bool>) return *at != 0;
    else return std::bit_cast<T>(static_cast<unsigned_of<sizeof(T)>>(*at));
}

/* How many fields of a schema each of these is, and all before one. */
template <field T> inline constexpr std::size_t spread = (sizeof(T) + 7) / 8;
template <field... Fields> inline constexpr std::size_t all_spread = (std::size_t{0} + ... + spread<Fields>);
template <field... Fields> constexpr auto starts() noexcept {
    std::array<std::size_t, sizeof...(Fields) + 1> all{};
    std::size_t at = 0, place = 0;
    ((all[place++] = at, at += spread<Fields>), ...);
    all[place] = at;
    return all;
}

/* How many bytes each field of the schema has; one number more, so that there is one. */
template <field... Fields> constexpr auto widths() noexcept {
    std::array<std::uint8_t, all_spread<Fields...> + 1> all{};
    [[maybe_unused]] std::size_t at = 0;
    [[maybe_unused]] const auto put = [&](std::size_t bytes) {
        for (; bytes > 8; bytes -= 8) all[at++] = 8;
        all[at++] = static_cast<std::uint8_t>(bytes);
    };
    (put(sizeof(Fields)), ...);
    return all;
}

/* What a handle holds is let go; a CPU and the consumer go home, and can't where the handle is empty. */
template <typename Handle> void leave(Handle *handle) noexcept { dspec_drop(handle); }
template <> inline void leave(dspec_cpu *handle) noexcept { dspec_cpu_home(handle); }
template <> inline void leave(dspec_consumer *handle) noexcept { dspec_consumer_home(handle); }

/* The signature of fields: how many bytes each of the schema's has, four bits a field, the first lowest. */
template <field... Fields> constexpr std::uint32_t signature() noexcept {
    std::uint32_t word = 0;
    for (std::size_t i = all_spread<Fields...>; i > 0; i--) word = word << 4 | widths<Fields...>()[i - 1];
    return word;
}

/* The place of a value of this many bytes after that many others. */
constexpr std::size_t place_from(std::size_t end, std::size_t bytes) noexcept {
    const std::size_t width = bytes < 8 ? bytes : 8;
    return (end + width - 1) / width * width;
}

/* The text of a record in words, each field at the next multiple of its width from this byte on. */
template <std::size_t From, typename... Fields> struct packed_from {
    std::uint64_t words[9] = {};
    std::size_t end = From;

    constexpr explicit packed_from(Fields... values) noexcept { (put(values), ...); }
    /* How many words there are: known by the fields. */
    static constexpr std::size_t count() noexcept {
        std::size_t at = From;
        ((at = place_from(at, sizeof(Fields)) + sizeof(Fields)), ...);
        return (at + 7) / 8;
    }

private:
    template <typename T> constexpr void put(const T &value) noexcept {
        end = place_from(end, sizeof(T));
        if constexpr (is_text<T>) {
            for (std::size_t i = 0; i < sizeof(T) / 8; i++) words[end / 8 + i] = value.words[i];
        } else words[end / 8] |= bits(value) << 8 * (end % 8);
        end += sizeof(T);
    }
};
/* After the EPID's four bytes. */
template <typename... Fields> using packed = packed_from<4, Fields...>;

/* What numbers of a type mean, as a trace's metadata says it. */
template <field T> constexpr std::uint8_t kind() noexcept {
    if constexpr (is_text<T>) return DSPEC_KIND_TEXT;
    else if constexpr (std::floating_point<T>) return DSPEC_KIND_FLOAT;
    else if constexpr (std::integral<T> && !std::same_as<T, bool>) return std::is_signed_v<T> ? DSPEC_KIND_SIGNED : DSPEC_KIND_UNSIGNED;
    else return DSPEC_KIND_UNSIGNED;
}

/* Owns a handle of one kind. */
template <typename Handle> class owned {
    Handle handle_ = DSPEC_EMPTY;

public:
    owned() = default;
    owned(owned &&other) noexcept : handle_(std::exchange(other.handle_, Handle{})) {}
    owned &operator=(owned &&other) noexcept {
        if (this != &other) {
            leave(&handle_);
            handle_ = std::exchange(other.handle_, Handle{});
        }
        return *this;
    }
    ~owned() { leave(&handle_); }

    /* The handle, for a call of dspec.h. */
    Handle *get() noexcept { return &handle_; }
};

} /* namespace detail */

/* An enabling with its fields in its type: what it is called with is converted as an argument of a function is. */
template <field... Fields> struct probe {
    static_assert(detail::all_spread<Fields...> <= DSPEC_MAX_FIELDS, "a record has at most eight fields; a text is one for each eight bytes");
    /* Of the schema: a text is one for each eight bytes. */
    static constexpr std::size_t fields = detail::all_spread<Fields...>;
    /* How many bytes each of them has, four bits a field, the first lowest. */
    static constexpr std::uint32_t signature = detail::signature<Fields...>();

    std::uint32_t epid = 0; /* 0 of a probe that wasn't enabled, whose records are DSPEC_BAD_RECORD */

    /* What its records claim, as dspec_put wants it. */
    std::uint64_t claim() const noexcept { return std::uint64_t{signature} << 32 | epid; }

    /* The values of a record of this probe; none of another's. */
    std::optional<std::tuple<Fields...>> read(const dspec_record &record) const noexcept {
        if (record.epid != epid || record.fields != fields) return std::nullopt;
        return read_all(record, std::index_sequence_for<Fields...>{});
    }

private:
    template <std::size_t... places> static std::tuple<Fields...> read_all(const dspec_record &record, std::index_sequence<places...>) noexcept {
        [[maybe_unused]] constexpr auto starts = detail::starts<Fields...>();
        return {detail::value<Fields>(&record.values[starts[places]])...};
    }
};

/* Which records there are: probes are enabled one after another. */
class schema : public detail::owned<dspec_schema> {
    dspec_layout layout_{};

public:
    schema() { check(dspec_schema_new(get())); }

    template <field... Fields> probe<Fields...> enable() {
        static constexpr auto widths = detail::widths<Fields...>();
        probe<Fields...> made;
        check(dspec_layout_enable(&layout_, get(), widths.data(), made.fields, &made.epid));
        return made;
    }

    /* From now on records have a stamp. */
    void stamp() {
        check(dspec_schema_stamp(get()));
        layout_.stamped = true;
    }

    const dspec_layout &layout() const noexcept { return layout_; }
};

/* Goes over the records of some bytes, to their end or to the first place where none of this layout begins. */
class records {
    const dspec_layout *layout_;
    std::span<const std::uint8_t> bytes_;

public:
    class iterator {
        const records *over_ = nullptr;
        std::size_t at_ = 0;
        dspec_record one_{};

    public:
        using value_type = dspec_record;
        using difference_type = std::ptrdiff_t;
        iterator() = default;
        explicit iterator(const records &over) noexcept : over_(&over) { ++*this; }
        const dspec_record &operator*() const noexcept { return one_; }
        iterator &operator++() noexcept {
            if (dspec_read(over_->layout_, over_->bytes_.data(), over_->bytes_.size(), &at_, &one_) != DSPEC_READ) over_ = nullptr;
            return *this;
        }
        void operator++(int) noexcept { ++*this; }
        bool operator==(std::default_sentinel_t) const noexcept { return over_ == nullptr; }
    };

    records(const dspec_layout &layout, const dspec_batch &batch) noexcept : layout_(&layout), bytes_(batch.bytes, batch.len) {}
    iterator begin() const noexcept { return iterator(*this); }
    std::default_sentinel_t end() const noexcept { return {}; }
};

class path;

/* A decision, and how many records of this CPU it was of. */
struct decided {
    dspec_status status;
    std::uint32_t records;
};

/* One CPU's calls. Where the value ends, the CPU goes home, and the paths that are still open on it are thrown away. A value that is moved takes its open paths
 * with it: they go on on the value that holds the CPU then. */
class cpu : public detail::owned<dspec_cpu> {
    friend class path;
    path *paths_ = nullptr; /* those that are open on this value, one after another */

    void takes_paths_of(cpu &other) noexcept;
    void ends_paths() noexcept;

    template <field... Fields> dspec_status put(probe<Fields...> of, std::uint64_t stamp, Fields... values) noexcept {
        using packed = detail::packed<Fields...>;
        if constexpr (sizeof...(Fields) == 0) return dspec_trace(get(), of.epid, stamp, nullptr, 0);
        else {
            const packed text{values...};
            if constexpr (packed::count() == 1) return dspec_put_1(get(), of.claim(), stamp, text.words[0]);
            else if constexpr (packed::count() == 2) return dspec_put_2(get(), of.claim(), stamp, text.words[0], text.words[1]);
            else if constexpr (packed::count() == 3) return dspec_put_3(get(), of.claim(), stamp, text.words[0], text.words[1], text.words[2]);
            else return dspec_put(get(), of.claim(), stamp, text.words, packed::count());
        }
    }
    template <field... Fields> dspec_status put_in(std::uint64_t id, probe<Fields...> of, std::uint64_t stamp, Fields... values) noexcept {
        using packed = detail::packed<Fields...>;
        if constexpr (sizeof...(Fields) == 0) return dspec_speculate(get(), id, of.epid, stamp, nullptr, 0);
        else {
            const packed text{values...};
            if constexpr (packed::count() == 1) return dspec_put_in_1(get(), id, of.claim(), stamp, text.words[0]);
            else if constexpr (packed::count() == 2) return dspec_put_in_2(get(), id, of.claim(), stamp, text.words[0], text.words[1]);
            else if constexpr (packed::count() == 3) return dspec_put_in_3(get(), id, of.claim(), stamp, text.words[0], text.words[1], text.words[2]);
            else return dspec_put_in(get(), id, of.claim(), stamp, text.words, packed::count());
        }
    }

public:
    cpu() = default;
    cpu(cpu &&other) noexcept : owned(std::move(other)) { takes_paths_of(other); }
    cpu &operator=(cpu &&other) noexcept {
        if (this == &other) return *this;
        ends_paths();
        owned::operator=(std::move(other));
        takes_paths_of(other);
        return *this;
    }
    ~cpu() { ends_paths(); }

    template <field... Fields> dspec_status trace(probe<Fields...> of, std::type_identity_t<Fields>... values) noexcept {
        return trace_at(of, 0, values...);
    }
    template <field... Fields> dspec_status trace_at(probe<Fields...> of, std::uint64_t stamp, std::type_identity_t<Fields>... values) noexcept {
        return put<Fields...>(of, stamp, values...);
    }
    template <field... Fields> dspec_status speculate(std::uint64_t id, probe<Fields...> of, std::type_identity_t<Fields>... values) noexcept {
        return speculate_at(id, of, 0, values...);
    }
    template <field... Fields>
    dspec_status speculate_at(std::uint64_t id, probe<Fields...> of, std::uint64_t stamp, std::type_identity_t<Fields>... values) noexcept {
        return put_in<Fields...>(id, of, stamp, values...);
    }
    decided commit(std::uint64_t id) noexcept {
        decided told{DSPEC_OK, 0};
        told.status = dspec_commit(get(), id, &told.records);
        return told;
    }
    /* As `commit`, but DSPEC_BUSY, and nothing done, where this CPU's records would be lost. */
    decided commit_if_room(std::uint64_t id) noexcept {
        decided told{DSPEC_OK, 0};
        told.status = dspec_commit_if_room(get(), id, &told.records);
        return told;
    }
    decided discard(std::uint64_t id) noexcept {
        decided told{DSPEC_OK, 0};
        told.status = dspec_discard(get(), id, &told.records);
        return told;
    }

    /* How many records of the speculation this CPU's buffer had no room for: where there are any, the path's end is cut. */
    std::uint32_t dropped_in(std::uint64_t id) noexcept {
        std::uint32_t count = 0;
        dspec_dropped_in(get(), id, &count);
        return count;
    }

    /* The speculations of which this CPU holds records; how many they are. */
    std::size_t open_in(std::uint64_t (&ids)[64]) noexcept {
        std::size_t n = 0;
        dspec_open_in(get(), ids, &n);
        return n;
    }

    /* To be called now and then between the other calls; whether a batch was handed on. */
    bool service() noexcept {
        bool sealed = false;
        std::uint32_t settled = 0;
        dspec_service(get(), &sealed, &settled);
        return sealed;
    }
    /* Sends the CPU home, as a thread does that is going to block: `session::tend` makes its services, and `session::wake` brings it back.
     * Its calls answer DSPEC_BAD_HANDLE meanwhile, also those of a path on it: one whose scope ends then stays open. */
    void park() noexcept { dspec_cpu_home(get()); }
    dspec_report report() {
        dspec_report told;
        check(dspec_cpu_report(get(), &told));
        return told;
    }

    /* A path on this CPU. */
    [[nodiscard]] path open() noexcept;
};

/* A speculation on the CPU that opened it, which is thrown away where its scope ends undecided: by an early return, or an exception. Where
 * none could be opened, `opened` says why, and its steps are counted as void. It is on its CPU's thread, as that value is. */
class path {
    friend class cpu;
    cpu *on_ = nullptr; /* none once it was decided or moved, or its CPU's value has ended */
    std::uint64_t id_ = 0;
    dspec_status opened_;
    path *next_ = nullptr, *before_ = nullptr; /* among those that are open on the same value */

    void enter(cpu *on) noexcept {
        on_ = on;
        next_ = on->paths_;
        before_ = nullptr;
        if (next_) next_->before_ = this;
        on->paths_ = this;
    }
    /* Leaves its CPU, and says which that was. */
    cpu *leave() noexcept {
        cpu *on = std::exchange(on_, nullptr);
        if (!on) return on;
        if (next_) next_->before_ = before_;
        if (before_) before_->next_ = next_;
        else on->paths_ = next_;
        return on;
    }

public:
    explicit path(cpu &on) noexcept : opened_(dspec_speculation(on.get(), &id_)) { enter(&on); }
    path(path &&other) noexcept : id_(other.id_), opened_(other.opened_) {
        if (cpu *on = other.leave()) enter(on);
    }
    path &operator=(path &&) = delete;
    ~path() {
        cpu *on = leave();
        if (on && opened_ == DSPEC_OK) on->discard(id_);
    }

    dspec_status opened() const noexcept { return opened_; }
    /* For `speculate` on other CPUs. */
    std::uint64_t id() const noexcept { return id_; }

    template <field... Fields> dspec_status record(probe<Fields...> of, std::type_identity_t<Fields>... values) noexcept {
        return record_at(of, 0, values...);
    }
    template <field... Fields> dspec_status record_at(probe<Fields...> of, std::uint64_t stamp, std::type_identity_t<Fields>... values) noexcept {
        return on_ ? on_->speculate_at(id_, of, stamp, values...) : DSPEC_VOID;
    }

    /* How many of its records this CPU had no room for. */
    std::uint32_t dropped() noexcept { return on_ ? on_->dropped_in(id_) : 0; }

    /* Each decides once; after it, after a move, and where its CPU's value has ended, the path takes no step and no decision: DSPEC_VOID. */
    decided commit() noexcept {
        cpu *on = leave();
        return on ? on->commit(id_) : decided{DSPEC_VOID, 0};
    }
    /* As `commit`, but where this CPU's records would be lost it is DSPEC_BUSY, and the path stays as it is. */
    decided commit_if_room() noexcept {
        const decided told = on_ ? on_->commit_if_room(id_) : decided{DSPEC_VOID, 0};
        if (told.status != DSPEC_BUSY) leave();
        return told;
    }
    decided discard() noexcept {
        cpu *on = leave();
        return on ? on->discard(id_) : decided{DSPEC_VOID, 0};
    }
};

inline path cpu::open() noexcept { return path(*this); }

/* A vector that grows promises the compiler that nothing but the values' own names reaches them meanwhile, so neither goes through a path's `on_`. */
inline void cpu::takes_paths_of(cpu &other) noexcept {
    paths_ = std::exchange(other.paths_, nullptr);
    for (path *one = paths_; one; one = one->next_) one->on_ = this;
}

inline void cpu::ends_paths() noexcept {
    for (path *one = std::exchange(paths_, nullptr); one; one = one->next_) {
        one->on_ = nullptr;
        if (one->opened_ == DSPEC_OK) discard(one->id_);
    }
}

/* The consumer's calls. Where the value ends, the consumer goes home. */
class consumer : public detail::owned<dspec_consumer> {
public:
    /* Asks a CPU for a batch, and hands one that has come to `see`, after which it goes back; whether one had come. */
    template <std::invocable<const dspec_batch &> See> bool take(std::uint32_t number, See &&see) {
        check(dspec_ask(get(), number));
        dspec_batch batch;
        dspec_status status = dspec_take(get(), number, &batch);
        if (status == DSPEC_NO_BATCH) return false;
        check(status);
        struct giving_back {
            consumer *by;
            std::uint32_t number;
            ~giving_back() { dspec_give_back(by->get(), number); }
        } at_the_end{this, number};
        see(std::as_const(batch));
        return true;
    }
    /* How many slots it freed. */
    std::uint32_t clean() noexcept {
        std::uint32_t released = 0;
        dspec_clean(get(), &released);
        return released;
    }
    /* How many decided slots wait for this CPU's next service; 0 where there is no such CPU. */
    std::uint32_t waiting_for(std::uint32_t number) noexcept {
        std::uint32_t count = 0;
        dspec_waiting_for(get(), number, &count);
        return count;
    }
    void stop() noexcept { dspec_stop(get()); }
};

/* What was left of a session that has ended. */
class closed : public detail::owned<dspec_closed> {
public:
    dspec_report report(std::uint32_t number) {
        dspec_report told;
        check(dspec_closed_report(get(), number, &told));
        return told;
    }
    /* The batch that was handed on and never taken, or with `last` the principal buffer. Its bytes are this value's. */
    std::optional<dspec_batch> rest(std::uint32_t number, bool last) {
        dspec_batch batch;
        dspec_status status = dspec_rest(get(), number, last, &batch);
        if (status == DSPEC_NO_BATCH) return std::nullopt;
        check(status);
        return batch;
    }
};

/* A session from its start to its end. */
class session : public detail::owned<dspec_session> {
public:
    session(const dspec_config &config, schema &of) { check(dspec_start(&config, of.get(), get())); }

    /* A CPU that was never handed out, or came home; else it throws DSPEC_OUT. */
    [[nodiscard]] dspec::cpu cpu_of(std::uint32_t number) {
        dspec::cpu made;
        check(dspec_cpu_of(get(), number, made.get()));
        return made;
    }
    /* The CPU of this number, which was parked, back into its value: a path that is open on it goes on. Where memory is refused it throws, and
     * the CPU stays parked. */
    void wake(std::uint32_t number, dspec::cpu &parked) { check(dspec_cpu_of(get(), number, parked.get())); }
    /* The consumer, which is handed out once. */
    [[nodiscard]] dspec::consumer consumer_of() {
        dspec::consumer made;
        check(dspec_consumer_of(get(), made.get()));
        return made;
    }
    /* A service of each CPU that is home or was never handed out; how many speculations they settled. */
    std::uint64_t tend() {
        std::uint64_t settled = 0;
        check(dspec_tend(get(), &settled));
        return settled;
    }
    /* Once all that was handed out is home; else it throws DSPEC_NOT_HOME, and the session goes on. */
    [[nodiscard]] closed finish() {
        closed made;
        check(dspec_finish(get(), made.get()));
        return made;
    }
    /* The end in one call, once all threads are joined: these CPUs, of which one that is parked is home already, and the consumer go home, and
     * the session ends. Where another CPU of it is out it throws DSPEC_NOT_HOME; what was passed is home then, and the session goes on. More
     * than 64 CPUs are no session's: DSPEC_NO_SUCH_CPU, and nothing has changed. */
    [[nodiscard]] closed close(std::span<dspec::cpu> cpus, dspec::consumer &theirs) {
        std::array<dspec_cpu *, DSPEC_MAX_CPUS> all{};
        std::size_t count = 0;
        for (dspec::cpu &one : cpus) {
            if (!one.get()->held) continue;
            if (count == all.size()) throw error(DSPEC_NO_SUCH_CPU);
            all[count++] = one.get();
        }
        closed made;
        check(dspec_close(get(), all.data(), count, theirs.get(), made.get()));
        return made;
    }
};

/* The names of probes and of their fields, in the order in which they were enabled, for a trace. The texts stay the caller's. */
class names {
    dspec_names names_{};

public:
    /* Adds the next probe's, and as many fields' as it has. */
    template <field... Fields> names &add(probe<Fields...>, const char *event, std::initializer_list<const char *> fields) noexcept {
        static constexpr std::array<std::uint8_t, sizeof...(Fields) + 1> kinds{detail::kind<Fields>()..., 0}, bytes{sizeof(Fields)..., 1};
        static constexpr std::array<const dspec_labels *, sizeof...(Fields) + 1> labels{&detail::labels_of<Fields>..., nullptr};
        std::size_t at = 0;
        dspec_names_event(&names_, event);
        for (const char *field : fields) {
            dspec_names_wide(&names_, field, kinds[at], bytes[at]);
            dspec_names_labels(&names_, labels[at]);
            if (at < sizeof...(Fields)) at++;
        }
        return *this;
    }
    const dspec_names *get() const noexcept { return &names_; }
};

/* This process under a name, as a trace tells it, with stamps of dspec_monotonic; each value has a uuid of its own. */
class system_identity {
    std::string name_;
    char host_[DSPEC_HOST_SIZE];
    dspec_identity identity_;

public:
    /* Throws std::system_error where the system doesn't tell. */
    explicit system_identity(std::string name) : name_(std::move(name)) {
        if (!dspec_identity_of_system(&identity_, name_.c_str(), host_)) throw std::system_error(errno, std::generic_category(), "dspec::system_identity");
    }
    system_identity(const system_identity &) = delete;
    system_identity &operator=(const system_identity &) = delete;
    operator const dspec_identity &() const noexcept { return identity_; }
};

/* Why no trace was begun. */
struct trace_error : std::runtime_error {
    dspec_loss loss;
    explicit trace_error(dspec_folder &folder) : std::runtime_error(dspec_folder_why(&folder)), loss(folder.last) {}
};

/* A bound of a trace on disk (dspec_folder_limit): none where there are no folders. */
struct folder_limit {
    std::uint64_t bytes = 0;
    std::uint32_t folders = 0;
};

/* A trace in a folder, which is written while a session runs (dspec_ctf.h). Where the value ends, the files are closed. */
class trace_folder {
    struct ending {
        void operator()(dspec_folder *folder) const noexcept {
            dspec_folder_end(folder);
            delete folder;
        }
    };
    std::unique_ptr<dspec_folder, ending> folder_;
    dspec_layout layout_;

public:
    /* Makes the folder and writes the metadata; throws trace_error. The CPUs are as many as the session has. With a bound the schema stays where it is until the end. */
    trace_folder(const char *path, schema &of, std::uint32_t cpus, const dspec_identity &identity, const names &called, folder_limit limit = {})
        : folder_(new dspec_folder{}), layout_(of.layout()) {
        dspec_folder_limit(folder_.get(), limit.bytes, limit.folders);
        if (!dspec_folder_begin(folder_.get(), path, of.get(), cpus, &identity, called.get())) throw trace_error(*folder_);
    }
    /* Writes a batch; where it answers false, `last` says what of it isn't written, and why. */
    bool take(const dspec_batch &batch) noexcept { return dspec_folder_take(folder_.get(), &layout_, &batch); }
    const dspec_loss &last() const noexcept { return folder_->last; }
    /* How many records weren't written so far. */
    std::uint64_t lost() const noexcept { return folder_->lost ? folder_->first.records : 0; }
    /* How many records went with folders for which the bound had no room. */
    std::uint64_t gone() const noexcept { return folder_->gone_records; }
    /* After the session's end: writes what was left of each CPU, tells what else its reports count as dropped, specdropped or lost, and closes the files;
     * whether the whole trace is written. No batch is taken after it. */
    bool close(closed &ended) noexcept { return dspec_folder_close(folder_.get(), &layout_, ended.get()); }
    /* For a trace that is closed without a session's end: tells what isn't told yet, and closes the files. */
    bool end() noexcept { return dspec_folder_end(folder_.get()); }
};

} /* namespace dspec */
#endif

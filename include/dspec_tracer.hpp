/* dspec_tracer.hpp: dspec_tracer.h for C++20. Events with their fields in their types, a tracer, and paths that are thrown away where their scope ends undecided.
 *
 *     inline dspec::event<std::uint64_t, std::uint32_t> query{"query", "request", "micros"};     in a header too: one for all files of a program
 *
 *     dspec::tracer tracer("folder", {}, query);
 *     dspec::tracer::path path = tracer.open();               on any thread
 *     path.record(query, request, 40);
 *     if (failed) path.keep();
 *     tracer.record(query, request, 40);                      a record that is kept whatever comes
 *
 * A tracer that isn't started throws dspec::tracer_error; nothing else throws.
 */
#ifndef DSPEC_TRACER_HPP
#define DSPEC_TRACER_HPP

#include <chrono>
#include <exception>

#include "dspec.hpp"
#include "dspec_tracer.h"

namespace dspec {

/* An event of a program. It stays where it is, and outlives each tracer that it is handed to; the texts stay the caller's. */
template <field... Fields> class event {
    static_assert(sizeof...(Fields) >= 1 && detail::all_spread<Fields...> < DSPEC_MAX_FIELDS, "an event has one to seven values beside the number of its path; a text is one for each eight bytes");
    static constexpr std::array<std::uint8_t, sizeof...(Fields)> widths_{sizeof(Fields)...}, kinds_{detail::kind<Fields>()...};
    static constexpr std::array<const dspec_labels *, sizeof...(Fields)> labels_{&detail::labels_of<Fields>...};
    dspec_event at_;
    std::array<const char *, sizeof...(Fields)> fields_;
    dspec_enabling enabling_;

public:
    /* The event's name, and one of each field. */
    template <std::convertible_to<const char *>... Names>
        requires(sizeof...(Names) == sizeof...(Fields))
    constexpr explicit event(const char *name, Names... fields) noexcept
        : at_{{}, name, DSPEC_LOOK_NONE}, fields_{fields...}, enabling_{&at_, name, fields_.data(), widths_.data(), kinds_.data(), sizeof...(Fields), labels_.data(), nullptr} {}
    event(const event &) = delete;
    event &operator=(const event &) = delete;

    const dspec_event *get() const noexcept { return &at_; }
    dspec_event *get() noexcept { return &at_; }
    const dspec_enabling *enabling() const noexcept { return &enabling_; }
};

/* Why no tracer was started. */
struct tracer_error : std::runtime_error {
    using std::runtime_error::runtime_error;
};

/* A tracer, from its start to its end. It outlives its paths and each thread that records with it. */
class tracer {
    std::unique_ptr<dspec_tracer> tracer_{new dspec_tracer{}};

public:
    /* A path, which is thrown away where its scope ends undecided. It is in one call at a time, and may go to another thread between two. */
    class path {
        friend class tracer;
        dspec_path path_;
        explicit path(dspec_tracer *of) noexcept : path_(dspec_path_begin(of)) {}

    public:
        path(path &&other) noexcept : path_(std::exchange(other.path_, dspec_path{other.path_.tracer, nullptr, 0, 0, 0, false, 1, 0, 0})) {}
        path &operator=(path &&) = delete;
        ~path() { dspec_path_drop(&path_); }

        /* As dspec_path_put. */
        template <field... Fields> dspec_status record(const event<Fields...> &of, std::type_identity_t<Fields>... values) noexcept {
            using words = detail::packed_from<8, Fields...>;
            return dspec_path_record(&path_, of.get(), words{values...}.words, words::count());
        }
        /* Whether its records are on their way to the folder, and whether none of them is. */
        bool keep() noexcept { return dspec_path_keep(&path_); }
        bool keep(std::uint32_t why) noexcept { return dspec_path_keep_why(&path_, why); }
        bool drop() noexcept { return dspec_path_drop(&path_); }
        /* As dspec_path_park: whether it is parked, or kept already. */
        bool park() noexcept { return dspec_path_park(&path_); }
        /* Ends it by the tracer's rule, as dspec_path_end: whether it is kept. */
        bool end(bool failed, std::chrono::nanoseconds slow = {}) noexcept { return dspec_path_end(&path_, failed, static_cast<std::uint64_t>(slow.count())); }
        /* Whether it has records and isn't decided, and how long ago its first one was. */
        [[nodiscard]] bool is_open() const noexcept { return dspec_path_is_open(&path_); }
        [[nodiscard]] std::chrono::nanoseconds took() const noexcept { return std::chrono::nanoseconds(dspec_path_took(&path_)); }
        /* As dspec_path_adopt and dspec_path_key. */
        bool adopt() noexcept { return dspec_path_adopt(&path_); }
        bool key(std::uint64_t high, std::uint64_t low) noexcept { return dspec_path_key(&path_, high, low); }
    };

    /* A path that ends by the tracer's rule where its scope ends, in each way out of a request; one that an exception leaves counts as failed. */
    class guard : public path {
        int exceptions_ = std::uncaught_exceptions();
        bool failed_ = false;

    public:
        explicit guard(path &&of) noexcept : path(std::move(of)) {}
        guard(guard &&) = delete;
        ~guard() { end(failed_ || std::uncaught_exceptions() > exceptions_); }
        void fail() noexcept { failed_ = true; }
    };

    /* What came of it, and whether all was written. */
    struct ended {
        bool whole;
        dspec_tracer_report report;
    };

    /* By the variable DSPEC_TRACE (dspec_tracer_start_env). */
    struct by_environment {};
    template <typename... Events> explicit tracer(by_environment, const dspec_tracer_options &options, const Events &...events) {
        const dspec_enabling *const all[] = {events.enabling()..., nullptr};
        if (!dspec_tracer_start_env(tracer_.get(), &options, all)) throw tracer_error(tracer_->why);
    }
    template <typename... Events> explicit tracer(const char *folder, const dspec_tracer_options &options, const Events &...events) {
        const dspec_enabling *const all[] = {events.enabling()..., nullptr};
        if (!dspec_tracer_start(tracer_.get(), folder, &options, all)) throw tracer_error(tracer_->why);
    }
    tracer(tracer &&) = delete;
    ~tracer() { dspec_tracer_drop(tracer_.get()); }

    [[nodiscard]] path open() noexcept { return path(tracer_.get()); }

    /* As dspec_tracer_put. */
    template <field... Fields> dspec_status record(const event<Fields...> &of, std::type_identity_t<Fields>... values) noexcept {
        using words = detail::packed_from<8, Fields...>;
        return dspec_tracer_record(tracer_.get(), of.get(), words{values...}.words, words::count());
    }
    /* As dspec_tracer_keep_key: whether the key was taken. */
    bool keep_key(std::uint64_t high, std::uint64_t low) noexcept { return dspec_tracer_keep_key(tracer_.get(), high, low); }
    /* As dspec_tracer_counts, dspec_tracer_switch and dspec_tracer_is_up. */
    [[nodiscard]] dspec_tracer_report counts() noexcept {
        dspec_tracer_report report{};
        dspec_tracer_counts(tracer_.get(), &report);
        return report;
    }
    void turn(bool on) noexcept { dspec_tracer_switch(tracer_.get(), on); }
    template <field... Fields> void turn(event<Fields...> &of, bool on) noexcept { dspec_tracer_switch_event(tracer_.get(), of.get(), on); }
    [[nodiscard]] bool is_up() const noexcept { return dspec_tracer_is_up(tracer_.get()); }
    /* Whether what was kept until now is in the folder, within this time. */
    bool flush(std::chrono::milliseconds most) noexcept { return dspec_tracer_flush(tracer_.get(), static_cast<std::uint32_t>(most.count())); }
    /* Stops it beside whatever its threads do; a second time the same. */
    ended stop() noexcept {
        ended told{};
        told.whole = dspec_tracer_stop(tracer_.get(), &told.report);
        return told;
    }
};

} /* namespace dspec */
#endif

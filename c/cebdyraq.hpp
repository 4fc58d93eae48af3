/* cebdyraq.hpp: cebdyraq.h, cebdyraq_wait.h, cebdyraq_serve.h and cebdyraq_watch.h for C++17, as types that free what they hold.
 *
 * A function does what that of its name does in C, and waits asleep. A code other than CQ_OK is thrown as an `error`. Without exceptions
 * (-fno-exceptions) it ends the program, with a line on the standard error. A `time` is in nanoseconds, and `forever` is no deadline.
 * Each object is used by one thread of the operating system at a time, but for a `watch`. It may be moved, and an object that was moved
 * from may only be destroyed or assigned to.
 *
 * Calls that are posted and collected later are not here. They are made in C with the handle that `get` gives. */
#ifndef CEBDYRAQ_HPP
#define CEBDYRAQ_HPP

#include "cebdyraq_serve.h"
#include "cebdyraq_watch.h"

#include <algorithm>
#include <cerrno>
#include <chrono>
#include <cstddef>
#include <cstdint>
#include <cstdio>
#include <cstdlib>
#include <memory>
#include <mutex>
#include <new>
#include <optional>
#include <stdexcept>
#include <string>
#include <string_view>
#include <system_error>
#include <thread>
#include <utility>
#include <vector>

namespace cebdyraq {

// enums: made from the headers by ci/generate.py. Do not edit.
/* The codes. */
enum class code : std::uint32_t {
    ok = CQ_OK,
    invalid_thread = CQ_INVALID_THREAD,
    thread_not_suspended = CQ_THREAD_NOT_SUSPENDED,
    thread_suspended = CQ_THREAD_SUSPENDED,
    thread_not_alive = CQ_THREAD_NOT_ALIVE,
    invalid_class = CQ_INVALID_CLASS,
    invalid_methodid = CQ_INVALID_METHODID,
    invalid_location = CQ_INVALID_LOCATION,
    no_more_frames = CQ_NO_MORE_FRAMES,
    opaque_frame = CQ_OPAQUE_FRAME,
    duplicate = CQ_DUPLICATE,
    not_found = CQ_NOT_FOUND,
    not_available = CQ_NOT_AVAILABLE,
    must_possess_capability = CQ_MUST_POSSESS_CAPABILITY,
    absent_information = CQ_ABSENT_INFORMATION,
    illegal_argument = CQ_ILLEGAL_ARGUMENT,
    native_method = CQ_NATIVE_METHOD,
    out_of_memory = CQ_OUT_OF_MEMORY,
    overflow = CQ_OVERFLOW,
    no_frame = CQ_NO_FRAME,
    not_java_frame = CQ_NOT_JAVA_FRAME,
    not_running = CQ_NOT_RUNNING,
    not_safe = CQ_NOT_SAFE,
    barred = CQ_BARRED,
    no_native_frame = CQ_NO_NATIVE_FRAME,
    own_spent = CQ_OWN_SPENT,
    calls_spent = CQ_CALLS_SPENT,
    not_new = CQ_NOT_NEW,
    already_stopped = CQ_ALREADY_STOPPED,
    still_running = CQ_STILL_RUNNING,
    timed_out = CQ_TIMED_OUT,
    busy = CQ_BUSY,
    full = CQ_FULL,
    held = CQ_HELD,
    waiting = CQ_WAITING,
    none = CQ_NONE,
    misused = CQ_MISUSED,
    popped = CQ_POPPED,
    system = CQ_SYSTEM
};

/* Why a thread blocks. */
enum class reason : std::uint32_t {
    monitor_enter = CQ_MONITOR_ENTER,
    object_wait = CQ_OBJECT_WAIT,
    timed_wait = CQ_TIMED_WAIT,
    sleep = CQ_SLEEP,
    park = CQ_PARK,
    timed_park = CQ_TIMED_PARK
};

/* What is known of a method's lines. */
enum class lines_kind : std::uint32_t {
    absent = CQ_LINES_ABSENT,
    locations = CQ_LINES_LOCATIONS,
    table = CQ_LINES_TABLE,
    native = CQ_LINES_NATIVE
};
// end of enums

using frame = cq_frame;
using event = cq_event;
using stop = cq_stop;
using time = std::chrono::nanoseconds;
inline constexpr time forever{-1};

/* The name of a code, as in "CQ_BUSY", and when it comes. */
inline const char *name_of(code which) noexcept { return cq_code_name(std::uint32_t(which)); }
inline const char *text_of(code which) noexcept { return cq_code_text(std::uint32_t(which)); }

/* A call was refused. `why` says for which reason, and `what` has its number, its name and its text. */
class error : public std::runtime_error {
public:
    explicit error(code why)
        : std::runtime_error("cebdyraq: " + std::to_string(std::uint32_t(why)) + " " + name_of(why) + ": " + text_of(why)), why_(why) {}
    code why() const noexcept { return why_; }

private:
    code why_;
};

/* Throws, or ends the program if it has no exceptions. */
template <class Error>
[[noreturn]] void refuse(const Error &why) {
#ifdef __cpp_exceptions
    throw why;
#else
    std::fprintf(stderr, "%s\n", why.what());
    std::abort();
#endif
}

inline void check(std::uint32_t got) {
    if (got != CQ_OK) refuse(error(code(got)));
}

/* A destructor tells of no refusal. */
inline void ignore(std::uint32_t) noexcept {}

/* Where compiled code looks before it polls: somebody calls for the thread while one of these bits of the word is set. */
struct poll_word {
    const std::uint64_t *word;
    std::uint64_t mask;
};

/* What is told of a thread (GetThreadInfo). */
struct thread_info {
    std::string name;
    std::int32_t priority;
};

/* What a trace of several threads tells of one. The frames are newest first. */
struct stack_info {
    std::uint32_t thread;
    std::uint32_t state;
    std::vector<frame> frames;
};

/* What came of a call that was cancelled: its code, and its answer if that is `ok`. */
struct cancelled_call {
    code got;
    cq_answer answer;
    std::vector<frame> frames;
};

using line_entry = cq_line_entry;

/* A method of a class that is defined. `entries` are those of a table. */
struct method_info {
    std::string name;
    std::string signature;
    std::uint32_t first_line = 0;
    lines_kind kind = lines_kind::absent;
    std::vector<line_entry> entries;
};

/* The numbers of a class that was defined. */
struct defined {
    std::uint32_t class_no;
    std::uint32_t first_method;
};

/* What is told of a method's name (GetMethodName). */
struct method_name {
    std::string name;
    std::string signature;
    std::uint32_t first_line;
};

/* What is told of a method's lines (GetLineNumberTable). */
struct line_table {
    lines_kind kind;
    std::vector<line_entry> entries;
};

/* Calls again as long as what it needs is in use. */
template <class Call>
void settle(Call call) {
    std::uint32_t got = call();
    for (; got == CQ_BUSY; got = call()) std::this_thread::yield();
    check(got);
}

/* The texts, methods and line entries of a class, as cq_define_class takes them. None of the lists is empty. */
class class_parts {
public:
    class_parts(std::string_view signature, std::string_view source_file, const std::vector<method_info> &methods)
        : ranges_{put(signature), put(source_file)}, count_(methods.size()) {
        for (const method_info &method : methods) {
            cq_range name = put(method.name), type = put(method.signature);
            cq_range lines{entries_.size(), method.entries.size()};
            entries_.insert(entries_.end(), method.entries.begin(), method.entries.end());
            methods_.push_back({name, type, lines, std::uint32_t(method.kind), method.first_line});
        }
        text_.push_back(0);
        methods_.push_back({});
        entries_.push_back({});
    }

    std::uint32_t define(cq_service *service, defined &made) const {
        return cq_define_class(service, text_.data(), text_.size() - 1, &ranges_, methods_.data(), count_, entries_.data(),
                               entries_.size() - 1, &made.class_no, &made.first_method);
    }

private:
    cq_range put(std::string_view text) {
        cq_range range{text_.size(), text.size()};
        text_.insert(text_.end(), text.begin(), text.end());
        return range;
    }

    std::vector<std::uint8_t> text_;
    std::vector<cq_method_ranges> methods_;
    std::vector<line_entry> entries_;
    cq_class_ranges ranges_;
    std::size_t count_;
};

/* What the objects of a service have in common: the signal, and the environments that could not be disposed of when they were destroyed.
 * These are disposed of once no call of theirs is out any more, with the last of the objects at the latest. */
class common {
public:
    common() { left_.reserve(most_environments); }
    common(const common &) = delete;
    common &operator=(const common &) = delete;
    ~common() { dispose_of_left(); }

    cq_signal *signal() noexcept { return &signal_; }
    void leave(std::unique_ptr<cq_env> environment) noexcept {
        std::lock_guard<std::mutex> alone(lock_);
        left_.push_back(std::move(environment));
    }
    void dispose_of_left() noexcept {
        std::lock_guard<std::mutex> alone(lock_);
        auto is_gone = [this](const auto &one) { return cq_wait_dispose_environment_within(one.get(), signal(), 0) == CQ_OK; };
        left_.erase(std::remove_if(left_.begin(), left_.end(), is_gone), left_.end());
    }

private:
    static constexpr std::size_t most_environments = 32;  /* of a service at once */
    cq_signal signal_{};
    std::mutex lock_;
    std::vector<std::unique_ptr<cq_env>> left_;
};

/* A handle, which stays where it is, and what it has in common with the others of its service. */
template <class Handle>
class holder {
public:
    Handle *get() const noexcept { return handle_.get(); }
    cq_signal *signal() const noexcept { return shared_->signal(); }

protected:
    explicit holder(std::shared_ptr<common> shared) : handle_(std::make_unique<Handle>()), shared_(std::move(shared)) {}
    holder(holder &&) noexcept = default;
    holder &operator=(holder &&other) noexcept {
        std::swap(handle_, other.handle_);
        std::swap(shared_, other.shared_);
        return *this;
    }
    ~holder() = default;
    std::unique_ptr<Handle> take() noexcept { return std::move(handle_); }
    std::shared_ptr<common> shared() const { return shared_; }

private:
    std::unique_ptr<Handle> handle_;
    std::shared_ptr<common> shared_;
};

/* What tells which threads are wanted, by their numbers, for a runtime whose threads do not poll by themselves. Several threads may use it
 * at once. It is closed when it is destroyed, and nobody sleeps in it then. */
class watch {
public:
    watch() : handle_(std::make_unique<cq_watch>()) { check(cq_open_watch(get())); }
    watch(watch &&) noexcept = default;
    watch &operator=(watch &&other) noexcept {
        std::swap(handle_, other.handle_);
        return *this;
    }
    ~watch() {
        if (get() != nullptr) cq_close_watch(get());
    }

    cq_watch *get() const noexcept { return handle_.get(); }

    /* From now on it also tells, under CQ_ALL_THREADS, that the stops of the service have changed, and no other watch does. */
    void watch_stops(const holder<cq_service> &of) {
        settle([&] { return cq_watch_stops(of.get(), get()); });
    }

    /* Those that have become wanted and were not told, at most so many. Once there is none, `fd` is readable when there is one. */
    std::vector<std::uint32_t> next_wanted(std::size_t most = 64) {
        return told(most, [this](auto *to, auto room, auto *count) { return cq_next_wanted(get(), to, room, count); });
    }
    /* The same, asleep until there is one. `code::timed_out` is thrown when the time is over. */
    std::vector<std::uint32_t> wait_next_wanted(time within = forever, std::size_t most = 64) {
        return told(most, [&](auto *to, auto room, auto *count) { return cq_wait_next_wanted(get(), within.count(), to, room, count); });
    }

    /* A file descriptor for an event loop, which the watch closes. Throws std::system_error if the operating system refuses it. */
    int fd() {
        std::int32_t found = -1;
        std::uint32_t got = cq_watch_fd(get(), &found);
        if (got == CQ_SYSTEM) refuse(std::system_error(errno, std::generic_category(), "eventfd"));
        check(got);
        return found;
    }

private:
    template <class Call>
    static std::vector<std::uint32_t> told(std::size_t most, Call call) {
        std::vector<std::uint32_t> threads(most);
        std::uint64_t count = 0;
        std::uint32_t got = call(threads.data(), threads.size(), &count);
        if (got != CQ_NONE) check(got);
        threads.resize(count);
        return threads;
    }
    std::unique_ptr<cq_watch> handle_;
};

/* A thread of the runtime. When it is destroyed it returns, ends and is given back. So its destructor waits while the thread is
 * suspended. */
class thread : public holder<cq_thread> {
public:
    thread(thread &&) noexcept = default;
    thread &operator=(thread &&) noexcept = default;
    ~thread() {
        if (get() == nullptr) return;
        ignore(cq_wait_back(get(), signal(), -1));
        ignore(cq_wait_end(get(), signal()));
        ignore(cq_wait_detach_thread(get(), signal()));
        shared()->dispose_of_left();
    }

    std::uint32_t number() const {
        std::uint32_t found = 0;
        check(cq_thread_number(get(), &found));
        return found;
    }

    void start(time within = forever) { check(cq_wait_start(get(), signal(), within.count())); }
    void enter(std::uint32_t method) { check(cq_enter(get(), method)); }
    void enter_native(std::uint32_t method) { check(cq_enter_native(get(), method)); }
    void at(std::uint32_t location) { check(cq_at(get(), location)); }
    void leave() { check(cq_leave(get())); }
    void set_frames(const std::vector<frame> &frames) {
        const frame none{};
        check(cq_set_frames(get(), frames.empty() ? &none : frames.data(), frames.size()));
    }
    // Gives how many of the frames were kept: the newest ones.
    std::uint64_t set_newest_frames(const std::vector<frame> &frames) {
        const frame none{};
        std::uint64_t kept = 0;
        check(cq_set_newest_frames(get(), frames.empty() ? &none : frames.data(), frames.size(), &kept));
        return kept;
    }
    std::uint64_t frame_count() const {
        std::uint64_t count = 0;
        check(cq_frame_count(get(), &count));
        return count;
    }
    std::uint64_t take_pops() {
        std::uint64_t count = 0;
        check(cq_take_pops(get(), &count));
        return count;
    }

    bool poll_clear() const { return cq_poll_clear(get()); }
    cebdyraq::poll_word poll_word() const {
        cebdyraq::poll_word at{};
        check(cq_poll_word(get(), &at.word, &at.mask));
        return at;
    }
    void poll() { check(cq_wait_poll(get(), signal())); }
    // From now on `by` tells when the thread is wanted, and no other watch does.
    void watch(cebdyraq::watch &by) {
        settle([&] { return cq_watch_thread(get(), by.get()); });
    }
    void unwatch() {
        settle([&] { return cq_unwatch_thread(get()); });
    }
    void end() { check(cq_wait_end(get(), signal())); }

    bool may_stop() const { return cq_may_stop(get()); }
    std::uint64_t stops_version() const { return cq_stops_version(get()); }
    bool may_stop_in(std::uint32_t first, std::uint32_t count) {
        bool may = false;
        settle([&] { return cq_may_stop_in(get(), first, count, &may); });
        return may;
    }
    bool reached(std::uint32_t method, std::uint32_t location) {
        bool stops = false;
        check(cq_wait_reached(get(), signal(), method, location, &stops));
        return stops;
    }
    bool leaves(std::uint32_t method, std::uint32_t location, std::uint32_t frames) {
        bool stops = false;
        check(cq_wait_leaves(get(), signal(), method, location, frames, &stops));
        return stops;
    }
    void stop() { check(cq_wait_stop(get(), signal())); }

    /* The thread is in native code, or blocked, as long as this lives. Its destructor returns, and waits while the thread is
     * suspended. The thread may be moved meanwhile, and is destroyed later. */
    class away {
    public:
        away(const away &) = delete;
        away &operator=(const away &) = delete;
        ~away() { ignore(cq_wait_back(handle_, signal_, -1)); }

    private:
        friend class thread;
        explicit away(const thread &gone) : handle_(gone.get()), signal_(gone.signal()) {}
        cq_thread *handle_;
        cq_signal *signal_;
    };
    [[nodiscard]] away native() {
        check(cq_wait_native(get(), signal()));
        return away(*this);
    }
    [[nodiscard]] away block(reason why) {
        check(cq_wait_block(get(), signal(), std::uint32_t(why)));
        return away(*this);
    }

private:
    friend class service;
    using holder::holder;
};

/* An agent's environment. When it is destroyed, it is disposed of. A thread that it suspended stays suspended.
 *
 * A suspension or a pop whose time was over keeps an environment until its thread hands over or ends. The destructor waits for that for a
 * tenth of a second. Then the environment is left over: it takes its place among those of the service until it can be disposed of. Such a
 * suspension may yet suspend its thread, so take it back before, by ensure_resumed. */
class environment : public holder<cq_env> {
public:
    environment(environment &&) noexcept = default;
    environment &operator=(environment &&) noexcept = default;
    ~environment() {
        if (get() == nullptr) return;
        std::uint32_t got = cq_wait_dispose_environment_within(get(), signal(), destructors_time.count());
        if (got != CQ_OK && got != CQ_MISUSED) shared()->leave(take());
    }

    /* Disposes of the environment, which can only be destroyed or assigned to then. If it throws, the environment stays. */
    void dispose_within(time within) { check(cq_wait_dispose_environment_within(get(), signal(), within.count())); }
    /* The same by another than its user, who is lost: what it gathers is ended first. */
    void end_environment(time within = forever) { check(cq_wait_end_environment(get(), signal(), within.count())); }

    void meet() { check(cq_wait_meet(get(), signal())); }
    bool has_news() const { return cq_has_news(get()); }
    bool let_go(std::uint32_t thread) {
        bool gone = false;
        check(cq_wait_let_go(get(), signal(), thread, &gone));
        return gone;
    }

    void let_go_of_all() { check(cq_wait_let_go_of_all(get(), signal())); }

    std::vector<std::uint32_t> get_all_threads() {
        std::vector<std::uint32_t> threads(64);
        for (std::uint64_t count = 0;;) {
            check(cq_wait_get_all_threads(get(), signal(), threads.data(), threads.size(), &count));
            bool all = count <= threads.size();
            threads.resize(count);
            if (all) return threads;
        }
    }

    thread_info get_thread_info(std::uint32_t thread) {
        std::vector<std::uint8_t> name(64);
        for (cq_thread_info info{};;) {
            check(cq_wait_get_thread_info(get(), signal(), thread, &info, name.data(), name.size()));
            bool all = info.name_length <= name.size();
            name.resize(info.name_length);
            if (all) return {std::string(name.begin(), name.end()), info.priority};
        }
    }

    std::uint32_t get_thread_state(std::uint32_t thread, time within = forever) {
        std::uint32_t state = 0;
        check(cq_wait_get_thread_state(get(), signal(), thread, within.count(), &state));
        return state;
    }

    std::uint32_t get_frame_count(std::uint32_t thread, time within = forever) {
        std::uint32_t count = 0;
        check(cq_wait_get_frame_count(get(), signal(), thread, within.count(), &count));
        return count;
    }

    frame get_frame_location(std::uint32_t thread, std::int32_t depth, time within = forever) {
        frame found{};
        check(cq_wait_get_frame_location(get(), signal(), thread, depth, within.count(), &found));
        return found;
    }

    /* At most `max_count` frames, newest first. A stack has 65,536 frames at most. */
    std::vector<frame> get_stack_trace(std::uint32_t thread, std::int32_t start, std::int32_t max_count,
                                       time within = forever) {
        std::vector<frame> frames(std::size_t(std::clamp(max_count, 1, 65536)));
        std::uint32_t count = 0;
        check(cq_wait_get_stack_trace(get(), signal(), thread, start, max_count, within.count(), frames.data(), frames.size(),
                                      &count));
        frames.resize(count);
        return frames;
    }

    std::vector<stack_info> get_all_stack_traces(std::int32_t max_count, time within = forever) {
        std::uint64_t count = 0;
        check(cq_wait_get_all_stack_traces(get(), signal(), max_count, within.count(), &count));
        return gathered(count);
    }

    std::vector<stack_info> get_thread_list_stack_traces(const std::vector<std::uint32_t> &threads, std::int32_t max_count,
                                                         time within = forever) {
        std::uint64_t count = 0;
        check(cq_wait_get_thread_list_stack_traces(get(), signal(), data(threads), threads.size(), max_count, within.count(),
                                                   &count));
        return gathered(count);
    }

    void suspend_thread(std::uint32_t thread, time within = forever) {
        check(cq_wait_suspend_thread(get(), signal(), thread, within.count()));
    }
    void resume_thread(std::uint32_t thread, time within = forever) {
        check(cq_wait_resume_thread(get(), signal(), thread, within.count()));
    }

    /* Takes back what suspensions did to the thread, or would still do, also those whose time was over. */
    void ensure_resumed(std::uint32_t thread, time within = forever) {
        check(cq_wait_ensure_resumed(get(), signal(), thread, within.count()));
    }

    /* What came of the call that was cancelled first at the thread, as a call is whose time was over. None if no such call is out. Of a
     * trace it gives the newest `max_count` frames. */
    std::optional<cancelled_call> collect_cancelled(std::uint32_t thread, std::size_t max_count = 0, time within = forever) {
        std::vector<frame> frames(max_count + 1);
        cq_answer answer{};
        std::uint32_t got =
            cq_wait_collect_cancelled(get(), signal(), thread, within.count(), &answer, frames.data(), max_count);
        if (got == CQ_NONE) return std::nullopt;
        if (got == CQ_TIMED_OUT || got == CQ_MISUSED) check(got);
        frames.resize(got == CQ_OK ? std::size_t(std::min<std::uint64_t>(max_count, answer.number)) : 0);
        return cancelled_call{code(got), answer, std::move(frames)};
    }

    /* A code for each thread of the list. */
    std::vector<code> suspend_thread_list(const std::vector<std::uint32_t> &threads, time within = forever) {
        return each(cq_wait_suspend_thread_list, threads, within);
    }
    std::vector<code> resume_thread_list(const std::vector<std::uint32_t> &threads, time within = forever) {
        return each(cq_wait_resume_thread_list, threads, within);
    }

    void pop_frame(std::uint32_t thread, time within = forever) {
        check(cq_wait_pop_frame(get(), signal(), thread, within.count()));
    }

    std::uint64_t get_thread_local_storage(std::uint32_t thread, time within = forever) {
        std::uint64_t word = 0;
        check(cq_wait_get_thread_local_storage(get(), signal(), thread, within.count(), &word));
        return word;
    }
    void set_thread_local_storage(std::uint32_t thread, std::uint64_t word, time within = forever) {
        check(cq_wait_set_thread_local_storage(get(), signal(), thread, word, within.count()));
    }

    /* The number of the environment whose trace has stopped the thread, if one has. */
    std::optional<std::uint32_t> stopper(std::uint32_t thread) const {
        std::uint32_t found = 0;
        bool is_stopped = false;
        settle([&] {
            std::uint32_t got = cq_stopper(get(), thread, &found);
            is_stopped = got == CQ_OK;
            return got == CQ_NONE ? std::uint32_t(CQ_OK) : got;
        });
        return is_stopped ? std::optional<std::uint32_t>(found) : std::nullopt;
    }
    std::uint32_t number() const {
        std::uint32_t found = 0;
        check(cq_environment_number(get(), &found));
        return found;
    }

    void add_capabilities(std::uint32_t capabilities) { check(cq_add_capabilities(get(), capabilities)); }
    void relinquish_capabilities(std::uint32_t capabilities) { check(cq_relinquish_capabilities(get(), capabilities)); }
    std::uint32_t get_capabilities() const {
        std::uint32_t found = 0;
        check(cq_get_capabilities(get(), &found));
        return found;
    }
    std::uint32_t get_potential_capabilities() const {
        std::uint32_t found = 0;
        check(cq_get_potential_capabilities(get(), &found));
        return found;
    }

    std::uint64_t get_environment_local_storage() const {
        std::uint64_t word = 0;
        check(cq_get_environment_local_storage(get(), &word));
        return word;
    }
    void set_environment_local_storage(std::uint64_t word) { check(cq_set_environment_local_storage(get(), word)); }

    /* `kind` is from CQ_THREAD_START to CQ_THREAD_DETACHED. */
    void set_event_notification_mode(std::uint32_t kind, bool enabled) {
        check(cq_wait_set_event_notification_mode(get(), signal(), enabled, kind));
    }
    event next_event(time within = forever) {
        event next{};
        check(cq_wait_next_event(get(), signal(), within.count(), &next));
        return next;
    }

    void set_breakpoint(std::uint32_t method, std::uint32_t location) {
        ask([&] { return cq_set_breakpoint(get(), method, location); });
    }
    void clear_breakpoint(std::uint32_t method, std::uint32_t location) {
        ask([&] { return cq_clear_breakpoint(get(), method, location); });
    }
    void set_stop_notification_mode(bool enabled, std::uint32_t kind, std::uint32_t thread = CQ_ALL_THREADS) {
        ask([&] { return cq_set_stop_notification_mode(get(), enabled, kind, thread); });
    }
    void notify_frame_pop(std::uint32_t thread, std::uint32_t frames) {
        ask([&] { return cq_notify_frame_pop(get(), thread, frames); });
    }
    stop next_stop(time within = forever) {
        stop next{};
        check(cq_wait_next_stop(get(), signal(), within.count(), &next));
        return next;
    }
    void end_stop(std::uint32_t thread) { check(cq_wait_end_stop(get(), signal(), thread)); }

    std::vector<std::uint32_t> get_loaded_classes() { return whole<std::uint32_t>(cq_get_loaded_classes); }
    std::string get_class_signature(std::uint32_t class_no) {
        return text(whole<std::uint8_t>(cq_get_class_signature, class_no));
    }
    std::string get_source_file_name(std::uint32_t class_no) {
        return text(whole<std::uint8_t>(cq_get_source_file_name, class_no));
    }
    std::vector<std::uint32_t> get_class_methods(std::uint32_t class_no) {
        return whole<std::uint32_t>(cq_get_class_methods, class_no);
    }

    method_name get_method_name(std::uint32_t method) {
        std::vector<std::uint8_t> name(64), signature(64);
        for (cq_method_name info{};;) {
            settle([&] {
                return cq_get_method_name(get(), method, &info, name.data(), name.size(), signature.data(), signature.size());
            });
            bool all = info.name_length <= name.size() && info.signature_length <= signature.size();
            if (all) {
                name.resize(info.name_length);
                signature.resize(info.signature_length);
                return {text(name), text(signature), info.first_line};
            }
            name.resize(std::max<std::size_t>(name.size(), info.name_length));
            signature.resize(std::max<std::size_t>(signature.size(), info.signature_length));
        }
    }

    std::uint32_t get_method_declaring_class(std::uint32_t method) {
        std::uint32_t class_no = 0;
        settle([&] { return cq_get_method_declaring_class(get(), method, &class_no); });
        return class_no;
    }
    bool is_method_native(std::uint32_t method) {
        bool native = false;
        settle([&] { return cq_is_method_native(get(), method, &native); });
        return native;
    }
    line_table get_line_number_table(std::uint32_t method) {
        std::uint32_t kind = 0;
        auto entries = whole<line_entry>(cq_get_line_number_table, method, &kind);
        return {lines_kind(kind), std::move(entries)};
    }

private:
    friend class service;
    using holder::holder;
    static constexpr time destructors_time{100000000};

    /* Asks for stops, or for fewer. Environments that wait for news go on. */
    template <class Call>
    void ask(Call call) {
        settle(call);
        cq_wake(signal());
    }

    /* Asks with more room until all is there. */
    template <class Item, class Call, class... Arguments>
    std::vector<Item> whole(Call *call, Arguments... arguments) {
        std::vector<Item> items(64);
        for (std::uint64_t count = 0;;) {
            settle([&] { return call(get(), arguments..., items.data(), items.size(), &count); });
            bool all = count <= items.size();
            items.resize(count);
            if (all) return items;
        }
    }

    static std::string text(const std::vector<std::uint8_t> &bytes) { return {bytes.begin(), bytes.end()}; }

    static const std::uint32_t *data(const std::vector<std::uint32_t> &threads) {
        static const std::uint32_t none = 0;
        return threads.empty() ? &none : threads.data();
    }

    std::vector<code> each(decltype(cq_wait_suspend_thread_list) *call, const std::vector<std::uint32_t> &threads,
                           time within) {
        std::vector<std::uint32_t> codes(threads.size() + 1);
        check(call(get(), signal(), data(threads), threads.size(), within.count(), codes.data()));
        codes.pop_back();
        std::vector<code> told;
        for (std::uint32_t one : codes) told.push_back(code(one));
        return told;
    }

    std::vector<stack_info> gathered(std::uint64_t count) {
        std::vector<stack_info> stacks;
        for (std::uint64_t index = 0; index < count; index++) {
            cq_stack_info info{};
            std::vector<frame> frames(1);
            check(cq_gathered_stack(get(), index, &info, frames.data(), 0));
            frames.resize(info.frame_count + 1);
            check(cq_gathered_stack(get(), index, &info, frames.data(), info.frame_count));
            frames.pop_back();
            stacks.push_back({info.thread, info.state, std::move(frames)});
        }
        return stacks;
    }
};

/* An answer about variables that is put together (cq_teller). A function is false if there is no room: then this is left out. */
class teller {
public:
    explicit teller(cq_teller *at) noexcept : at_(at) {}

    /* For variables::of_method. */
    bool variable(std::string_view name, std::uint32_t slot, std::uint32_t first, std::uint32_t count) {
        return has_room(cq_tell_variable(at_, bytes(name), name.size(), slot, first, count));
    }

    /* For variables::of_frame. Entries are those of the table that was told last. */
    bool nil(std::uint32_t slot) { return has_room(cq_tell_nil(at_, slot)); }
    bool boolean(std::uint32_t slot, bool value) { return has_room(cq_tell_boolean(at_, slot, value)); }
    bool integer(std::uint32_t slot, std::int64_t value) { return has_room(cq_tell_integer(at_, slot, value)); }
    bool number(std::uint32_t slot, double value) { return has_room(cq_tell_number(at_, slot, value)); }
    bool text(std::uint32_t slot, std::string_view value) { return has_room(cq_tell_text(at_, slot, bytes(value), value.size())); }
    bool table(std::uint32_t slot) { return has_room(cq_tell_table(at_, slot)); }
    bool entry(std::string_view value) { return has_room(cq_tell_entry(at_, bytes(value), value.size())); }

private:
    static const std::uint8_t *bytes(std::string_view text) noexcept { return reinterpret_cast<const std::uint8_t *>(text.data()); }
    static bool has_room(std::uint32_t got) {
        if (got != CQ_FULL) check(got);
        return got == CQ_OK;
    }

    cq_teller *at_;
};

/* The variables of a runtime (cq_variables). The functions are called on the server's thread, while it serves. If one throws an `error`,
 * its code is returned; any other exception is told as out_of_memory or absent_information. */
class variables {
public:
    virtual ~variables() = default;
    virtual void of_method(std::uint32_t method, teller &to) = 0;
    virtual void of_frame(std::uint32_t thread, std::uint32_t depth, teller &to) = 0;

    /* They live at least as long as what uses the functions. */
    cq_variables functions() noexcept { return {this, call_of_method, call_of_frame}; }

private:
    template <class Tell>
    static std::uint32_t code_of(cq_teller *at, Tell tell) noexcept {
        teller to(at);
#ifdef __cpp_exceptions
        try {
            tell(to);
        } catch (const error &refused) {
            return std::uint32_t(refused.why());
        } catch (const std::bad_alloc &) {
            return CQ_OUT_OF_MEMORY;
        } catch (...) {
            return CQ_ABSENT_INFORMATION;
        }
#else
        tell(to);
#endif
        return CQ_OK;
    }
    static std::uint32_t call_of_method(void *self, std::uint32_t method, cq_teller *at) noexcept {
        return code_of(at, [&](teller &to) { static_cast<variables *>(self)->of_method(method, to); });
    }
    static std::uint32_t call_of_frame(void *self, std::uint32_t thread, std::uint32_t depth, cq_teller *at) noexcept {
        return code_of(at, [&](teller &to) { static_cast<variables *>(self)->of_frame(thread, depth, to); });
    }
};

/* What serves a service over HTTP, or listens for debuggers, until it is destroyed. */
class server : public holder<cq_server> {
public:
    server(server &&) noexcept = default;
    server &operator=(server &&other) noexcept {
        holder::operator=(std::move(other));
        std::swap(variables_, other.variables_);
        return *this;
    }
    ~server() {
        if (get() != nullptr) cq_serve_end(get());
    }

    /* The port at which it listens, or 0 at a Unix socket. */
    std::uint16_t port() const {
        std::uint16_t number = 0;
        check(cq_server_port(get(), &number));
        return number;
    }

    /* Sleeps until a debugger has resumed a thread. Threads that wait for their first debugger call it while they block, before
     * their first step. */
    void await_resumption() { check(cq_server_await_resumption(get())); }

    /* Tells the debugger of the classes that were defined before. A thread that has defined one calls it while it blocks, before it
     * runs a method of the class. It comes back once the debugger, which may set breakpoints there, has resumed it. Without a debugger
     * it returns at once. */
    void tell_classes() { check(cq_server_tell_classes(get())); }

private:
    friend class service;
    using holder::holder;
    std::shared_ptr<variables> variables_;  /* which it tells, if there are some */
};

/* What debuggers may do beside reading stacks, suspensions, breakpoints and steps. */
struct debug_options {
    std::shared_ptr<variables> told = nullptr;  /* they are told these variables */
    bool pops_frames = false;                   /* they may pop frames: threads go on without those that were popped */
    bool starts_suspended = false;              /* the first of them finds all threads suspended (server::await_resumption) */
};

/* A handle of a service. The service lives as long as one of its handles, threads or environments. */
class service : public holder<cq_service> {
public:
    /* Environments can have these capabilities (cq_make). Throws std::runtime_error if the library does not fit the header
     * (cq_version_fits). */
    service(std::uint32_t depth, std::uint32_t envs, std::uint32_t window,
            std::uint32_t capabilities = CQ_CAN_SUSPEND | CQ_CAN_POP_FRAME)
        : holder(std::make_shared<common>()) {
        if (!cq_version_fits()) {
            refuse(std::runtime_error("libcebdyraq has the version " + std::to_string(cq_version()) +
                                      ", which does not fit the header"));
        }
        check(cq_make(depth, envs, window, capabilities, get()));
    }
    service(service &&) noexcept = default;
    service &operator=(service &&) noexcept = default;
    ~service() {
        if (get() != nullptr) cq_free(get());
    }

    service share() {
        service other(shared());
        check(cq_share(get(), other.get()));
        return other;
    }

    thread attach_thread(std::string_view name, std::int32_t priority) {
        thread made(shared());
        std::vector<std::uint8_t> bytes(name.begin(), name.end());
        bytes.push_back(0);
        check(cq_wait_attach_thread(get(), signal(), bytes.data(), name.size(), priority, made.get()));
        return made;
    }

    environment attach_environment() {
        shared()->dispose_of_left();
        environment made(shared());
        check(cq_wait_attach_environment(get(), signal(), made.get()));
        return made;
    }

    /* Serves profiles, stacks and counters at an address, as cq_serve does. Throws std::system_error if the operating system
     * refuses it. */
    server serve(const std::string &address, const std::string &program) {
        return served(address, [&](server &made) {
            return cq_serve(made.get(), get(), signal(), address.c_str(), program.c_str());
        });
    }

    /* Listens for debuggers at an address, as cq_debug_listen does. It throws as `serve` does. */
    server debug_listen(const std::string &address, const std::string &program, const std::string &path,
                        debug_options options = {}) {
        return served(address, [&](server &made) {
            made.variables_ = std::move(options.told);
            if (made.variables_) {
                cq_variables functions = made.variables_->functions();
                check(cq_server_variables(made.get(), &functions));
            }
            check(cq_server_pops_frames(made.get(), options.pops_frames));
            check(cq_server_starts_suspended(made.get(), options.starts_suspended));
            return cq_debug_listen(made.get(), get(), signal(), address.c_str(), program.c_str(), path.c_str());
        });
    }

    /* An empty name of a source file is none. Callers that wait for CQ_CLASS_PREPARE are woken. */
    defined define_class(std::string_view signature, std::string_view source_file, const std::vector<method_info> &methods) {
        class_parts parts(signature, source_file, methods);
        defined made{};
        settle([&] { return parts.define(get(), made); });
        cq_wake(signal());
        return made;
    }

private:
    using holder::holder;

    template <class Begin>
    server served(const std::string &address, Begin begin) {
        server made(shared());
        std::uint32_t got = begin(made);
        if (got == CQ_SYSTEM) refuse(std::system_error(errno, std::generic_category(), address));
        check(got);
        return made;
    }
};

}  // namespace cebdyraq

#endif

// types.cpp: the types of cebdyraq.hpp, with a thread of the operating system for the runtime's thread.
#include <cebdyraq.hpp>

#include <netinet/in.h>
#include <poll.h>
#include <sys/socket.h>
#include <unistd.h>

#include <atomic>
#include <cstdio>
#include <thread>

namespace {

int failures = 0;

void expect(bool holds, const char *what, int line) {
    if (holds) return;
    failures++;
    std::fprintf(stderr, "line %d: not so: %s\n", line, what);
}
#define EXPECT(...) expect((__VA_ARGS__), #__VA_ARGS__, __LINE__)

template <class Call>
cebdyraq::code refused(Call call) {
    try {
        call();
    } catch (const cebdyraq::error &error) {
        return error.why();
    }
    return cebdyraq::code::ok;
}

bool same(const std::vector<cebdyraq::frame> &found, const std::vector<cebdyraq::frame> &wanted) {
    if (found.size() != wanted.size()) return false;
    for (std::size_t i = 0; i < found.size(); i++) {
        if (found[i].method != wanted[i].method || found[i].location != wanted[i].location) return false;
    }
    return true;
}

/* Polls on a thread of its own as long as this lives. */
class polling {
public:
    explicit polling(cebdyraq::thread &running) : runner_([this, &running] {
        while (!over_) {
            running.poll();
            std::this_thread::yield();
        }
    }) {}
    ~polling() {
        over_ = true;
        runner_.join();
    }

private:
    std::atomic<bool> over_{false};
    std::thread runner_;
};

void test_stacks() {
    cebdyraq::service service(8, 2, 4);
    auto thread = service.attach_thread("w\xC3\xB6rker", 7);
    auto env = service.attach_environment();
    thread.start();
    thread.enter(1);
    thread.at(17);
    thread.enter(2);
    env.meet();
    EXPECT(thread.number() == 0 && env.get_all_threads() == std::vector<std::uint32_t>{0});
    EXPECT(env.get_thread_info(0).name == "w\xC3\xB6rker" && env.get_thread_info(0).priority == 7);
    {
        polling runner(thread);
        EXPECT(env.get_thread_state(0) == 0x5);
        EXPECT(env.get_frame_count(0) == 2);
        EXPECT(env.get_frame_location(0, 1).location == 17);
        EXPECT(same(env.get_stack_trace(0, 0, 8), {{2, 0}, {1, 17}}));
        EXPECT(same(env.get_stack_trace(0, -1, 8), {{1, 17}}));
        auto all = env.get_all_stack_traces(1);
        EXPECT(all.size() == 1 && all[0].thread == 0 && all[0].state == 0x5 && same(all[0].frames, {{2, 0}}));
        auto twice = env.get_thread_list_stack_traces({0, 0}, 8);
        EXPECT(twice.size() == 2 && same(twice[1].frames, {{2, 0}, {1, 17}}));
        EXPECT(env.get_thread_list_stack_traces({}, 8).empty());
        EXPECT(refused([&] { env.get_frame_count(1); }) == cebdyraq::code::invalid_thread);
        EXPECT(refused([&] { env.get_stack_trace(0, 0, -1); }) == cebdyraq::code::illegal_argument);
    }
    EXPECT(refused([&] { env.get_frame_count(0, std::chrono::milliseconds(1)); }) == cebdyraq::code::timed_out);
    const auto at = thread.poll_word();
    EXPECT(!thread.poll_clear() && (*at.word & at.mask) != 0);
    thread.set_frames({});
    thread.poll();
    EXPECT(thread.poll_clear() && (*at.word & at.mask) == 0);
}

void test_blocks() {
    cebdyraq::service service(8, 1, 4);
    auto thread = service.attach_thread("", 5);
    auto env = service.attach_environment();
    thread.start();
    env.meet();
    EXPECT(refused([&] { auto away = thread.native(); }) == cebdyraq::code::no_native_frame);
    {
        auto away = thread.block(cebdyraq::reason::sleep);
        EXPECT(env.get_thread_state(0) == 0xE1);
        EXPECT(env.get_stack_trace(0, 0, 8).empty());
    }
    EXPECT(env.get_thread_state(0) == 0x5);
    thread.set_frames({{4, -1}, {3, 9}});
    auto away = thread.native();
    EXPECT(env.get_thread_state(0) == 0x400005);
    EXPECT(same(env.get_stack_trace(0, 0, 8), {{4, -1}, {3, 9}}));
}

void test_suspensions() {
    cebdyraq::service service(8, 1, 4);
    auto thread = service.attach_thread("", 5);
    auto env = service.attach_environment();
    thread.start();
    thread.set_frames({{2, 0}, {1, 17}});
    env.meet();
    EXPECT(refused([&] { env.suspend_thread(0); }) == cebdyraq::code::must_possess_capability);
    EXPECT(env.get_potential_capabilities() == 3 && env.get_capabilities() == 0);
    env.add_capabilities(CQ_CAN_SUSPEND | CQ_CAN_POP_FRAME);
    polling runner(thread);
    EXPECT(env.suspend_thread_list({0, 0, 7}) == std::vector<cebdyraq::code>{cebdyraq::code::ok, cebdyraq::code::thread_suspended, cebdyraq::code::invalid_thread});
    EXPECT(env.get_thread_state(0) == 0x100005);
    env.pop_frame(0);
    EXPECT(same(env.get_stack_trace(0, 0, 8), {{1, 17}}));
    EXPECT(env.resume_thread_list({0}) == std::vector<cebdyraq::code>{cebdyraq::code::ok});
    EXPECT(refused([&] { env.resume_thread(0); }) == cebdyraq::code::thread_not_suspended);
    env.relinquish_capabilities(CQ_CAN_POP_FRAME);
    EXPECT(env.get_capabilities() == CQ_CAN_SUSPEND);
}

void test_pops() {
    cebdyraq::service service(8, 1, 4);
    auto thread = service.attach_thread("", 5);
    auto env = service.attach_environment();
    thread.start();
    thread.set_frames({{3, 30}, {2, 20}, {1, 10}});
    env.meet();
    env.add_capabilities(CQ_CAN_SUSPEND | CQ_CAN_POP_FRAME);
    {
        auto away = thread.block(cebdyraq::reason::sleep);
        env.suspend_thread(0);
        env.pop_frame(0);
        env.pop_frame(0);
        EXPECT(same(env.get_stack_trace(0, 0, 8), {{1, 10}}));
        env.resume_thread(0);
        EXPECT(refused([&] { thread.frame_count(); }) == cebdyraq::code::not_running);
    }
    EXPECT(refused([&] { thread.set_frames({{3, 30}, {2, 20}, {1, 10}}); }) == cebdyraq::code::popped);
    EXPECT(thread.frame_count() == 1);
    EXPECT(thread.take_pops() == 2);
    EXPECT(thread.take_pops() == 0);
    thread.set_frames({{2, 0}, {1, 10}});
    EXPECT(thread.frame_count() == 2);
}

void test_words_and_events() {
    cebdyraq::service service(8, 2, 4);
    auto env = service.attach_environment();
    auto other = service.attach_environment();
    env.set_event_notification_mode(CQ_THREAD_START, true);
    env.set_event_notification_mode(CQ_THREAD_END, true);
    {
        auto thread = service.attach_thread("", 5);
        thread.start();
        env.meet();
        other.meet();
        env.set_thread_local_storage(0, ~std::uint64_t(0));
        EXPECT(env.get_thread_local_storage(0) == ~std::uint64_t(0) && other.get_thread_local_storage(0) == 0);
    }
    auto start = env.next_event(), end = env.next_event();
    EXPECT(start.kind == CQ_THREAD_START && end.kind == CQ_THREAD_END && end.number == 0 && end.lost == 0);
    EXPECT(refused([&] { env.next_event(cebdyraq::time(0)); }) == cebdyraq::code::timed_out);
    EXPECT(env.get_all_threads().empty() && env.let_go(0) && !env.let_go(0));
    other.let_go_of_all();
    EXPECT(!other.let_go(0));
    env.set_environment_local_storage(5);
    EXPECT(env.get_environment_local_storage() == 5 && other.get_environment_local_storage() == 0);
}

void test_lives() {
    cebdyraq::service service(8, 1, 4);
    auto shared = service.share();
    auto env = shared.attach_environment();
    EXPECT(refused([&] { service.attach_environment(); }) == cebdyraq::code::full);
    {
        auto moved = std::move(env);
        EXPECT(refused([&] { service.attach_environment(); }) == cebdyraq::code::full);
    }
    auto next = service.attach_environment();
    EXPECT(refused([] { cebdyraq::service(0, 1, 1); }) == cebdyraq::code::illegal_argument);
    auto thread = service.attach_thread("first", 5);
    thread = service.attach_thread("second", 5);
    next.meet();
    EXPECT(next.get_all_threads().empty() && thread.number() == 1);
    thread.start();
    EXPECT(next.get_all_threads() == std::vector<std::uint32_t>{1});
    EXPECT(next.number() == 0 && !next.stopper(1));
    EXPECT(next.get_potential_capabilities() == (CQ_CAN_SUSPEND | CQ_CAN_POP_FRAME));
    cebdyraq::service no_pops(8, 1, 4, CQ_CAN_SUSPEND);
    auto one = no_pops.attach_environment();
    EXPECT(one.get_potential_capabilities() == CQ_CAN_SUSPEND);
    EXPECT(refused([&] { one.add_capabilities(CQ_CAN_POP_FRAME); }) == cebdyraq::code::not_available);
}

bool is(const cebdyraq::method_name &found, const std::string &name, const std::string &signature, std::uint32_t line) {
    return found.name == name && found.signature == signature && found.first_line == line;
}

void test_classes() {
    cebdyraq::service service(4, 1, 1);
    auto env = service.attach_environment();
    const std::string longer(100, 'x');
    EXPECT(env.get_loaded_classes().empty());
    auto none = service.define_class("none", "", {});
    EXPECT(none.class_no == 0 && none.first_method == 0);
    auto made = service.define_class("Lfib;", "fib.java", {{"fib", "(I)I", 3, cebdyraq::lines_kind::table, {{0, 3}, {4, 5}}},
                                                           {longer, "", 0, cebdyraq::lines_kind::native, {}},
                                                           {"lost", longer, 7, cebdyraq::lines_kind::locations, {}}});
    EXPECT(made.class_no == 1 && made.first_method == 0);
    EXPECT(env.get_loaded_classes() == std::vector<std::uint32_t>({0, 1}));
    EXPECT(env.get_class_signature(1) == "Lfib;" && env.get_source_file_name(1) == "fib.java");
    EXPECT(env.get_class_methods(1) == std::vector<std::uint32_t>({0, 1, 2}) && env.get_class_methods(0).empty());
    EXPECT(is(env.get_method_name(0), "fib", "(I)I", 3) && is(env.get_method_name(1), longer, "", 0));
    EXPECT(is(env.get_method_name(2), "lost", longer, 7) && env.get_method_declaring_class(2) == 1);
    EXPECT(env.is_method_native(1) && !env.is_method_native(0));
    auto lines = env.get_line_number_table(0);
    EXPECT(lines.kind == cebdyraq::lines_kind::table && lines.entries.size() == 2 && lines.entries[1].line_number == 5);
    EXPECT(env.get_line_number_table(2).kind == cebdyraq::lines_kind::locations);
    EXPECT(refused([&] { env.get_line_number_table(1); }) == cebdyraq::code::native_method);
    EXPECT(refused([&] { env.get_source_file_name(0); }) == cebdyraq::code::absent_information);
    EXPECT(refused([&] { env.get_class_methods(2); }) == cebdyraq::code::invalid_class);
    EXPECT(refused([&] { env.get_method_name(3); }) == cebdyraq::code::invalid_methodid);
    EXPECT(refused([&] { service.define_class("\xff", "", {}); }) == cebdyraq::code::illegal_argument);
}

int dial(std::uint16_t port) {
    sockaddr_in at{};
    at.sin_family = AF_INET;
    at.sin_port = htons(port);
    at.sin_addr.s_addr = htonl(INADDR_LOOPBACK);
    int made = socket(AF_INET, SOCK_STREAM, 0);
    EXPECT(connect(made, reinterpret_cast<sockaddr *>(&at), sizeof at) == 0);
    return made;
}

/* At most so many bytes of what comes back until the server closes. */
std::string answer_to(std::uint16_t port, std::string text, std::size_t most) {
    int made = dial(port);
    EXPECT(send(made, text.data(), text.size(), 0) == ssize_t(text.size()));
    char some[4096];
    text.clear();
    for (ssize_t count; text.size() < most && (count = recv(made, some, sizeof some, 0)) > 0;) text.append(some, std::size_t(count));
    close(made);
    return text;
}

std::string answer_of(std::uint16_t port, const std::string &target) {
    return answer_to(port, "GET " + target + " HTTP/1.1\r\nHost: localhost\r\nConnection: close\r\n\r\n", SIZE_MAX);
}

void test_server() {
    cebdyraq::service service(8, 1, 4);
    auto thread = service.attach_thread("one", 5);
    auto server = service.serve("127.0.0.1:0", "types");
    EXPECT(answer_of(server.port(), "/threads").find("\"one\" #0 prio=5 new\n") != std::string::npos);
    EXPECT(refused([&] { server.tell_classes(); }) == cebdyraq::code::misused);
    EXPECT(refused([&] { service.serve("nowhere", "types"); }) == cebdyraq::code::illegal_argument);
    try {
        service.serve("127.0.0.1:" + std::to_string(server.port()), "types");
        EXPECT(false);
    } catch (const std::system_error &error) {
        EXPECT(error.code().value() == EADDRINUSE);
    }
}

void test_debugger() {
    cebdyraq::service service(8, 1, 4);
    auto server = service.debug_listen("127.0.0.1:0", "types", "/src");
    EXPECT(answer_to(server.port(), "JDWP-Handshake", 14) == "JDWP-Handshake");
    EXPECT(refused([&] { service.debug_listen("nowhere", "types", "/src"); }) == cebdyraq::code::illegal_argument);
}

/* It tells of method 0 and of the newest frame, and refuses others by what it throws. */
class told_variables : public cebdyraq::variables {
public:
    explicit told_variables(bool &is_gone) : is_gone_(is_gone) {}
    ~told_variables() override { is_gone_ = true; }

    void of_method(std::uint32_t method, cebdyraq::teller &to) override {
        if (method == 1) throw std::runtime_error("there is no such method");
        EXPECT(to.variable("n", 3, 9, 4));
        EXPECT(refused([&] { to.nil(3); }) == cebdyraq::code::misused);
    }
    void of_frame(std::uint32_t, std::uint32_t, cebdyraq::teller &) override {
        throw cebdyraq::error(cebdyraq::code::thread_not_suspended);
    }

private:
    bool &is_gone_;
};

/* A packet of the debug wire protocol: a request with this id, or a reply. */
std::string packet(char id, const std::string &end_of_head, const std::string &data) {
    return std::string(3, '\0') + char(11 + data.size()) + std::string(3, '\0') + id + end_of_head + data;
}

void test_variables() {
    bool is_gone = false;
    const std::string method = std::string("\0\0\0\4\0\0\0\0\0\0\0\6\0\0\0", 15);
    const std::string request("\0\6\5", 3), reply("\x80\0\0", 3), absent("\x80\0\x65", 3);
    const std::string one = std::string("\0\0\0\0\0\0\0\1\0\0\0\0\0\0\0\x9\0\0\0\1n\0\0\0\x12", 25) + "Ljava/lang/Object;" +
                            std::string("\0\0\0\0\0\0\0\4\0\0\0\3", 12);
    const std::string wanted = "JDWP-Handshake" + packet(1, reply, one) + packet(2, absent, "");
    {
        cebdyraq::service service(8, 1, 4);
        service.define_class("Lwork;", "work.x", {{"n", "", 1, cebdyraq::lines_kind::locations, {}},
                                                  {"m", "", 1, cebdyraq::lines_kind::locations, {}}});
        auto server = service.debug_listen("127.0.0.1:0", "types", "/src", {std::make_shared<told_variables>(is_gone)});
        auto asked = "JDWP-Handshake" + packet(1, request, method + '\0') + packet(2, request, method + '\1');
        EXPECT(answer_to(server.port(), asked, wanted.size()) == wanted);
        auto moved = std::move(server);
        EXPECT(!is_gone);
    }
    EXPECT(is_gone);
}

/* A thread waits until its first debugger has resumed it, or has gone. */
void test_first_debugger() {
    cebdyraq::service service(8, 1, 4);
    auto thread = service.attach_thread("", 5);
    thread.start();
    auto away = thread.block(cebdyraq::reason::sleep);
    auto server = service.debug_listen("127.0.0.1:0", "types", "/src", {nullptr, false, true});
    std::thread waiter([&] { server.await_resumption(); });
    const std::string began = std::string("\2\0\0\0\1\x5a\0\0\0\0\0\0\0\0\0\0\0\1", 18);
    auto told = answer_to(server.port(), "JDWP-Handshake", 14 + 11 + began.size());
    EXPECT(told.size() == 43 && told.substr(25) == began);
    waiter.join();
}

/* A class is told before the thread that has defined it goes on. */
void test_told_classes() {
    cebdyraq::service service(8, 1, 4);
    auto thread = service.attach_thread("", 5);
    thread.start();
    auto server = service.debug_listen("127.0.0.1:0", "types", "/src");
    server.tell_classes();
    int debugger = dial(server.port());
    auto asked = "JDWP-Handshake" + packet(1, std::string("\0\xf\1", 3), std::string("\x08\2\0\0\0\0", 6));
    EXPECT(send(debugger, asked.data(), asked.size(), 0) == ssize_t(asked.size()));
    char some[64] = {};
    EXPECT(recv(debugger, some, 14 + 15, MSG_WAITALL) == 29 && std::string(some + 25, 4) == std::string("\0\0\0\1", 4));
    service.define_class("Llate;", "", {});
    {
        auto away = thread.block(cebdyraq::reason::park);
        server.tell_classes();
        EXPECT(recv(debugger, some, 52, MSG_WAITALL) == 52 && std::string(some + 42, 6) == "Llate;");
        close(debugger);
    }
}

bool is_readable(int fd) {
    pollfd one{fd, POLLIN, 0};
    return poll(&one, 1, 0) == 1;
}

/* A thread that polls when a watch tells it to. */
void test_watch() {
    using numbers = std::vector<std::uint32_t>;
    const auto soon = std::chrono::milliseconds(1);
    cebdyraq::service service(8, 2, 4);
    auto thread = service.attach_thread("", 5);
    auto env = service.attach_environment();
    cebdyraq::watch other, watch;
    thread.start();
    env.meet();
    EXPECT(refused([&] { other.next_wanted(0); }) == cebdyraq::code::illegal_argument);
    thread.watch(other);
    thread.watch(watch);
    EXPECT(watch.next_wanted().empty() && refused([&] { watch.wait_next_wanted(soon); }) == cebdyraq::code::timed_out);
    EXPECT(refused([&] { env.get_frame_count(0, soon); }) == cebdyraq::code::timed_out);
    EXPECT(watch.wait_next_wanted() == numbers{0} && other.next_wanted().empty());
    thread.poll();
    std::thread runner([&] {
        EXPECT(watch.wait_next_wanted() == numbers{0});
        thread.poll();
    });
    EXPECT(env.get_frame_count(0) == 0);
    runner.join();
    other = std::move(watch);
    EXPECT(other.next_wanted().empty() && other.fd() == other.fd() && is_readable(other.fd()));
    EXPECT(other.next_wanted().empty() && !is_readable(other.fd()));
    EXPECT(refused([&] { env.get_frame_count(0, soon); }) == cebdyraq::code::timed_out);
    EXPECT(is_readable(other.fd()) && other.next_wanted() == numbers{0});
    thread.poll();
    thread.unwatch();
    EXPECT(refused([&] { env.get_frame_count(0, soon); }) == cebdyraq::code::timed_out);
    EXPECT(other.next_wanted().empty());
    other.watch_stops(service);
    env.set_stop_notification_mode(true, CQ_SINGLE_STEP);
    EXPECT(other.next_wanted() == numbers{CQ_ALL_THREADS});
}

}  // namespace

int main() {
    test_stacks();
    test_blocks();
    test_suspensions();
    test_pops();
    test_words_and_events();
    test_lives();
    test_classes();
    test_server();
    test_debugger();
    test_variables();
    test_first_debugger();
    test_told_classes();
    test_watch();
    return failures;
}

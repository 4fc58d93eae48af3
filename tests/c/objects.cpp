// objects.cpp: how long the objects of cebdyraq.hpp live, and what an environment does about calls that were cancelled.
#include "../../c/cebdyraq.hpp"
#include "check.h"

#include <chrono>
#include <unistd.h>

namespace {

using cebdyraq::code;
using std::chrono::milliseconds;

template <class Call>
code refused(Call call) {
    try {
        call();
    } catch (const cebdyraq::error &why) {
        return why.why();
    }
    return code::ok;
}

cebdyraq::thread running_thread(cebdyraq::service &of) {
    cebdyraq::thread made = of.attach_thread("runs", 5);
    made.start();
    return made;
}

cebdyraq::environment suspending_environment(cebdyraq::service &of) {
    cebdyraq::environment made = of.attach_environment();
    made.add_capabilities(CQ_CAN_SUSPEND);
    made.meet();
    return made;
}

// The suspension's time is over, and its error leaves the environment's block. The thread neither polls nor goes native meanwhile.
void suspend_in_vain(cebdyraq::service &of) {
    cebdyraq::environment guest = suspending_environment(of);
    guest.suspend_thread(0, milliseconds(1));
}

// The environment that is left over has its place until the thread has handed over. It suspends the thread then, as it was asked to.
void an_error_leaves_its_block() {
    cebdyraq::service service(8, 2, 4);
    cebdyraq::thread thread = running_thread(service);
    SAME(refused([&] { suspend_in_vain(service); }), CQ_TIMED_OUT);
    cebdyraq::environment other = suspending_environment(service);
    SAME(refused([&] { service.attach_environment(); }), CQ_FULL);
    {
        auto blocked = thread.block(cebdyraq::reason::park);
        CHECK(other.get_thread_state(0) & CQ_STATE_SUSPENDED);
        other.ensure_resumed(0);
    }
    service.attach_environment();
}

// What is left over is disposed of with the last object.
void nothing_is_left_at_the_end() {
    cebdyraq::service service(8, 1, 4);
    cebdyraq::thread thread = running_thread(service);
    SAME(refused([&] { suspend_in_vain(service); }), CQ_TIMED_OUT);
}

// A thread is moved while it is away.
void returns_where_it_was_moved_to() {
    cebdyraq::service service(8, 1, 4);
    std::optional<cebdyraq::thread> moved;
    cebdyraq::thread thread = running_thread(service);
    {
        auto away = thread.block(cebdyraq::reason::sleep);
        moved.emplace(std::move(thread));
        SAME(refused([&] { moved->enter(1); }), CQ_NOT_RUNNING);
    }
    moved->enter(1);
    SAME(moved->frame_count(), 1);
}

// What came of calls that were cancelled.
void tells_what_was_cancelled() {
    cebdyraq::service service(8, 1, 4);
    cebdyraq::thread thread = running_thread(service);
    cebdyraq::environment env = suspending_environment(service);
    thread.enter(7);
    CHECK(!env.collect_cancelled(0));
    SAME(refused([&] { env.get_stack_trace(0, 0, 4, milliseconds(0)); }), CQ_TIMED_OUT);
    SAME(refused([&] { env.get_frame_location(0, 3, milliseconds(0)); }), CQ_TIMED_OUT);
    SAME(refused([&] { env.suspend_thread(0, milliseconds(0)); }), CQ_TIMED_OUT);
    SAME(refused([&] { env.collect_cancelled(0, 4, milliseconds(0)); }), CQ_TIMED_OUT);
    SAME(refused([&] { env.ensure_resumed(0, milliseconds(0)); }), CQ_TIMED_OUT);
    SAME(refused([&] { env.dispose_within(milliseconds(0)); }), CQ_TIMED_OUT);
    auto blocked = thread.block(cebdyraq::reason::park);
    auto trace = env.collect_cancelled(0, 4), location = env.collect_cancelled(0), suspension = env.collect_cancelled(0);
    CHECK(trace && location && suspension && !env.collect_cancelled(0));
    SAME(trace->got, CQ_OK);
    SAME(trace->frames.size(), 1);
    SAME(trace->frames[0].method, 7);
    SAME(location->got, CQ_NO_MORE_FRAMES);
    SAME(suspension->got, CQ_OK);
    env.ensure_resumed(0);
    CHECK(!(env.get_thread_state(0) & CQ_STATE_SUSPENDED));
}

// An environment that was disposed of by name makes room, and its object is destroyed as any other.
void is_disposed_of_by_name() {
    cebdyraq::service service(8, 1, 4);
    cebdyraq::environment first = service.attach_environment();
    first.dispose_within(cebdyraq::forever);
    cebdyraq::environment second = service.attach_environment();
    second.end_environment();
    SAME(refused([&] { second.meet(); }), CQ_MISUSED);
    service.attach_environment();
    SAME(code::system, CQ_SYSTEM);
}

// A refusal tells its code by number, by name and in words.
void a_refusal_is_told_in_words() {
    CHECK(std::string(cebdyraq::error(code::busy).what()) == "cebdyraq: 215 CQ_BUSY: another thread uses it at this moment: call again");
    CHECK(std::string(cebdyraq::error(code(999)).what()) == "cebdyraq: 999 unknown: there is no such code");
    CHECK(std::string(cebdyraq::name_of(code::timed_out)) == "CQ_TIMED_OUT");
    CHECK(std::string(cebdyraq::text_of(code::timed_out)) == "the time is over");
}

}  // namespace

int main() {
    alarm(600);
    an_error_leaves_its_block();
    nothing_is_left_at_the_end();
    returns_where_it_was_moved_to();
    tells_what_was_cancelled();
    is_disposed_of_by_name();
    a_refusal_is_told_in_words();
    return 0;
}

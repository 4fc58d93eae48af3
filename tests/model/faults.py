"""Wrong versions of cebdyraq_wait.c and cebdyraq_serve.c, each as replacements of text that stands there once. One makes the count of
sleepers fall below 0 (`leaves_twice`), three leave somebody counted (`never_leaves`, `stays_after_its_time`, `looks_for_ever`), one ends
waits too early (`times_out_early`), and one writes to a descriptor that is closed (`closed_while_woken`). By each of the others some
caller sleeps, or naps, for ever."""

OK_WAKES_THREAD = "        wake(&signal->threads, bit_of(thread));  /* it may return now */\n"

OF_WAITS = {
    # Who is counted and when the news are read.
    "not_counted": [("        __atomic_fetch_add(&w->among->sleepers, 1, __ATOMIC_SEQ_CST);\n        w->counted = true;",
                     "        w->counted = true;")],
    "goes_on_uncounted": [("    if (w->counted) {\n        sleep_on(w, now);\n",
                           "    if (w->counted || w->spin < 0) {\n        sleep_on(w, now);\n        leave(w);\n        w->spin = -1;\n")],
    "leaves_twice": [("SEQ_CST);\n        w->counted = false;", "SEQ_CST);")],
    "never_leaves": [("    comes_on(w);\n    leave(w);", "    comes_on(w);")],
    "news_read_after_the_last_try": [("    if (w->counted) {\n        sleep_on(w, now);",
                                      "    if (w->counted) {\n        see_news(w);\n        sleep_on(w, now);")],
    "news_unchanged": [("    __atomic_fetch_add(&among->news, 1, __ATOMIC_SEQ_CST);\n", "")],
    "no_nap": [("    if (w->code == CQ_BUSY && (end", "    if (0 && (end")],
    "stays_after_its_time": [("        w->code = CQ_TIMED_OUT;\n        leave(w);", "        w->code = CQ_TIMED_OUT;")],
    "cancels_nothing_after_its_time": [("        cq_wait_cancel(env, w->signal, ticket);\n", "")],
    "times_out_early": [("now - w->began >= w->timeout) {", "now - w->began >= w->timeout / 2) {")],
    # Wakes that come before the call.
    "wakes_before_the_call": [
        ("    while (again(&w)) w.code = cq_end_stop(env, thread);\n    if (w.code == CQ_OK) wake(&signal->threads, bit_of(thread));",
         "    wake(&signal->threads, bit_of(thread));\n    while (again(&w)) w.code = cq_end_stop(env, thread);")],
    "wakes_before_the_hand_over": [
        ("    uint32_t code = cq_native(thread);\n    if (code != CQ_BUSY) return handed_over(thread, signal, code);",
         "    handed_over(thread, signal, CQ_OK);\n    uint32_t code = cq_native(thread);\n    if (code != CQ_BUSY) return code;")],
    # Wakes of too few.
    "wrong_bit": [("        wake(&signal->threads, bit_of(call.thread));  /* it may return now */",
                   "        wake(&signal->threads, bit_of(call.thread + 1));")],
    "traces_end_wakes_threads_alone": [("    cq_wake(signal);\n    if (code != CQ_OK) return code;",
                                        "    wake(&signal->threads, FUTEX_BITSET_MATCH_ANY);\n    if (code != CQ_OK) return code;")],
    "any_without_comings": [("    w.bits = COMINGS;\n    for (size_t i", "    w.bits = count ? 0 : COMINGS;\n    for (size_t i")],
    # Wakes that are missing.
    "no_wake_at_detach": [("w.code = cq_detach_thread(thread);\n    return came_or_went(&w);",
                           "w.code = cq_detach_thread(thread);\n    return w.code;")],
    "no_wake_at_traces_end": [("    cq_wake(signal);\n    if (code != CQ_OK) return code;", "    if (code != CQ_OK) return code;")],
    "no_wake_at_lost_traces_end": [("FOREVER);\n        cq_wake(signal);", "FOREVER);")],
    "no_wake_at_dispose": [("    if (w.code == CQ_OK) wake(&signal->threads, FUTEX_BITSET_MATCH_ANY);\n", "")],
    "no_wake_at_stop": [("    wake_for_stop(signal, COMINGS);\n    if (code != CQ_OK) return code;", "    if (code != CQ_OK) return code;"),
                        ("cq_reached(thread, method, location, stops);\n    return may_stop(&w, stops);",
                         "cq_reached(thread, method, location, stops);\n    return w.code;")],
    "no_wake_at_reached": [("cq_reached(thread, method, location, stops);\n    return may_stop(&w, stops);",
                            "cq_reached(thread, method, location, stops);\n    return w.code;")],
    "no_wake_at_leaves": [("cq_leaves(thread, method, location, frames, stops);\n    return may_stop(&w, stops);",
                           "cq_leaves(thread, method, location, frames, stops);\n    return w.code;")],
    "no_wake_at_meet": [("w.code = cq_meet(env);\n    return came_or_went(&w);", "w.code = cq_meet(env);\n    return w.code;")],
    "no_wake_at_next_stop": [("    came_or_went(&w);\n    return answered(&w);", "    return answered(&w);")],
    "no_news_at_end_stop": [("bit_of(thread));\n    return came_or_went(&w);", "bit_of(thread));\n    return w.code;")],
    "no_wake_at_ensure_resumed": [(OK_WAKES_THREAD, "")],
    "list_wakes_nobody": [("    wake(&signal->threads, FUTEX_BITSET_MATCH_ANY);  /* those", "    /* those")],
    "end_hands_over_silently": [("    came_or_went(&w);\n    return handed_over(thread, signal, w.code);", "    return came_or_went(&w);")],
    "held_wakes_nobody": [("(code == CQ_OK || code == CQ_HELD)", "(code == CQ_OK)")],
    # CQ_BUSY that is not passed on.
    "full_though_not_discarded": [("return code == CQ_FULL && discarding == CQ_BUSY ? CQ_BUSY : code;", "(void)discarding;\n    return code;")],
    # Servers that are not woken.
    "no_wake_of_servers": [("    if (cebdyraq_wake_servers) cebdyraq_wake_servers(signal);\n", "")],
    "no_wake_of_servers_by_wake": [("    wake_for_stop(signal, FUTEX_BITSET_MATCH_ANY);\n}",
                                    "    wake(&signal->agents, FUTEX_BITSET_MATCH_ANY);\n}")],
}

WRITES = "            set_looks(s, false);\n            wake_thread(s);"
LOOKS = "        look_for_stops(s, s->is_for_debuggers && awaits(at.due, now_ns()));\n"
DRAINS = "    while (is_woken && eventfd_read(s->waker, &count) && errno == EINTR) {\n    }\n"
NO_DRAIN = (DRAINS, "    (void)count, (void)is_woken;\n")
DRAIN = "        for (eventfd_t count; eventfd_read(s->waker, &count) && errno == EINTR;) {\n        }\n"
TICKS = "        uint64_t deadline = tick(s);\n        bool wrote"
NOTES = "        note_resumption(s);\n        wake_all(s);"
GIVES_ORDERS = "    pthread_mutex_unlock(&s->lock);\n    return goes_on;"

OF_SERVERS = {
    # A stop that wakes nobody, or too few.
    "no_write": [(WRITES, "            set_looks(s, false);")],
    "wakes_first_server_alone": [(WRITES, WRITES + "\n            break;")],
    "wakes_itself_alone": [("!pthread_equal(s->thread, pthread_self())", "pthread_equal(s->thread, pthread_self())")],
    "write_is_interrupted": [("    while (eventfd_write(s->waker, 1) && errno == EINTR) {\n    }", "    (void)!eventfd_write(s->waker, 1);")],
    # Who is counted, and when it looks.
    "does_not_look": [(LOOKS, "")],
    "looks_for_ever": [("    *at = s->next;\n    set_looks(s, false);\n", "    *at = s->next;\n")],
    "does_not_poll_its_waker": [("(struct pollfd){ s->waker, POLLIN, 0 };", "(struct pollfd){ -1, POLLIN, 0 };")],
    "drains_after_its_look": [NO_DRAIN, (LOOKS, LOOKS + DRAIN)],
    "drains_after_its_tick": [NO_DRAIN, (TICKS, TICKS.replace("        bool", DRAIN + "        bool"))],
    "drains_after_its_orders": [(DRAINS, ""), (GIVES_ORDERS, GIVES_ORDERS.replace("    return", DRAINS + "    return"))],
    # Threads that are resumed.
    "wakes_nobody_it_resumes": [(NOTES, "        note_resumption(s);")],
    "wakes_before_it_resumes": [("        bool wrote = write_all(s);\n        wake_resumed(s);", "        bool wrote = write_all(s);"),
                                ("        drop_silent(s);\n", "        drop_silent(s);\n        wake_resumed(s);\n")],
    "notes_no_resumption": [(NOTES, "        wake_all(s);")],
    "tells_no_resumption": [("    s->is_resumed = true;\n    pthread_cond_broadcast(&s->news);", "    s->is_resumed = true;")],
    "takes_anybody_for_the_first": [("    if (s->awaits_first) {\n        cq_door_starts_suspended(&s->door, true);\n    }\n", "")],
    # Classes.
    "class_wakes_nobody": [("        uint64_t call = ++s->asked;\n        wake_thread(s);", "        uint64_t call = ++s->asked;")],
    "tells_nobody_of_a_class": [("    bool is_asked = s->asked != asked;\n    pthread_cond_broadcast(&s->news);",
                                 "    bool is_asked = s->asked != asked;")],
    "forgets_who_asked_meanwhile": [("    return note_told(s, asked) ? now : NEVER;", "    note_told(s, asked);\n    return NEVER;")],
    # The end.
    "end_wakes_nobody": [("    s->is_ending = true;\n    wake_thread(s);", "    s->is_ending = true;")],
    "end_tells_nobody": [("    wake_thread(s);\n    pthread_cond_broadcast(&s->news);\n", "    wake_thread(s);\n")],
    "last_to_wait_tells_nobody": [("    if (s->waiting == 0) {\n        pthread_cond_broadcast(&s->news);\n    }\n", "")],
    "closed_while_woken": [("        remove_server(s);\n        close_all(s);", "        close_all(s);\n        remove_server(s);")],
    "undoes_nothing": [("        nap();\n        undo(s);", "        nap();")],
    "closes_silently": [("        undo(s);\n    }\n    wake_all(s);", "        undo(s);\n    }")],
}

# By the part of the search that includes the file (`waits.c`, `servers.c`).
FAULTS = {"waits": OF_WAITS, "servers": OF_SERVERS}
PLANTED_IN = {"waits": "cebdyraq_wait.c", "servers": "cebdyraq_serve.c"}


def planted(text, part, name):
    """The text with this fault."""
    for old, new in FAULTS[part][name]:
        if text.count(old) != 1:
            raise SystemExit(f"{name}: this stands there {text.count(old)} times, and not once: {old}")
        text = text.replace(old, new)
    return text

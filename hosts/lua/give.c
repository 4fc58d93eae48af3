/* give.c: how a script's thread gives its stack to the service, also one that the service does not take. */
#include "host.h"

#include <stdio.h>

#include "nudge.h"

bool complain(struct script *script, const char *what, uint32_t code) {
    if (code == CQ_OK)
        return false;
    if (!script->complained)
        fprintf(stderr, "cqlua: %s: %s is refused with code %u: %s\n", script->path, what, code, cq_code_text(code));
    script->complained = true;
    return true;
}

/* Whether a shorter stack may be taken: too many frames, no memory to read them, or one that is none. */
static bool is_of_frames(uint32_t code) {
    return code == CQ_OVERFLOW || code == CQ_OUT_OF_MEMORY || code == CQ_ILLEGAL_ARGUMENT;
}

/* Leaves all frames, and enters one that stands for those of the stack. No memory is taken for it. */
static uint32_t give_none(struct script *script) {
    uint32_t code;
    do
        code = cq_leave(&script->thread);
    while (code == CQ_OK);
    return code == CQ_NO_FRAME ? cq_enter_native(&script->thread, METHOD_LEFT_OUT) : code;
}

/* Gives the newest frames, as many as are taken: half as many each time, and a frame that says so. */
static uint32_t give_newest(struct script *script, cq_frame *frames, size_t count) {
    uint32_t code = cq_set_frames(&script->thread, frames, count);
    while (is_of_frames(code) && count > 1) {
        complain(script, "the whole stack", code);
        count = count > 2 ? (count + 1) / 2 : 1;
        frames[count - 1] = (cq_frame){ METHOD_LEFT_OUT, -1 };
        code = cq_set_frames(&script->thread, frames, count);
    }
    return is_of_frames(code) ? give_none(script) : code;
}

/* Nothing can be told of the thread any more. Agents see that it has ended, and not where it once was. */
static void end_inspection(struct script *script) {
    script->inspected = false;
    cq_wait_end(&script->thread, &script->host->signal);
}

bool give_stack(struct script *script, lua_State *L, int level, bool hooked) {
    cq_frame *frames = script->frames + 1;
    size_t count = stack_read(script, L, level, frames);
    enum nudged nudged = nudge_take(script, hooked);
    nudge_depth(script, count >= NEWEST);
    if (nudged == NUDGE_LOST)
        count = 0;
    if (nudged == NUDGE_LOST || (nudged == NUDGE_HERE && (count == 0 || frames[0].location >= 0))) {
        *--frames = (cq_frame){ METHOD_LATE, -1 };
        count++;
    }
    script->given = frames;
    script->given_count = count;
    script->given_level = level;
    if (complain(script, "the stack", give_newest(script, frames, count)))
        end_inspection(script);
    return script->inspected;
}

import java.util.ArrayDeque;
import java.util.Deque;

/**
 * A thread of a walk: its walker, and what the driver has noted of it.
 *
 * <p>Outcomes of its own events come from these notes. The VM is asked whether the thread is suspended, blocked or ended.
 */
final class Target {
    /** Bits of JVM TI's thread state. */
    private static final int TERMINATED = 0x2;

    private static final int RUNNABLE = 0x4;
    private static final int SUSPENDED = 0x100000;

    /** How long a thread that is held is watched. */
    private static final int WATCHED_NANOS = 2_000_000;

    private enum Mode {
        NEW,
        RUNNING,
        NATIVE,
        BLOCKED,
        HELD,
        ENDED
    }

    final Walker walker;
    private Mode mode = Mode.NEW;
    /** The names of its frames, the newest first. */
    private final Deque<Character> frames = new ArrayDeque<>();
    /** A call waits, by the profile, for its next hand-over. */
    private boolean calledFor;
    /** A frame was popped, and the thread was not resumed yet. */
    private boolean popped;

    Target(int number) {
        walker = new Walker(number);
    }

    // ---- what others want to know

    int depth() {
        return frames.size();
    }

    /** How it is blocked, or null. */
    Block block() {
        return mode == Mode.BLOCKED ? walker.kind : null;
    }

    // ---- its own events

    /** Carries an event out, and gives its outcome. */
    String event(String word, String argument) {
        return switch (word) {
            case "start" -> mode == Mode.NEW ? start() : "error 210";
            case "back" -> isSafe() ? back() : "error 205";
            default -> mode == Mode.RUNNING ? step(word, argument) : "error 204";
        };
    }

    private String step(String word, String argument) {
        return switch (word) {
            case "enter", "enter_native" -> enter(argument.charAt(0));
            case "at" -> frames.isEmpty() ? "error 202" : isInNative() ? "error 203" : at(Integer.parseInt(argument));
            case "leave" -> frames.isEmpty() ? "error 202" : leave();
            case "native" -> frames.isEmpty() || isInJava() ? "error 207" : handOver(Mode.NATIVE);
            case "block" -> block(Block.of(argument));
            case "poll" -> poll();
            case "end" -> end();
            default -> throw new IllegalArgumentException("no event is called " + word);
        };
    }

    private boolean isSafe() {
        return mode == Mode.NATIVE || mode == Mode.BLOCKED || mode == Mode.HELD;
    }

    private boolean isInJava() {
        return !frames.isEmpty() && frames.peek() != 'n';
    }

    private boolean isInNative() {
        return !frames.isEmpty() && frames.peek() == 'n';
    }

    private boolean has(int bits) {
        return (Agent.bits(walker) & bits) != 0;
    }

    private String start() {
        Frames.begin(walker, walker.number);
        Until.so(() -> Frames.stands(walker.number), "a start");
        mode = Mode.RUNNING;
        return "ok";
    }

    private String enter(char method) {
        send(method == 'a' ? Frames.A : method == 'b' ? Frames.B : Frames.N);
        frames.push(method);
        arrive("a frame");
        return "ok";
    }

    private String at(int place) {
        send(Frames.AT + place);
        arrive("a place");
        return "ok";
    }

    private String leave() {
        send(Frames.LEAVE);
        frames.pop();
        arrive("the caller");
        return "ok";
    }

    private String block(Block kind) {
        walker.kind = kind;
        walker.released = false;
        walker.woken = false;
        kind.prepare(walker);
        send(Frames.BLOCK);
        Until.so(() -> !has(RUNNABLE), "a blocked thread");
        return handOver(Mode.BLOCKED);
    }

    private String handOver(Mode safe) {
        calledFor = false;
        mode = safe;
        return "ok";
    }

    private String poll() {
        if (has(SUSPENDED)) {
            handOver(Mode.HELD);
            return standsStill() ? "held" : "moves though it is suspended";
        }
        if (isInJava()) goOn();
        boolean went = calledFor;
        calledFor = false;
        return went ? "went" : "clear";
    }

    private String back() {
        if (has(SUSPENDED)) return "error 206";
        if (mode == Mode.BLOCKED) {
            wake();
        } else if (isInJava()) {
            goOn();
        }
        mode = Mode.RUNNING;
        return "ok";
    }

    private String end() {
        while (!frames.isEmpty()) leave();
        send(Frames.LEAVE);
        Until.so(() -> has(TERMINATED), "an end");
        calledFor = false;
        mode = Mode.ENDED;
        return "ok";
    }

    // ---- what agents do to it

    /** A call reached it that waits, by the profile, at a running thread. */
    void called() {
        if (mode == Mode.RUNNING) calledFor = true;
    }

    /** A frame of it was popped. The VM makes the call again when the thread goes on, and then it has to return at once. */
    void pop() {
        walker.popped = true;
        popped = true;
    }

    /** It was resumed. */
    void resumed() {
        if (!popped) return;
        popped = false;
        frames.pop();
        Until.so(() -> !walker.popped, "the call that is made again");
        goOn();
    }

    // ---- the walker

    private void send(int order) {
        if (isInJava()) {
            walker.order = order;
        } else {
            Frames.order(walker.number, order);
        }
    }

    /** Waits until the walker has taken its order and waits for the next. */
    private void arrive(String what) {
        if (isInJava()) {
            Until.so(() -> walker.order == Frames.NONE, what);
            goOn();
        } else {
            Until.so(() -> Frames.stands(walker.number), what);
        }
    }

    /** Waits until the walker has looked for an order once more. */
    private void goOn() {
        long turns = walker.turns;
        Until.so(() -> walker.turns != turns, "a thread that goes on");
    }

    private void wake() {
        long turns = walker.turns;
        walker.released = true;
        walker.kind.wake(walker);
        walker.woken = true;
        Until.so(() -> walker.turns != turns, "the end of a block");
    }

    private boolean standsStill() {
        if (!isInJava()) return true;
        long turns = walker.turns;
        Until.pause(WATCHED_NANOS);
        return walker.turns == turns;
    }

    /** Brings the thread to its end, wherever it is. Nobody may suspend it any more. */
    void finish() {
        if (mode == Mode.NEW || mode == Mode.ENDED) return;
        if (has(SUSPENDED)) {
            Agent.must(Agent.resume(Agent.DRIVER, walker));
            resumed();
        }
        if (isSafe()) back();
        end();
    }
}

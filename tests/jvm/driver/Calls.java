import java.util.List;

/** The calls of the agents of a walk. */
final class Calls {
    /** Stands for a thread that is not there. */
    private static final Object NO_THREAD = new Object();

    private final Target[] targets;
    private final Measured measured;

    Calls(Target[] targets, Measured measured) {
        this.targets = targets;
        this.measured = measured;
    }

    /** Makes a call, and gives its outcome. */
    String call(int agent, String word, List<String> given) {
        return switch (word) {
            case "add" -> Agent.add(agent, capabilities(given));
            case "relinquish" -> Agent.relinquish(agent, capabilities(given));
            case "caps" -> Agent.caps(agent);
            case "getenv" -> Agent.getenv(agent);
            case "setenv" -> Agent.setenv(agent, Long.parseUnsignedLong(given.get(0)));
            default -> callAt(agent, word, given);
        };
    }

    private static int capabilities(List<String> names) {
        int bits = 0;
        for (String name : names) {
            bits |= switch (name) {
                case "can_suspend" -> Agent.CAN_SUSPEND;
                case "can_pop_frame" -> Agent.CAN_POP_FRAME;
                case "can_tag_objects" -> Agent.CAN_TAG_OBJECTS;
                default -> throw new IllegalArgumentException("no capability is called " + name);
            };
        }
        return bits;
    }

    private String callAt(int agent, String word, List<String> given) {
        Target target = given.get(0).equals("-") ? null : targets[Integer.parseInt(given.get(0))];
        Object thread = target == null ? NO_THREAD : target.walker;
        String outcome = switch (word) {
            case "state" -> Agent.state(agent, thread);
            case "count" -> count(Agent.count(agent, thread), target);
            case "trace" -> measured.frames(Agent.trace(agent, thread, start(number(given, 1), target), number(given, 2)));
            case "location" -> measured.frames(Agent.location(agent, thread, start(number(given, 1), target)));
            case "suspend" -> Agent.suspend(agent, thread);
            case "resume" -> Agent.resume(agent, thread);
            case "pop" -> Agent.pop(agent, thread);
            case "get" -> Agent.get(agent, thread);
            case "set" -> Agent.set(agent, thread, Long.parseUnsignedLong(given.get(1)));
            default -> throw new IllegalArgumentException("no call is called " + word);
        };
        if (target != null) tell(target, word, given, outcome);
        return outcome;
    }

    private static int number(List<String> given, int place) {
        return Integer.parseInt(given.get(place));
    }

    /** Tells the target what the call did. */
    private static void tell(Target target, String word, List<String> given, String outcome) {
        boolean done = outcome.equals("ok");
        if (word.equals("pop") && done) target.pop();
        if (word.equals("resume") && done) target.resumed();
        boolean waits = switch (word) {
            case "count" -> true;
            case "trace" -> number(given, 2) >= 0;
            case "location" -> number(given, 1) >= 0;
            case "suspend", "pop" -> !outcome.equals("error 99");
            default -> false;
        };
        if (waits) target.called();
    }

    // ---- frames of the library above those of a blocked thread

    private int above(Target target) {
        return target == null ? 0 : measured.above(target.block());
    }

    /** The count without the frames above. */
    private String count(String outcome, Target target) {
        if (!outcome.startsWith("count ")) return outcome;
        return "count " + (Integer.parseInt(outcome.substring("count ".length())) - above(target));
    }

    /**
     * A start or a depth among all frames, of one among the walk's own frames.
     *
     * <p>One that counts from the oldest frame stays. But one beyond the newest of the walk's own goes beyond those above too.
     */
    private int start(int own, Target target) {
        if (target == null) return own;
        if (own < 0 && own >= -target.depth()) return own;
        long moved = own < 0 ? (long) own - above(target) : (long) own + above(target);
        return (int) Math.max(Integer.MIN_VALUE, Math.min(Integer.MAX_VALUE, moved));
    }
}

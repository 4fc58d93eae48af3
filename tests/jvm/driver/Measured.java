import java.util.EnumMap;
import java.util.HashMap;
import java.util.Map;
import java.util.TreeMap;

/** What differs from VM to VM. It is measured before the first walk. */
final class Measured {
    private static final String OWN_CLASS = "LFrames;";

    /** Each agent can have {@code can_pop_frame}. */
    private boolean pops = true;
    /** How many frames a blocked thread has above those of its walk. */
    private final Map<Block, Integer> above = new EnumMap<>(Block.class);
    /** For each method of Java the first line of each place. */
    private final Map<String, TreeMap<Integer, Integer>> places = new HashMap<>();

    /** Measures this VM, or throws an exception that says why no walk can be carried out on it. */
    static Measured now() {
        Measured measured = new Measured();
        for (int agent = 0; agent < Agent.AGENTS; agent++) measured.capabilities(agent);
        Target target = new Target(0);
        target.event("start", "");
        measured.base(target);
        measured.places(target, "a");
        measured.places(target, "b");
        target.event("enter", "a");
        for (Block kind : Block.values()) measured.above(target, kind);
        target.event("end", "");
        return measured;
    }

    private void capabilities(int agent) {
        Agent.must(Agent.add(agent, Agent.CAN_SUSPEND));
        pops &= Agent.add(agent, Agent.CAN_POP_FRAME).equals("ok");
        Agent.must(Agent.relinquish(agent, Agent.CAN_SUSPEND | Agent.CAN_POP_FRAME));
    }

    private void base(Target target) {
        int depth = Agent.depth(target.walker);
        if (depth != 0) throw new IllegalStateException("on this VM a new agent thread has frames: " + depth);
    }

    private void places(Target target, String method) {
        TreeMap<Integer, Integer> lines = new TreeMap<>();
        target.event("enter", method);
        for (int place = 0; place < Frames.PLACES; place++) {
            target.event("at", Integer.toString(place));
            String frame = Agent.location(Agent.DRIVER, target.walker, 0);
            lines.put(Integer.parseInt(frame.substring(frame.indexOf(':') + 1)), place);
        }
        target.event("leave", "");
        if (lines.size() < Frames.PLACES) throw new IllegalStateException("this VM does not tell the places of a method apart");
        places.put(method, lines);
    }

    private void above(Target target, Block kind) {
        target.event("block", kind.name());
        above.put(kind, Agent.depth(target.walker) - target.depth());
        target.event("back", "");
    }

    /** How many frames of the library a thread has that is blocked so, or not blocked (null). */
    int above(Block kind) {
        return kind == null ? 0 : above.get(kind);
    }

    /** The text with each frame as a walk has it. A frame that is not of a walk stays as it is. */
    String frames(String text) {
        StringBuilder made = new StringBuilder();
        for (String word : text.split(" ")) made.append(made.length() == 0 ? "" : " ").append(frame(word));
        return made.toString();
    }

    private String frame(String word) {
        if (!word.startsWith(OWN_CLASS)) return word;
        String own = word.substring(OWN_CLASS.length());
        String[] parts = own.split(":");
        if (!places.containsKey(parts[0])) return own;
        Map.Entry<Integer, Integer> place = places.get(parts[0]).floorEntry(Integer.parseInt(parts[1]));
        return place == null ? own : parts[0] + "@" + place.getValue();
    }

    boolean pops() {
        return pops;
    }

    /** How many frames there are above those of a thread that is blocked, for each kind of block. */
    String above() {
        StringBuilder text = new StringBuilder();
        above.forEach((kind, frames) -> text.append(' ').append(kind.name().toLowerCase()).append(' ').append(frames));
        return text.substring(1);
    }
}

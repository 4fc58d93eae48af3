import java.io.BufferedReader;
import java.io.IOException;
import java.io.InputStreamReader;
import java.util.List;

/**
 * Carries walks out, one after another.
 *
 * <p>It first writes the VM's name and version, and what it has measured. Then it reads walks: a line {@code walk} with the number
 * of threads, a line for each event, and a line {@code go}. Of each walk it writes the lines, and a dot in a line of its own. A
 * line that begins with {@code !} says why it cannot go on.
 */
final class Driver {
    private final Measured measured;
    private final StringBuilder lines = new StringBuilder();
    private Target[] targets;

    private Driver(Measured measured) {
        this.measured = measured;
    }

    public static void main(String[] none) throws IOException {
        try {
            Measured measured = Measured.now();
            System.out.println("vm " + System.getProperty("java.vm.name") + " " + System.getProperty("java.vm.version"));
            System.out.println("pops " + measured.pops());
            System.out.println("above " + measured.above());
            new Driver(measured).carryOut(new BufferedReader(new InputStreamReader(System.in)));
        } catch (RuntimeException | Error e) {
            System.out.println("! " + e);
            System.out.flush();
            // walkers may wait for ever
            Runtime.getRuntime().halt(1);
        }
    }

    private void carryOut(BufferedReader in) throws IOException {
        for (String head = in.readLine(); head != null; head = in.readLine()) {
            lines.setLength(0);
            begin(Integer.parseInt(head.split(" ")[1]));
            Calls calls = new Calls(targets, measured);
            int number = 0;
            for (String line = in.readLine(); !line.equals("go"); line = in.readLine()) {
                lines.append(number++).append(' ').append(outcome(calls, List.of(line.split(" ")))).append('\n');
            }
            finish();
            System.out.print(lines.append(".\n"));
            System.out.flush();
        }
    }

    private void begin(int threads) {
        targets = new Target[threads];
        for (int number = 0; number < threads; number++) targets[number] = new Target(number);
    }

    private String outcome(Calls calls, List<String> event) {
        int subject = Integer.parseInt(event.get(1));
        if (event.get(0).equals("agent")) return calls.call(subject, event.get(2), event.subList(3, event.size()));
        return targets[subject].event(event.get(2), event.size() > 3 ? event.get(3) : "");
    }

    /** Leaves the VM as it was before the walk. */
    private void finish() {
        for (int agent = 0; agent < Agent.AGENTS; agent++) {
            Agent.must(Agent.relinquish(agent, Agent.CAN_SUSPEND | Agent.CAN_POP_FRAME | Agent.CAN_TAG_OBJECTS));
            Agent.must(Agent.setenv(agent, 0));
        }
        Agent.must(Agent.add(Agent.DRIVER, Agent.CAN_SUSPEND));
        for (Target target : targets) target.finish();
        Agent.must(Agent.relinquish(Agent.DRIVER, Agent.CAN_SUSPEND));
    }
}

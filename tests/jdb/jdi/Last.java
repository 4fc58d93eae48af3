import com.sun.jdi.event.Event;
import com.sun.jdi.event.EventSet;
import com.sun.jdi.event.ThreadDeathEvent;
import com.sun.jdi.event.ThreadStartEvent;
import com.sun.jdi.event.VMDeathEvent;
import com.sun.jdi.event.VMDisconnectEvent;
import com.sun.jdi.event.VMStartEvent;
import com.sun.jdi.request.EventRequest;
import java.util.ArrayList;
import java.util.List;

/**
 * A runtime of one thread, which begins when it is resumed, and ends: the end of the thread comes first, and then that of the runtime,
 * once unasked and once for a request, which suspends no thread.
 */
final class Last {
    private static final long PATIENCE_MS = 120_000;

    private Last() {
    }

    private static String text(Event event, EventRequest own) {
        if (event instanceof ThreadStartEvent) {
            return "start";
        }
        if (event instanceof ThreadDeathEvent) {
            return "death";
        }
        if (event instanceof VMDeathEvent) {
            return own.equals(event.request()) ? "end for the request" : "end for " + event.request();
        }
        return event instanceof VMDisconnectEvent ? "gone" : "another event: " + event;
    }

    public static void main(String[] arguments) throws Exception {
        var vm = Vm.attach(arguments[0]);
        var manager = vm.eventRequestManager();
        var death = manager.createThreadDeathRequest();
        death.setSuspendPolicy(EventRequest.SUSPEND_NONE);
        death.enable();
        var own = manager.createVMDeathRequest();
        own.setSuspendPolicy(EventRequest.SUSPEND_ALL);
        own.enable();
        List<String> told = new ArrayList<>();
        while (!told.contains("gone")) {
            EventSet events = vm.eventQueue().remove(PATIENCE_MS);
            if (events == null) {
                throw new AssertionError("there were no more events than " + told);
            }
            for (Event event : events) {
                if (event instanceof VMStartEvent) {
                    vm.resume();
                } else {
                    told.add(text(event, own));
                    Vm.same("policy", EventRequest.SUSPEND_NONE, events.suspendPolicy());
                }
            }
        }
        Vm.same("events", List.of("death", "end for null", "end for the request", "gone"), told);
        System.out.println("ok");
    }
}

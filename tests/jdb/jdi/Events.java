import com.sun.jdi.Method;
import com.sun.jdi.VirtualMachine;
import com.sun.jdi.event.ClassPrepareEvent;
import com.sun.jdi.event.Event;
import com.sun.jdi.event.EventSet;
import com.sun.jdi.event.ThreadDeathEvent;
import com.sun.jdi.event.ThreadStartEvent;
import com.sun.jdi.request.EventRequest;
import java.util.List;

/**
 * Writes "ready", and then each event as it comes: the start and the death of a thread, and the class of the package "deep" that
 * is prepared, with its methods. The second argument says how many it waits for.
 */
final class Events {
    private static final long PATIENCE_MS = 120_000;

    private Events() {
    }

    private static String text(Event event) {
        if (event instanceof ThreadStartEvent start) {
            return "start " + start.thread().name();
        }
        if (event instanceof ThreadDeathEvent death) {
            return "death " + death.thread().name();
        }
        if (event instanceof ClassPrepareEvent prepare) {
            var methods = prepare.referenceType().methods().stream().map(Method::name).toList();
            return "prepare " + prepare.referenceType().name() + " " + methods;
        }
        return "another event: " + event;
    }

    private static void ask(VirtualMachine vm) {
        var manager = vm.eventRequestManager();
        var prepare = manager.createClassPrepareRequest();
        prepare.addClassFilter("deep.*");
        for (EventRequest request : List.of(manager.createThreadStartRequest(), manager.createThreadDeathRequest(), prepare)) {
            request.setSuspendPolicy(EventRequest.SUSPEND_NONE);
            request.enable();
        }
    }

    public static void main(String[] arguments) throws Exception {
        var vm = Vm.attach(arguments[0]);
        ask(vm);
        System.out.println("ready");
        for (int left = Integer.parseInt(arguments[1]); left > 0; ) {
            EventSet events = vm.eventQueue().remove(PATIENCE_MS);
            if (events == null) {
                throw new AssertionError("there were no more events");
            }
            events.forEach(event -> System.out.println(text(event)));
            left -= events.size();
        }
        vm.dispose();
        System.out.println("ok");
    }
}

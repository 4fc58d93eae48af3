import com.sun.jdi.VirtualMachine;
import com.sun.jdi.event.BreakpointEvent;
import com.sun.jdi.event.ClassPrepareEvent;
import com.sun.jdi.event.Event;
import com.sun.jdi.event.EventSet;
import com.sun.jdi.request.EventRequest;

/** A breakpoint in a class that comes later. It is set when the class is prepared, while all threads are suspended. */
final class Deferred {
    private static final long PATIENCE_MS = 120_000;

    private Deferred() {
    }

    /** The next event of this type. Those before it let the threads go on. */
    private static <T extends Event> T next(VirtualMachine vm, Class<T> type) throws InterruptedException {
        for (EventSet events; (events = vm.eventQueue().remove(PATIENCE_MS)) != null; events.resume()) {
            for (Event event : events) {
                if (type.isInstance(event)) {
                    return type.cast(event);
                }
            }
        }
        throw new AssertionError("there were no more events");
    }

    public static void main(String[] arguments) throws Exception {
        var vm = Vm.attach(arguments[0]);
        var manager = vm.eventRequestManager();
        var request = manager.createClassPrepareRequest();
        request.addClassFilter("deep.required");
        request.setSuspendPolicy(EventRequest.SUSPEND_ALL);
        request.enable();
        var prepared = next(vm, ClassPrepareEvent.class);
        Vm.same("the thread is suspended", true, prepared.thread().isSuspended());
        var line = prepared.referenceType().locationsOfLine(2).get(0);
        manager.createBreakpointRequest(line).enable();
        vm.resume();
        var stop = next(vm, BreakpointEvent.class);
        Vm.same("where it stops", "deep.required:2", stop.location().declaringType().name() + ":" + stop.location().lineNumber());
        Vm.same("the frames above", "loads", stop.thread().frames().get(stop.thread().frameCount() - 1).location().declaringType().name());
        vm.dispose();
        System.out.println("ok");
    }
}

import com.sun.jdi.IncompatibleThreadStateException;
import com.sun.jdi.ThreadReference;

/** Suspensions of a thread nest. */
final class Nesting {
    private Nesting() {
    }

    /** Checks how often a thread is suspended, and that its stack can be read just if it is. */
    private static void check(String when, ThreadReference thread, int count) {
        Vm.same("the count " + when, count, thread.suspendCount());
        Vm.same("whether it is suspended " + when, count > 0, thread.isSuspended());
        Vm.same("whether its stack can be read " + when, count > 0, canBeRead(thread));
    }

    private static boolean canBeRead(ThreadReference thread) {
        try {
            return thread.frameCount() > 0;
        } catch (IncompatibleThreadStateException runs) {
            return false;
        }
    }

    public static void main(String[] arguments) throws Exception {
        var vm = Vm.attach(arguments[0]);
        for (var name : new String[] {"waits.lua", "spins.lua"}) {
            var thread = Vm.thread(vm, name);
            check("at first", thread, 0);
            thread.suspend();
            check("after one suspension", thread, 1);
            thread.suspend();
            check("after two", thread, 2);
            vm.suspend();
            check("after one of all", thread, 3);
            thread.resume();
            check("after a resumption", thread, 2);
            vm.resume();
            check("after one of all threads", thread, 1);
            thread.resume();
            check("after as many resumptions", thread, 0);
            thread.resume();
            check("after one more", thread, 0);
        }
        vm.dispose();
        System.out.println("ok");
    }
}

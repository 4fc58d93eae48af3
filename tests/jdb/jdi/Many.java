import com.sun.jdi.StackFrame;
import com.sun.jdi.ThreadReference;
import com.sun.jdi.VirtualMachine;
import java.util.List;
import java.util.stream.IntStream;

/** The thousand threads of many.c: all of them are suspended, read and resumed. */
final class Many {
    private static final int COUNT = 1000;

    private Many() {
    }

    private static List<String> stack(ThreadReference thread) {
        try {
            return thread.frames().stream().map(StackFrame::location)
                .map(location -> location.method().name() + ":" + location.lineNumber()).toList();
        } catch (Exception refused) {
            return List.of(refused.toString());
        }
    }

    private static void checkNames(VirtualMachine vm) {
        var wanted = IntStream.range(0, COUNT).mapToObj(number -> "many-" + number).sorted().toList();
        Vm.same("names", wanted, vm.allThreads().stream().map(ThreadReference::name).sorted().toList());
    }

    public static void main(String[] arguments) throws Exception {
        var vm = Vm.attach(arguments[0]);
        checkNames(vm);
        vm.suspend();
        for (ThreadReference thread : vm.allThreads()) {
            Vm.same("the stack of " + thread.name(), List.of("rest:21", "work:11"), stack(thread));
            Vm.same("the count of " + thread.name(), 1, thread.suspendCount());
        }
        vm.resume();
        for (ThreadReference thread : vm.allThreads()) {
            Vm.same("the count of " + thread.name() + " after the resumption", 0, thread.suspendCount());
        }
        vm.dispose();
        System.out.println("ok");
    }
}

import com.sun.jdi.AbsentInformationException;
import com.sun.jdi.Method;
import com.sun.jdi.ReferenceType;
import com.sun.jdi.StackFrame;
import com.sun.jdi.VirtualMachine;
import java.util.List;

/** The threads, the stack and the classes of waits.lua and spins.lua. */
final class Stacks {
    private static final List<String> WAITS = List.of(
        "C.sleep.sleep native",
        "deep.steps.rest deep/steps.lua:5",
        "deep.steps.down deep/steps.lua:10",
        "deep.steps.down deep/steps.lua:12",
        "deep.steps.down deep/steps.lua:12",
        "waits.begin waits.lua:5",
        "waits.main waits.lua:10");

    private Stacks() {
    }

    private static String text(StackFrame frame) {
        var location = frame.location();
        var name = location.declaringType().name() + "." + location.method().name() + " ";
        try {
            return name + (location.method().isNative() ? "native" : location.sourcePath() + ":" + location.lineNumber());
        } catch (AbsentInformationException absent) {
            return name + "without a source";
        }
    }

    private static ReferenceType only(VirtualMachine vm, String name) {
        var found = vm.classesByName(name);
        Vm.same("classes of the name " + name, 1, found.size());
        return found.get(0);
    }

    private static void checkMethods(VirtualMachine vm, String name, List<String> wanted) {
        Vm.same("methods of " + name, wanted, only(vm, name).methods().stream().map(Method::name).toList());
    }

    /** It does not say that it filters by source names, so that JDI does not ask it to. */
    private static void checkNoSourceNames(VirtualMachine vm) {
        Vm.same("filters by source names", false, vm.canUseSourceNameFilters());
        try {
            vm.eventRequestManager().createClassPrepareRequest().addSourceNameFilter("*.lua");
            throw new AssertionError("there is a filter by source names");
        } catch (UnsupportedOperationException wanted) {
            Vm.same("versions of class files", false, vm.canGetClassFileVersion());
        }
    }

    public static void main(String[] arguments) throws Exception {
        var vm = Vm.attach(arguments[0]);
        var names = vm.allThreads().stream().map(thread -> thread.name()).sorted().toList();
        Vm.same("threads", List.of("spins.lua", "waits.lua"), names);
        Vm.same("groups", 1, vm.topLevelThreadGroups().size());
        Vm.same("the class of the group", "java.lang.ThreadGroup", vm.topLevelThreadGroups().get(0).referenceType().name());
        Vm.same("threads of the group", 2, vm.topLevelThreadGroups().get(0).threads().size());
        var thread = Vm.sleeper(vm, "waits.lua");
        thread.suspend();
        Vm.same("frames", WAITS.size(), thread.frameCount());
        Vm.same("stack", WAITS, thread.frames().stream().map(Stacks::text).toList());
        Vm.same("a part of the stack", WAITS.subList(2, 4), thread.frames(2, 2).stream().map(Stacks::text).toList());
        thread.resume();
        checkMethods(vm, "waits", List.of("main", "begin"));
        checkMethods(vm, "spins", List.of("main", "add", "spin"));
        checkMethods(vm, "deep.steps", List.of("main", "rest", "down"));
        Vm.same("the file of deep.steps", "steps.lua", only(vm, "deep.steps").sourceName());
        Vm.same("obsolete methods", 0L, only(vm, "waits").methods().stream().filter(Method::isObsolete).count());
        checkNoSourceNames(vm);
        vm.dispose();
        System.out.println("ok");
    }
}

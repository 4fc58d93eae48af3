import com.sun.jdi.AbsentInformationException;
import com.sun.jdi.ArrayReference;
import com.sun.jdi.IncompatibleThreadStateException;
import com.sun.jdi.LongValue;
import com.sun.jdi.StackFrame;
import com.sun.jdi.StringReference;
import com.sun.jdi.Value;
import java.util.List;
import java.util.stream.IntStream;

/** The variables of waits.lua, which sleeps three calls deep in a module. */
final class Variables {
    private static final String FUNCTION = "function: 0x[0-9a-f]+";

    private Variables() {
    }

    private static Value value(StackFrame frame, String name) throws AbsentInformationException {
        return frame.getValue(frame.visibleVariableByName(name));
    }

    private static void checkText(String what, String pattern, Value found) {
        var text = ((StringReference) found).value();
        Vm.same(what + " (" + text + ")", true, text.matches(pattern));
    }

    /** One of the frames of `function M.down(depth)`, whose upvalues are the function and the module. */
    private static void checkFrame(StackFrame frame, long depth) throws AbsentInformationException {
        var names = frame.visibleVariables().stream().map(variable -> variable.name()).sorted().toList();
        Vm.same("variables", List.of("M", "depth", "rest"), names);
        Vm.same("the type of a variable", "java.lang.Object", frame.visibleVariableByName("depth").typeName());
        Vm.same("the depth", depth, ((LongValue) value(frame, "depth")).value());
        checkText("the function", FUNCTION, value(frame, "rest"));
        var module = (ArrayReference) value(frame, "M");
        Vm.same("the type of a table", "java.lang.String[]", module.type().name());
        Vm.same("entries", 1, module.length());
        checkText("the entry", "down = " + FUNCTION, module.getValue(0));
        checkText("all entries", "down = " + FUNCTION, module.getValues().get(0));
        var values = frame.getValues(frame.visibleVariables());
        Vm.same("values", 3, values.size());
        Vm.same("this", true, frame.thisObject() == null);
    }

    private static void checkNative(StackFrame frame) {
        try {
            frame.visibleVariables();
            throw new AssertionError("a C function has variables");
        } catch (AbsentInformationException absent) {
            return;
        }
    }

    public static void main(String[] arguments) throws Exception {
        var vm = Vm.attach(arguments[0]);
        var thread = Vm.sleeper(vm, "waits.lua");
        thread.suspend();
        var frames = thread.frames();
        checkNative(frames.get(0));
        Vm.same("variables of rest", 0L, frames.get(1).visibleVariables().stream().filter(one -> !one.name().equals("_ENV")).count());
        for (int depth : IntStream.range(0, 3).toArray()) {
            checkFrame(frames.get(2 + depth), depth);
        }
        thread.resume();
        try {
            thread.frames();
            throw new AssertionError("a thread that runs has frames");
        } catch (IncompatibleThreadStateException running) {
            vm.dispose();
        }
        System.out.println("ok");
    }
}

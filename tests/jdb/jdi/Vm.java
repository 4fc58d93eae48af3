import com.sun.jdi.Bootstrap;
import com.sun.jdi.ThreadReference;
import com.sun.jdi.VirtualMachine;
import com.sun.jdi.connect.AttachingConnector;
import com.sun.jdi.connect.Connector;
import java.io.IOException;
import java.util.Map;

/** What the programs have in common: how they attach, find a thread, and check. */
final class Vm {
    private Vm() {
    }

    static VirtualMachine attach(String port) throws Exception {
        for (AttachingConnector connector : Bootstrap.virtualMachineManager().attachingConnectors()) {
            if (connector.name().equals("com.sun.jdi.SocketAttach")) {
                var arguments = connector.defaultArguments();
                arguments.get("hostname").setValue("127.0.0.1");
                arguments.get("port").setValue(port);
                return attach(connector, arguments);
            }
        }
        throw new IllegalStateException("there is no connector for sockets");
    }

    /** As long as the debugger before is there, another is closed at once. */
    private static VirtualMachine attach(AttachingConnector connector, Map<String, Connector.Argument> arguments)
        throws Exception {
        for (int tries = 1; ; tries++) {
            try {
                return connector.attach(arguments);
            } catch (IOException closed) {
                if (tries == 100) {
                    throw closed;
                }
                Thread.sleep(50);
            }
        }
    }

    /** The thread of this name, once it sleeps. */
    static ThreadReference sleeper(VirtualMachine vm, String name) throws InterruptedException {
        var thread = thread(vm, name);
        while (thread.status() != ThreadReference.THREAD_STATUS_SLEEPING) {
            Thread.sleep(10);
        }
        return thread;
    }

    static ThreadReference thread(VirtualMachine vm, String name) {
        return vm.allThreads().stream().filter(thread -> thread.name().equals(name)).findFirst().orElseThrow();
    }

    static void same(String what, Object wanted, Object found) {
        if (!wanted.equals(found)) {
            throw new AssertionError(what + ": " + found + " in place of " + wanted);
        }
    }
}

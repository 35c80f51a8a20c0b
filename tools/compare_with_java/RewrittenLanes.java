import org.deuce.transaction.Addresses;
import org.deuce.transaction.ContextDelegator;

/** Makes the calls of a script on rewritten classes, as Lanes does, and prints how many attempts met a conflict. */
public final class RewrittenLanes {
    private RewrittenLanes() {}

    public static void main(String[] arguments) throws Exception {
        ClassLoader loader = RewrittenLanes.class.getClassLoader();
        for (int i = 1; i < arguments.length; i++) {
            Addresses.prepare(Class.forName(arguments[i], false, loader));
        }
        Lanes.main(arguments);
        System.out.println("conflicts " + ContextDelegator.conflicts());
    }
}

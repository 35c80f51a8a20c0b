import org.deuce.Atomic;

public class Counter {
    static int n;

    @Atomic
    public static int inc() {
        return ++n;
    }
}

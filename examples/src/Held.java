import org.deuce.Atomic;

public class Held {
    static int n;

    @Atomic
    public static int inc() {
        return ++n;
    }

    @Atomic(retries = 1)
    public static int one() {
        return ++n;
    }

    @Atomic
    public static int caught() {
        try {
            return ++n;
        } catch (Throwable e) {
            return -1;
        }
    }

    @Atomic
    public static int endless() {
        n = 7;
        while (true) {
        }
    }
}

import org.deuce.Atomic;

public class Three {
    static int n;

    static int add(int x) {
        n += x;
        return n;
    }

    @Atomic
    public static int total() {
        return n;
    }
}

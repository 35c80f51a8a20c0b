import org.deuce.Atomic;

public class Hiding extends Base {
    static int n;

    static int add(int x) {
        n -= x;
        return n;
    }

    @Atomic
    public static int inc() {
        return ++Hiding.n;
    }
}

import org.deuce.Atomic;

public class Base {
    static int n = 5;

    static int add(int x) {
        n += x;
        return n;
    }

    @Atomic
    public static int last() {
        return n;
    }
}

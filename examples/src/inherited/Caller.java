import org.deuce.Atomic;

public class Caller {
    @Atomic
    public static int under(int x) {
        return Under.add(x);
    }

    @Atomic
    public static int hiding(int x) {
        return Hiding.add(x);
    }

    @Atomic
    public static int read() {
        return Under.n;
    }
}

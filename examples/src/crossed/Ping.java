import org.deuce.Atomic;

public class Ping {
    static int n;

    @Atomic
    public static int inc() {
        return ++Pong.n;
    }

    @Atomic
    public static int own() {
        return n;
    }
}

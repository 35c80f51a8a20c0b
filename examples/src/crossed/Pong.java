import org.deuce.Atomic;

public class Pong {
    static int n;

    @Atomic
    public static int inc() {
        return Ping.n += 10;
    }

    @Atomic
    public static int own() {
        return n;
    }
}

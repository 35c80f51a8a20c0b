import org.deuce.Atomic;

public class Good {
    static int n = 3;

    @Atomic
    public static int get() {
        return n;
    }
}

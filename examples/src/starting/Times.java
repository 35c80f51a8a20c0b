import org.deuce.Atomic;

public class Times {
    static int n;

    @Atomic
    public static int get() {
        return n;
    }
}

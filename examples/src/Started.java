import org.deuce.Atomic;

public class Started {
    static int n = 5;

    @Atomic
    public static int inc() {
        return ++n;
    }
}

import org.deuce.Atomic;

public class Middle {
    static int k = First.m + 1;

    @Atomic
    public static int get() {
        return k;
    }
}

public class Last {
    static int n = 5;

    static {
        Times.n++;
    }
}

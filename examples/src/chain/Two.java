public class Two {
    static int twice(int x) {
        return 2 * Three.add(x);
    }
}

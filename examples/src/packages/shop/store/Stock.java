package shop.store;

import org.deuce.Atomic;

public class Stock {
    static int pieces = 10;

    public static boolean take(int wanted) {
        if (wanted > pieces) {
            return false;
        }
        pieces -= wanted;
        return true;
    }

    @Atomic
    public static int left() {
        return pieces;
    }
}

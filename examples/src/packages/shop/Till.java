package shop;

import org.deuce.Atomic;
import shop.store.Stock;

public class Till {
    static int cash;

    @Atomic
    public static int sell(int pieces) {
        if (!Stock.take(pieces)) {
            return -1;
        }
        return cash += 3 * pieces;
    }

    @Atomic
    public static int cash() {
        return cash;
    }
}

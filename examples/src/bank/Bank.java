import org.deuce.Atomic;

public class Bank {
    @Atomic
    public static int save(int amount) {
        Checking.balance -= amount;
        Savings.balance += amount;
        return Savings.balance;
    }

    @Atomic
    public static int total() {
        return Checking.balance + Savings.balance;
    }
}

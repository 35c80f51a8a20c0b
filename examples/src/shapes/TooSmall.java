package shapes;

public class TooSmall extends RuntimeException {
    final int side;

    public TooSmall(int side) {
        super("a side is below 0");
        this.side = side;
    }
}

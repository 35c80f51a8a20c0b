package shapes;

public class Square extends Rectangle {
    public Square(int side) {
        super(side, side);
    }

    public Shape scaled(int factor) {
        return new Square(width * factor);
    }
}

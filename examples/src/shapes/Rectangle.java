package shapes;

public class Rectangle implements Shape {
    protected final int width;
    private final int height;

    public Rectangle(int width, int height) {
        if (width < 0 || height < 0) {
            throw new TooSmall(Math.min(width, height));
        }
        this.width = width;
        this.height = height;
    }

    public long area() {
        return (long) width * height;
    }

    public Shape scaled(int factor) {
        return new Rectangle(width * factor, height * factor);
    }
}

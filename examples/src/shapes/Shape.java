package shapes;

public interface Shape {
    long area();

    Shape scaled(int factor);
}

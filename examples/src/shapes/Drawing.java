package shapes;

import org.deuce.Atomic;

/** Shapes in an array that grows. */
public class Drawing {
    static Shape[] shapes = new Shape[1];
    static int count;

    private static void add(Shape shape) {
        if (count == shapes.length) {
            Shape[] more = new Shape[2 * count];
            for (int i = 0; i < count; i++) {
                more[i] = shapes[i];
            }
            shapes = more;
        }
        shapes[count++] = shape;
    }

    @Atomic
    public static int rectangle(int width, int height) {
        try {
            add(new Rectangle(width, height));
            return count;
        } catch (TooSmall e) {
            return e.side;
        }
    }

    @Atomic
    public static int square(int side) {
        add(new Square(side));
        return count;
    }

    @Atomic
    public static long area() {
        long all = 0;
        for (int i = 0; i < count; i++) {
            all += shapes[i].area();
        }
        return all;
    }

    @Atomic
    public static void scale(int index, int factor) {
        shapes[index] = shapes[index].scaled(factor);
    }

    @Atomic
    public static boolean isSquare(int index) {
        return shapes[index] instanceof Square;
    }

    @Atomic
    public static int side(int index) {
        return ((Square) shapes[index]).width;
    }
}

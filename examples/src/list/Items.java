package list;

import org.deuce.Atomic;

/** A sorted list of ints, with a long sum. */
public class Items {
    static class Node {
        final int item;
        Node next;

        Node(int item, Node next) {
            this.item = item;
            this.next = next;
        }
    }

    static Node first;
    static int size;
    static long sum;

    @Atomic
    public static boolean add(int item) {
        Node before = null;
        Node at = first;
        while (at != null && at.item < item) {
            before = at;
            at = at.next;
        }
        if (at != null && at.item == item) {
            return false;
        }
        Node node = new Node(item, at);
        if (before == null) {
            first = node;
        } else {
            before.next = node;
        }
        size++;
        sum += item;
        return true;
    }

    @Atomic
    public static int get(int index) {
        Node at = first;
        for (int i = 0; i < index; i++) {
            at = at.next;
        }
        return at.item;
    }

    @Atomic
    public static long sum() {
        long all = 0;
        for (Node at = first; at != null; at = at.next) {
            all += at.item;
        }
        if (all != sum) {
            throw new IllegalStateException("sum");
        }
        return all;
    }

    @Atomic
    public static int size() {
        return size;
    }
}

package tree;

import org.deuce.Atomic;

/** A search tree whose nodes know their parents. */
public class Tree {
    static class Node {
        final long key;
        Node parent;
        Node left;
        Node right;

        Node(long key, Node parent) {
            this.key = key;
            this.parent = parent;
        }

        Node next() {
            if (right != null) {
                Node at = right;
                while (at.left != null) {
                    at = at.left;
                }
                return at;
            }
            Node below = this;
            Node at = parent;
            while (at != null && at.right == below) {
                below = at;
                at = at.parent;
            }
            return at;
        }
    }

    static Node root;

    @Atomic
    public static boolean add(long key) {
        Node at = root;
        Node above = null;
        while (at != null) {
            if (at.key == key) {
                return false;
            }
            above = at;
            at = key < at.key ? at.left : at.right;
        }
        Node node = new Node(key, above);
        if (above == null) {
            root = node;
        } else if (key < above.key) {
            above.left = node;
        } else {
            above.right = node;
        }
        return true;
    }

    private static int depth(Node node) {
        return node == null ? 0 : 1 + Math.max(depth(node.left), depth(node.right));
    }

    @Atomic
    public static int depth() {
        return depth(root);
    }

    /** The keys in their order, as the digits of a number. */
    @Atomic
    public static long digits() {
        Node at = root;
        while (at.left != null) {
            at = at.left;
        }
        long all = 0;
        for (; at != null; at = at.next()) {
            all = all * 10 + at.key;
        }
        return all;
    }
}

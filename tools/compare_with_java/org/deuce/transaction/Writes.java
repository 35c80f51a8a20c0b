package org.deuce.transaction;

import java.util.Arrays;

/** The log of an attempt's writes: each place once, found by its object and place. */
final class Writes {
    private static final int LEAST = 16;

    private Object[] objects = new Object[LEAST];
    private long[] places = new long[LEAST];
    private char[] kinds = new char[LEAST];
    private long[] bits = new long[LEAST];
    private Object[] references = new Object[LEAST];
    private int[] stripes = new int[LEAST];
    private int count;
    /** By hash, one more than the number of a write; 0 where there is none. */
    private int[] table = new int[4 * LEAST];

    void clear() {
        for (int i = 0; i < count; i++) {
            table[slot(i)] = 0;
            objects[i] = null;
            references[i] = null;
        }
        count = 0;
    }

    int count() {
        return count;
    }

    /** The number of the write to a place, or -1. */
    int find(Object object, long place, int stripe) {
        if (count == 0) {
            return -1;
        }
        int mask = table.length - 1;
        for (int at = stripe & mask; ; at = (at + 1) & mask) {
            int found = table[at] - 1;
            if (found < 0 || (objects[found] == object && places[found] == place)) {
                return found;
            }
        }
    }

    void put(Object object, long place, char kind, long value, Object reference) {
        int stripe = Stripe.number(object, place);
        int at = find(object, place, stripe);
        if (at < 0) {
            at = add(object, place, kind, stripe);
        }
        bits[at] = value;
        references[at] = reference;
    }

    long bits(int at) {
        return bits[at];
    }

    Object reference(int at) {
        return references[at];
    }

    /** The numbers of the stripes that are written, ascending, each once. */
    int[] sortedStripes() {
        int[] sorted = Arrays.copyOf(stripes, count);
        Arrays.sort(sorted);
        int kept = 0;
        for (int i = 0; i < count; i++) {
            if (i == 0 || sorted[i] != sorted[i - 1]) {
                sorted[kept++] = sorted[i];
            }
        }
        return kept == count ? sorted : Arrays.copyOf(sorted, kept);
    }

    void store() {
        for (int i = 0; i < count; i++) {
            Memory.store(objects[i], places[i], kinds[i], bits[i], references[i]);
        }
    }

    private int add(Object object, long place, char kind, int stripe) {
        if (count == objects.length) {
            grow();
        }
        int at = count++;
        objects[at] = object;
        places[at] = place;
        kinds[at] = kind;
        stripes[at] = stripe;
        enter(at);
        return at;
    }

    private void enter(int at) {
        int mask = table.length - 1;
        int slot = stripes[at] & mask;
        while (table[slot] != 0) {
            slot = (slot + 1) & mask;
        }
        table[slot] = at + 1;
    }

    private int slot(int at) {
        int mask = table.length - 1;
        int slot = stripes[at] & mask;
        while (table[slot] != at + 1) {
            slot = (slot + 1) & mask;
        }
        return slot;
    }

    private void grow() {
        int room = 2 * count;
        objects = Arrays.copyOf(objects, room);
        places = Arrays.copyOf(places, room);
        kinds = Arrays.copyOf(kinds, room);
        bits = Arrays.copyOf(bits, room);
        references = Arrays.copyOf(references, room);
        stripes = Arrays.copyOf(stripes, room);
        table = new int[4 * room];
        for (int i = 0; i < count; i++) {
            enter(i);
        }
    }
}

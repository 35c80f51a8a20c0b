package table;

import org.deuce.Atomic;

/** Points by the number of a player, in a table with open addressing. */
public class Scores {
    static int[] players = new int[4];
    static long[] points = new long[4];
    static boolean[] used = new boolean[4];
    static int size;

    /** The place of a player, or the free one where it belongs. */
    private static int place(int player) {
        int mask = players.length - 1;
        int at = (player * 0x9E3779B9) >>> 16 & mask;
        while (used[at] && players[at] != player) {
            at = at + 1 & mask;
        }
        return at;
    }

    private static void grow() {
        int[] oldPlayers = players;
        long[] oldPoints = points;
        boolean[] oldUsed = used;
        players = new int[2 * oldPlayers.length];
        points = new long[players.length];
        used = new boolean[players.length];
        for (int i = 0; i < oldPlayers.length; i++) {
            if (oldUsed[i]) {
                int at = place(oldPlayers[i]);
                players[at] = oldPlayers[i];
                points[at] = oldPoints[i];
                used[at] = true;
            }
        }
    }

    /** Adds points of a player, and answers whether the player is new. */
    @Atomic
    public static boolean add(int player, long more) {
        int at = place(player);
        boolean isNew = !used[at];
        if (isNew) {
            if (2 * ++size > players.length) {
                grow();
                at = place(player);
            }
            players[at] = player;
            used[at] = true;
        }
        points[at] += more;
        return isNew;
    }

    @Atomic
    public static long of(int player) {
        int at = place(player);
        if (!used[at]) {
            throw new IllegalArgumentException("no such player");
        }
        return points[at];
    }

    @Atomic
    public static int players() {
        return size;
    }

    @Atomic
    public static int places() {
        return players.length;
    }
}

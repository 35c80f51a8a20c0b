package org.deuce.transaction;

import java.lang.reflect.Field;

/** Puts the places of a Java machine's fields into the fields that rewriting adds, as Deuce's static initialisers do. */
public final class Addresses {
    private static final String SUFFIX = "__ADDRESS__";

    private Addresses() {}

    /** Prepares a rewritten class that isn't initialised. Its static bases and addresses are final, so they are stored past the language. */
    public static void prepare(Class<?> type) throws NoSuchFieldException {
        for (Field field : type.getDeclaredFields()) {
            String name = field.getName();
            if (name.endsWith(SUFFIX)) {
                Field of = type.getDeclaredField(name.substring(0, name.length() - SUFFIX.length()));
                Memory.UNSAFE.putLong(Memory.UNSAFE.staticFieldBase(field), Memory.UNSAFE.staticFieldOffset(field), Memory.place(of));
            } else if (name.equals("__CLASS_BASE__")) {
                Object base = Memory.UNSAFE.staticFieldBase(field);
                Memory.UNSAFE.putObject(base, Memory.UNSAFE.staticFieldOffset(field), base);
            }
        }
    }
}

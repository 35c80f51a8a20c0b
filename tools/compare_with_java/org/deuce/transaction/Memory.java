package org.deuce.transaction;

import java.lang.reflect.Field;
import java.lang.reflect.Modifier;
import sun.misc.Unsafe;

/** Where fields lie, and how values are stored there. */
final class Memory {
    static final Unsafe UNSAFE = unsafe();

    private Memory() {}

    private static Unsafe unsafe() {
        try {
            Field field = Unsafe.class.getDeclaredField("theUnsafe");
            field.setAccessible(true);
            return (Unsafe) field.get(null);
        } catch (ReflectiveOperationException fault) {
            throw new ExceptionInInitializerError(fault);
        }
    }

    static long offset(Class<?> type, String name) {
        try {
            return place(type.getDeclaredField(name));
        } catch (NoSuchFieldException fault) {
            throw new ExceptionInInitializerError(fault);
        }
    }

    static long place(Field field) {
        return Modifier.isStatic(field.getModifiers()) ? UNSAFE.staticFieldOffset(field) : UNSAFE.objectFieldOffset(field);
    }

    /** Stores a logged value into a field, or into an element of an array. */
    static void store(Object object, long place, char kind, long bits, Object reference) {
        switch (kind) {
            case 'Z': UNSAFE.putBoolean(object, place, bits != 0); break;
            case 'B': UNSAFE.putByte(object, place, (byte) bits); break;
            case 'C': UNSAFE.putChar(object, place, (char) bits); break;
            case 'S': UNSAFE.putShort(object, place, (short) bits); break;
            case 'I': UNSAFE.putInt(object, place, (int) bits); break;
            case 'J': UNSAFE.putLong(object, place, bits); break;
            case 'L': UNSAFE.putObject(object, place, reference); break;
            case 'z': ((boolean[]) object)[(int) place] = bits != 0; break;
            case 'b': ((byte[]) object)[(int) place] = (byte) bits; break;
            case 'c': ((char[]) object)[(int) place] = (char) bits; break;
            case 's': ((short[]) object)[(int) place] = (short) bits; break;
            case 'i': ((int[]) object)[(int) place] = (int) bits; break;
            case 'j': ((long[]) object)[(int) place] = bits; break;
            default: ((Object[]) object)[(int) place] = reference;
        }
    }
}

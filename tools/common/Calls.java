import java.lang.reflect.InvocationTargetException;
import java.lang.reflect.Method;

/** Makes calls that are given by words, and says their answers as a history has them. */
final class Calls {
    private Calls() {}

    /** Makes a call: the first word is the method, the others are its arguments. */
    static String answer(String[] words) throws Exception {
        Method method = method(words[0]);
        Class<?>[] types = method.getParameterTypes();
        Object[] arguments = new Object[types.length];
        for (int i = 0; i < types.length; i++) {
            arguments[i] = argument(types[i], words[i + 1]);
        }
        try {
            return text(method.getReturnType(), method.invoke(null, arguments));
        } catch (InvocationTargetException thrown) {
            return "threw " + thrown.getCause().getClass().getName().replace('.', '/');
        }
    }

    /** The method of this class, name and descriptor. */
    private static Method method(String text) throws Exception {
        int end = text.indexOf('(');
        int dot = text.lastIndexOf('.', end);
        String name = text.substring(dot + 1, end);
        for (Method method : Class.forName(text.substring(0, dot).replace('/', '.')).getDeclaredMethods()) {
            if (method.getName().equals(name) && descriptor(method).equals(text.substring(end))) {
                method.setAccessible(true);
                return method;
            }
        }
        throw new NoSuchMethodException(text);
    }

    private static String descriptor(Method method) {
        StringBuilder text = new StringBuilder("(");
        for (Class<?> type : method.getParameterTypes()) {
            text.append(type.descriptorString());
        }
        return text.append(')').append(method.getReturnType().descriptorString()).toString();
    }

    private static Object argument(Class<?> type, String word) {
        if (!type.isPrimitive()) {
            return null;
        }
        if (type == boolean.class) {
            return Boolean.valueOf(word);
        }
        long number = Long.parseLong(word);
        if (type == long.class) {
            return number;
        }
        if (type == int.class) {
            return (int) number;
        }
        if (type == char.class) {
            return (char) number;
        }
        return type == byte.class ? (Object) (byte) number : (Object) (short) number;
    }

    /** A result: a boolean is 0 or 1, a char its number, and a reference null or ref, without its address. */
    private static String text(Class<?> type, Object result) {
        if (type == void.class) {
            return "void";
        }
        if (!type.isPrimitive()) {
            return result == null ? "null" : "ref";
        }
        if (result instanceof Boolean) {
            return (Boolean) result ? "1" : "0";
        }
        return result instanceof Character ? String.valueOf((int) (Character) result) : String.valueOf(result);
    }
}

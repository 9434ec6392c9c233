package dchm.client;

import java.util.function.BinaryOperator;

/**
 * A function that the server has by name. With it {@code merge} of a {@link DchmMap} is one call of the server. On any
 * other map it is an ordinary function with the same result.
 *
 * @param <V> what it takes and gives
 */
public final class Fn<V> implements BinaryOperator<V> {
    /** The sum, wrapping in 64 bits: {@code Long::sum}. */
    public static final Fn<Long> SUM = new Fn<>(4, "SUM", Long::sum);
    /** The greater of both. */
    public static final Fn<Long> MAX = new Fn<>(5, "MAX", Math::max);
    /** The lesser of both. */
    public static final Fn<Long> MIN = new Fn<>(6, "MIN", Math::min);
    /** The old text, followed by the argument. */
    public static final Fn<String> CONCAT = new Fn<>(7, "CONCAT", String::concat);
    /** As SUM; a sum of 0 unmaps the key. */
    public static final Fn<Long> SUM_NONZERO = new Fn<>(8, "SUM_NONZERO",
        (old, add) -> old + add == 0 ? null : old + add);
    /** The sum; an ArithmeticException if it has more than 64 bits, and then nothing changes. */
    public static final Fn<Long> SUM_EXACT = new Fn<>(9, "SUM_EXACT", Math::addExact);
    private static final Fn<?> CONST = new Fn<>(1, "CONST", (old, argument) -> argument);
    private static final Fn<?> DROP = new Fn<>(2, "DROP", (old, argument) -> null);
    private static final Fn<?> KEEP = new Fn<>(3, "KEEP", (old, argument) -> old);

    final int number;
    private final String name;
    private final BinaryOperator<V> local;

    private Fn(int number, String name, BinaryOperator<V> local) {
        this.number = number;
        this.name = name;
        this.local = local;
    }

    /**
     * CONST.
     *
     * @param <V> the kind of value
     * @return the function that gives its argument
     */
    @SuppressWarnings("unchecked")
    public static <V> Fn<V> constant() {
        return (Fn<V>) CONST;
    }

    /**
     * DROP.
     *
     * @param <V> the kind of value
     * @return the function that gives nothing, which unmaps the key
     */
    @SuppressWarnings("unchecked")
    public static <V> Fn<V> drop() {
        return (Fn<V>) DROP;
    }

    /**
     * KEEP.
     *
     * @param <V> the kind of value
     * @return the function that gives the old value
     */
    @SuppressWarnings("unchecked")
    public static <V> Fn<V> keep() {
        return (Fn<V>) KEEP;
    }

    /**
     * The same function for a map of numbers and texts. A value of the other kind is then a ClassCastException.
     *
     * @return this function
     */
    @SuppressWarnings("unchecked")
    public Fn<Object> any() {
        return (Fn<Object>) this;
    }

    /**
     * What the server gives for the same two values. It is computed here, and nothing is sent.
     *
     * @param old the old value, not null
     * @param argument the argument
     * @return the new value; null unmaps the key
     */
    @Override
    public V apply(V old, V argument) {
        return local.apply(old, argument);
    }

    /** What Compute gives of the old value, null if there is none, and the argument. */
    V applied(V old, V argument) {
        if (old != null) {
            return apply(old, argument);
        }
        boolean isNone = this == DROP || this == KEEP || this == (Fn<?>) SUM_NONZERO && Long.valueOf(0).equals(argument);
        return isNone ? null : argument;
    }

    /**
     * The name.
     *
     * @return the name that the protocol gives the function
     */
    @Override
    public String toString() {
        return name;
    }
}

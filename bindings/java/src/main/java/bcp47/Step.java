// SPDX-License-Identifier: MIT OR Apache-2.0
package bcp47;

/**
 * A step of an explanation.
 *
 * @param kind its kind, for example <code>Region</code>
 * @param place the subtag that changes, counted from 1
 * @param number the record that the step uses, counted from 1; 0 where it uses none
 * @param tag the tag to which it leads
 */
public record Step(String kind, int place, int number, String tag) {
    private static final String[] KINDS = Native.names(Native.STEP_KIND);

    /** The step whose kind, place and number are at a place of an array. */
    static Step of(int[] numbers, int at, String tag) {
        return new Step(KINDS[numbers[at]], numbers[at + 1], numbers[at + 2], tag);
    }

    /** @return the step, as the program prints it */
    @Override
    public String toString() {
        return kind + " " + place + " " + number + " " + tag;
    }
}

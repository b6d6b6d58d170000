// SPDX-License-Identifier: MIT OR Apache-2.0
package bcp47;

import java.io.Serializable;

/**
 * Why something is refused: an answer, and what a {@link Refused} tells.
 *
 * @param status how the call ended, for example <code>NotATag</code>
 * @param fault what is wrong, for example {@link Fault#BAD_BYTE}
 * @param place the number of the subtag, the line or the record at fault, counted from 1; else 0
 * @param variant the variant that replacements can repeat, or null where that is not why
 * @param line the line of the program <code>langtag</code> without <code>! </code>, for example <code>BadByte 1</code>
 * @serial exclude
 */
public record Refusal(String status, Fault fault, long place, String variant, String line) implements Serializable {
    static final int DIFFERENT = 6, BAD_CALL = 14;
    private static final int REPEATS = 3, OUT_OF_MEMORY = 4, BUSY = 15;
    private static final String[] STATUSES = Native.names(Native.STATUS);

    /** Why a call is refused that ended so, or null where it is done; it throws where memory ran out, or was too little for so many calls. */
    static Refusal of(long[] ended, String text) {
        int status = (int) ended[0];
        switch (status) {
            case 0:
                return null;
            case OUT_OF_MEMORY:
                throw new OutOfMemoryError("bcp47: OutOfMemory");
            case BUSY:
                throw new BusyException();
            default:
                Fault fault = Fault.of(status, (int) ended[1]);
                String variant = status == REPEATS ? text : null;
                String shown = fault.isStatus() ? fault.toString() : fault + " " + ended[2];
                String line = variant != null ? fault + " " + variant : text != null ? text : shown;
                return new Refusal(STATUSES[status], fault, ended[2], variant, line);
        }
    }

    /** @return what the fault means, and what to do, in a sentence */
    public String help() {
        return fault.help();
    }

    /** @return its line */
    @Override
    public String toString() {
        return line;
    }
}

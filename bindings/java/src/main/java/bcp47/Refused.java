// SPDX-License-Identifier: MIT OR Apache-2.0
package bcp47;

/**
 * Something is refused. The message is the line of the program <code>langtag</code> without <code>! </code>, for example
 * <code>BadByte 1</code> or <code>jar BadLine line 1</code>. <code>toString</code> also names what is refused.
 */
public abstract class Refused extends IllegalArgumentException {
    private static final long serialVersionUID = 1;
    private static final int LONGEST = 1024;

    /** Why. */
    private final Refusal refusal;
    /** The front of the text that is refused, or of the name of the file; empty where there is none. */
    final String what;

    Refused(Refusal refusal, CharSequence what) {
        super(refusal.line());
        this.refusal = refusal;
        this.what = what.subSequence(0, Math.min(what.length(), LONGEST)).toString();
    }

    /** @return why */
    public Refusal refusal() {
        return refusal;
    }

    /** @return what is wrong, for example {@link Fault#BAD_BYTE} */
    public Fault fault() {
        return refusal.fault();
    }

    /** @return the number of the subtag, the line or the record at fault, counted from 1; else 0 */
    public long place() {
        return refusal.place();
    }

    /** @return what the fault means, and what to do, in a sentence */
    public String help() {
        return refusal.help();
    }

    /** @return the class, the message, and the tag or the file, with <code>?</code> for each control character, so that it is one line of a log */
    @Override
    public String toString() {
        return super.toString() + (what.isEmpty() ? "" : ": " + what.replaceAll("\\p{Cc}", "?"));
    }
}

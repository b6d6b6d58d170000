// SPDX-License-Identifier: MIT OR Apache-2.0
package bcp47;

/**
 * A text is no tag or no language range, a tag is not valid, its replacements can repeat a variant, or its explanation has
 * too many steps.
 */
public final class RefusedTag extends Refused {
    private static final long serialVersionUID = 1;

    RefusedTag(Refusal refusal, CharSequence tag) {
        super(refusal, tag);
    }

    /** Throws where a call that was asked for a tag is refused. */
    static void check(long[] ended, String text, CharSequence tag) {
        Refusal refusal = Refusal.of(ended, text);
        if (refusal != null) {
            throw new RefusedTag(refusal, tag);
        }
    }

    /** @return the text that is refused: no more than its first 1,024 characters */
    public String tag() {
        return what;
    }

    /** @return the variant that replacements can repeat, or null where that is not why */
    public String variant() {
        return refusal().variant();
    }
}

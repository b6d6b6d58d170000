// SPDX-License-Identifier: MIT OR Apache-2.0
package bcp47;

/**
 * What {@link Registry#answer} gives for a tag.
 *
 * @param canonical the canonical text, or null where the tag is refused
 * @param refusal why it is refused, or null where it is not
 */
public record Answer(String canonical, Refusal refusal) {
    /** The canonical text of a tag. */
    String get(CharSequence tag) {
        if (refusal != null) {
            throw new RefusedTag(refusal, tag);
        }
        return canonical;
    }

    /** @return the line that the program prints: the canonical text, or <code>! </code> and the refusal */
    @Override
    public String toString() {
        return refusal == null ? canonical : "! " + refusal;
    }
}

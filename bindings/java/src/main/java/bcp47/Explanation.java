// SPDX-License-Identifier: MIT OR Apache-2.0
package bcp47;

import java.util.List;

/**
 * The steps from a tag to its canonical form, and that form.
 *
 * @param steps the steps, in their order
 * @param canonical the canonical text
 */
public record Explanation(List<Step> steps, String canonical) {
    /** @return the explanation, as the program prints it, without the last line feed */
    @Override
    public String toString() {
        StringBuilder text = new StringBuilder();
        steps.forEach(step -> text.append(step).append('\n'));
        return text.append("= ").append(canonical).toString();
    }
}

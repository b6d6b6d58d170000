// SPDX-License-Identifier: MIT OR Apache-2.0
package bcp47;

/**
 * A part of a tag.
 *
 * @param kind its kind, for example <code>Script</code>
 * @param text its text, for example <code>Hant</code>
 */
public record Part(String kind, String text) {}

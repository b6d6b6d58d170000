// SPDX-License-Identifier: MIT OR Apache-2.0
package bcp47;

/**
 * A field of a record of the registry's file.
 *
 * @param name its name, for example <code>Description</code>
 * @param body its body, for example <code>Cantonese</code>
 */
public record Field(String name, String body) {}

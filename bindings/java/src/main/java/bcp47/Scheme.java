// SPDX-License-Identifier: MIT OR Apache-2.0
package bcp47;

/** How a language range matches tags (RFC 4647). */
public enum Scheme {
    /** Basic filtering (3.3.1): the tag is the range, or begins with it and a hyphen. */
    BASIC,
    /** Extended filtering (3.3.2): the subtags of the range are in the tag in their order. */
    EXTENDED,
    /** Lookup (3.4): the tag is the range, or what is left where that is cut from its end. */
    LOOKUP
}

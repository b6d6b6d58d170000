// SPDX-License-Identifier: MIT OR Apache-2.0
package bcp47;

/**
 * Which registry it is.
 *
 * @param fileDate the File-Date of the header, as <code>2025-05-15</code>; empty where there is none of that form
 * @param entries how many entries there are
 * @param sha256 the SHA-256 of the bytes that were read, in hexadecimal digits
 */
public record Info(String fileDate, long entries, String sha256) {}

// SPDX-License-Identifier: MIT OR Apache-2.0
/**
 * BCP 47 language tags (RFC 5646, with the extensions <code>u</code> and <code>t</code>), read and made canonical by
 * a registry of language subtags in the format of IANA's.
 */
package bcp47;

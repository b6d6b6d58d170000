// SPDX-License-Identifier: MIT OR Apache-2.0
package bcp47;

/** Bytes are no registry that passes the check, or one of no entries. The place is a line, or the number of a record. */
public final class RefusedRegistry extends Refused {
    private static final long serialVersionUID = 1;

    RefusedRegistry(Refusal refusal, String file) {
        super(refusal, file);
    }
}

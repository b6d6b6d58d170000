// SPDX-License-Identifier: MIT OR Apache-2.0
package bcp47;

/** Many calls are under way on a registry, and no memory was left for one more: it may be asked again. */
public final class BusyException extends RuntimeException {
    private static final long serialVersionUID = 1;

    BusyException() {
        super("bcp47: too many calls at once");
    }
}

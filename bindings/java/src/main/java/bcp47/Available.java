// SPDX-License-Identifier: MIT OR Apache-2.0
package bcp47;

import java.util.Arrays;
import java.util.Collection;
import java.util.List;

/**
 * The tags of which a service serves one to each reader, prepared once. Any number of threads may ask at once, also where the registry
 * is closed. It is freed by {@link #close}, or when it is collected; asked after that, each call throws IllegalStateException.
 */
public final class Available implements AutoCloseable {
    private final List<String> tags;
    private final Held held;

    Available(Held registry, Collection<? extends CharSequence> tags) {
        this.tags = tags.stream().map(CharSequence::toString).toList();
        byte[] all = Native.bytes(String.join("", this.tags));
        long[] lengths = this.tags.stream().mapToLong(tag -> Native.bytes(tag).length).toArray();
        long[] ended = Native.ended();
        registry.ask(address -> {
            Native.openAvailable(address, all, lengths, ended);
            return null;
        });
        RefusedTag.check(ended, null, ended[3] == 0 ? "" : this.tags.get((int) ended[3] - 1));
        held = new Held(this, "the list of available tags", ended[4], Native::closeAvailable);
    }

    private int ask(CharSequence accept, long[] places) {
        byte[] bytes = Native.bytes(accept == null ? "*" : accept);
        long[] ended = Native.ended();
        int found = held.ask(address -> Native.best(address, bytes, places, ended));
        RefusedTag.check(ended, null, accept);
        return found;
    }

    /**
     * The tag to serve to a reader (RFC 9110, 12.5.4; RFC 4647, 3.4).
     *
     * @param accept an Accept-Language header; null where there is none, so that the reader takes any tag
     * @return the tag, as it was handed in, or null where no range of the header serves one, so that the service takes its default
     * @throws RefusedTag where it is no such header
     */
    public String best(CharSequence accept) {
        int place = ask(accept, null);
        return place == 0 ? null : tags.get(place - 1);
    }

    /**
     * All tags that a header accepts.
     *
     * @param accept an Accept-Language header; null where there is none, so that the reader takes any tag
     * @return the tags, from the greatest weight to the least
     * @throws RefusedTag where it is no such header
     */
    public List<String> filter(CharSequence accept) {
        long[] places = new long[tags.size()];
        return Arrays.stream(places, 0, ask(accept, places)).mapToObj(place -> tags.get((int) place - 1)).toList();
    }

    /** @return the tags */
    @Override
    public String toString() {
        return "Available" + tags;
    }

    /** Closes it: calls that are under way end as they would. */
    @Override
    public void close() {
        held.close();
    }
}

package bcp47;

import com.sun.net.httpserver.Filter;
import com.sun.net.httpserver.HttpExchange;
import com.sun.net.httpserver.HttpServer;
import java.io.IOException;
import java.net.InetSocketAddress;
import java.nio.charset.StandardCharsets;
import java.nio.file.Path;
import java.util.Arrays;
import java.util.List;
import java.util.concurrent.Executors;

/**
 * Answers each request with the tag, of those that it is given, which the reader's Accept-Language header is served best by; a filter
 * finds it. It prints the port. Arguments: a registry, and the tags, of which the first is the default.
 */
final class Serve {
    /** The tag to serve for a request; the default where the header is malformed, or names no tag that there is. */
    private static String localized(Available available, String otherwise, HttpExchange exchange) {
        String language = null;
        try {
            List<String> header = exchange.getRequestHeaders().getOrDefault("Accept-Language", List.of("*"));
            language = available.best(String.join(", ", header));
        } catch (RefusedTag malformed) {
            // the default below
        }
        if (language == null) language = otherwise;
        exchange.getResponseHeaders().set("Content-Language", language);
        exchange.getResponseHeaders().add("Vary", "Accept-Language");
        return language;
    }

    public static void main(String[] words) throws IOException {
        Available available = Registry.open(Path.of(words[0])).available(Arrays.asList(words).subList(1, words.length));
        HttpServer server = HttpServer.create(new InetSocketAddress("127.0.0.1", 0), 0);
        server.createContext("/", exchange -> {
            byte[] page = (exchange.getAttribute("language") + "\n").getBytes(StandardCharsets.UTF_8);
            exchange.sendResponseHeaders(200, page.length);
            exchange.getResponseBody().write(page);
            exchange.close();
        }).getFilters().add(new Filter() {
            @Override
            public String description() {
                return "the language that a reader gets";
            }

            @Override
            public void doFilter(HttpExchange exchange, Chain chain) throws IOException {
                exchange.setAttribute("language", localized(available, words[1], exchange));
                chain.doFilter(exchange);
            }
        });
        server.setExecutor(Executors.newFixedThreadPool(8));
        server.start();
        System.out.println(server.getAddress().getPort());
    }
}

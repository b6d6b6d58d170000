// Serve answers each request with the tag, of those that it is given, which the reader's Accept-Language header is served best by; a
// middleware finds it. It prints the port. Arguments: a registry, and the tags, of which the first is the default.
package main

import (
	"context"
	"fmt"
	"log"
	"net"
	"net/http"
	"os"
	"strings"

	"langtag.example/bcp47"
)

// language is the key by which a handler finds the tag to serve: r.Context().Value(language{}).
type language struct{}

func localized(available *bcp47.Available, otherwise string, next http.Handler) http.Handler {
	return http.HandlerFunc(func(w http.ResponseWriter, r *http.Request) {
		header := "*"
		if lines := r.Header.Values("Accept-Language"); len(lines) > 0 {
			header = strings.Join(lines, ", ")
		}
		best, err := available.Best(header)
		if err != nil || best == "" {
			best = otherwise
		}
		w.Header().Set("Content-Language", best)
		w.Header().Add("Vary", "Accept-Language")
		next.ServeHTTP(w, r.WithContext(context.WithValue(r.Context(), language{}, best)))
	})
}

func main() {
	registry, err := bcp47.Open(os.Args[1])
	if err != nil {
		log.Fatal(err)
	}
	available, err := registry.Available(os.Args[2:]...)
	if err != nil {
		log.Fatal(err)
	}
	listener, err := net.Listen("tcp", "127.0.0.1:0")
	if err != nil {
		log.Fatal(err)
	}
	fmt.Println(listener.Addr().(*net.TCPAddr).Port)
	page := http.HandlerFunc(func(w http.ResponseWriter, r *http.Request) { fmt.Fprintln(w, r.Context().Value(language{})) })
	log.Fatal(http.Serve(listener, localized(available, os.Args[2], page)))
}

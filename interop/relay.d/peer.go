// A server and a client of HTTP/3 over quic-go, which update their keys after each 80 packets:
//
//	peer server ADDRESS CERT KEY FILE [retry]    serves FILE at /file, and each request's content at /echo
//	peer client ADDRESS PATH FILE OUT RESUMED    sends FILE to PATH, and writes what comes back to OUT; then resumes the
//	                                             session, gets /file by a request in 0-RTT packets, and writes it to RESUMED
//
// The client's secrets go to the file of SSLKEYLOGFILE.
package main

import (
	"bytes"
	"crypto/tls"
	"io"
	"log"
	"net"
	"net/http"
	"os"
	_ "unsafe" // for go:linkname

	"github.com/lucas-clemente/quic-go"
	"github.com/lucas-clemente/quic-go/http3"
)

//go:linkname keyUpdateInterval github.com/lucas-clemente/quic-go/internal/handshake.KeyUpdateInterval
var keyUpdateInterval uint64

func must[T any](value T, err error) T {
	if err != nil {
		log.Fatal(err)
	}
	return value
}

func serve(address, cert, key, file string, retries bool) error {
	content := must(os.ReadFile(file))
	mux := http.NewServeMux()
	mux.HandleFunc("/file", func(out http.ResponseWriter, _ *http.Request) { out.Write(content) })
	mux.HandleFunc("/echo", func(out http.ResponseWriter, in *http.Request) { io.Copy(out, in.Body) })
	server := http3.Server{
		Addr:    address,
		Handler: mux,
		TLSConfig: &tls.Config{
			Certificates: []tls.Certificate{must(tls.LoadX509KeyPair(cert, key))},
		},
		QuicConfig: config(),
	}
	server.QuicConfig.RequireAddressValidation = func(net.Addr) bool { return retries }
	return server.ListenAndServe()
}

// Small windows keep the round trips short.
func config() *quic.Config {
	const window = 8 << 10
	return &quic.Config{
		InitialStreamReceiveWindow:     window,
		MaxStreamReceiveWindow:         window,
		InitialConnectionReceiveWindow: window,
		MaxConnectionReceiveWindow:     window,
	}
}

func get(tlsConfig *tls.Config, method, url string, content []byte, out string) {
	transport := &http3.RoundTripper{TLSClientConfig: tlsConfig, QuicConfig: config()}
	defer transport.Close()
	request := must(http.NewRequest(method, url, bytes.NewReader(content)))
	response := must(transport.RoundTrip(request))
	if err := os.WriteFile(out, must(io.ReadAll(response.Body)), 0o600); err != nil {
		log.Fatal(err)
	}
}

func main() {
	keyUpdateInterval = 80
	words := os.Args[1:]
	if words[0] == "server" {
		log.Fatal(serve(words[1], words[2], words[3], words[4], len(words) > 5))
	}
	tlsConfig := &tls.Config{
		InsecureSkipVerify: true,
		KeyLogWriter:       must(os.OpenFile(os.Getenv("SSLKEYLOGFILE"), os.O_APPEND|os.O_CREATE|os.O_WRONLY, 0o600)),
		ClientSessionCache: tls.NewLRUClientSessionCache(1),
	}
	server := "https://" + words[1]
	get(tlsConfig, http.MethodPost, server+words[2], must(os.ReadFile(words[3])), words[4])
	get(tlsConfig, http3.MethodGet0RTT, server+"/file", nil, words[5])
}

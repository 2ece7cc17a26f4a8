/* Sends a file from a server to a client by OpenSSL 3.5's own QUIC. The client verifies that the server has the certificate, and
 * prints the file. The server ends after one client.
 *
 * Use: quic server PORT CERTIFICATE KEY FILE [unvalidated]
 *      quic client PORT CERTIFICATE SUITE
 *
 * A server validates the addresses of clients, by a token that it seals and opens again, unless it is told not to. */
#include "check.h"
#include <arpa/inet.h>
#include <netinet/in.h>
#include <openssl/bio.h>
#include <openssl/ssl.h>
#include <stdbool.h>
#include <stdint.h>
#include <string.h>
#include <sys/socket.h>

static const unsigned char protocols[] = {4, 'f', 'i', 'l', 'e'};
static unsigned char bytes[1 << 16];

static int select_protocol(SSL *ssl, const unsigned char **out, unsigned char *out_len, const unsigned char *in, unsigned in_len,
                           void *of) {
    unsigned char *selected;
    int how = SSL_select_next_proto(&selected, out_len, protocols, sizeof protocols, in, in_len);
    (void)ssl, (void)of;
    *out = selected;
    return how == OPENSSL_NPN_NEGOTIATED ? SSL_TLSEXT_ERR_OK : SSL_TLSEXT_ERR_ALERT_FATAL;
}

/* A socket that is bound to a port, or connected to it, as OpenSSL wants it: it doesn't block. */
static int udp(in_port_t port, bool binds) {
    struct sockaddr_in at = {.sin_family = AF_INET, .sin_port = htons(port), .sin_addr.s_addr = htonl(INADDR_LOOPBACK)};
    int fd = socket(AF_INET, SOCK_DGRAM, 0);
    CHECK(fd >= 0 && (binds ? bind : connect)(fd, (struct sockaddr *)&at, sizeof at) == 0 && BIO_socket_nbio(fd, 1));
    return fd;
}

static void serve(SSL_CTX *ctx, in_port_t port, const char *certificate, const char *key, const char *path, uint64_t flags) {
    FILE *file = fopen(path, "rb");
    SSL *listener = SSL_new_listener(ctx, flags), *client;
    size_t len;
    CHECK(file != NULL && listener != NULL && SSL_CTX_use_certificate_chain_file(ctx, certificate) == 1);
    CHECK(SSL_CTX_use_PrivateKey_file(ctx, key, SSL_FILETYPE_PEM) == 1);
    SSL_CTX_set_alpn_select_cb(ctx, select_protocol, NULL);
    CHECK(SSL_set_fd(listener, udp(port, true)) && SSL_listen(listener));
    client = SSL_accept_connection(listener, 0);
    CHECK(client != NULL && SSL_read_ex(client, bytes, 1, &len));
    while ((len = fread(bytes, 1, sizeof bytes, file)) > 0) CHECK(SSL_write_ex(client, bytes, len, &len));
    CHECK(SSL_stream_conclude(client, 0));
    /* The client ends its stream, or the connection, when it has all. */
    while (SSL_read_ex(client, bytes, sizeof bytes, &len)) continue;
    while (SSL_shutdown(client) == 0) continue;
    SSL_free(client);
    SSL_free(listener);
    fclose(file);
}

static void fetch(SSL_CTX *ctx, in_port_t port, const char *certificate, const char *suite) {
    struct in_addr host = {.s_addr = htonl(INADDR_LOOPBACK)};
    BIO_ADDR *peer = BIO_ADDR_new();
    SSL *server = SSL_new(ctx);
    size_t len;
    CHECK(peer != NULL && server != NULL && BIO_ADDR_rawmake(peer, AF_INET, &host, sizeof host, htons(port)));
    CHECK(SSL_set_fd(server, udp(port, false)) && SSL_set1_initial_peer_addr(server, peer) && SSL_set1_host(server, "localhost"));
    CHECK(SSL_CTX_load_verify_locations(ctx, certificate, NULL) && SSL_set_ciphersuites(server, suite));
    SSL_set_verify(server, SSL_VERIFY_PEER, NULL);
    CHECK(SSL_set_alpn_protos(server, protocols, sizeof protocols) == 0 && SSL_connect(server) == 1);
    CHECK(SSL_write_ex(server, "?", 1, &len));
    while (SSL_read_ex(server, bytes, sizeof bytes, &len)) CHECK(fwrite(bytes, 1, len, stdout) == len);
    CHECK(SSL_get_error(server, 0) == SSL_ERROR_ZERO_RETURN && SSL_stream_conclude(server, 0));
    while (SSL_shutdown(server) == 0) continue;
    SSL_free(server);
    BIO_ADDR_free(peer);
}

int main(int argc, char **argv) {
    bool serves = (argc == 6 || (argc == 7 && strcmp(argv[6], "unvalidated") == 0)) && strcmp(argv[1], "server") == 0;
    SSL_CTX *ctx = SSL_CTX_new(serves ? OSSL_QUIC_server_method() : OSSL_QUIC_client_method());
    in_port_t port;
    CHECK(ctx != NULL && (serves || (argc == 5 && strcmp(argv[1], "client") == 0)));
    port = (in_port_t)strtol(argv[2], NULL, 10);
    if (serves) {
        serve(ctx, port, argv[3], argv[4], argv[5], argc == 7 ? SSL_LISTENER_FLAG_NO_VALIDATE : 0);
    } else {
        fetch(ctx, port, argv[3], argv[4]);
    }
    SSL_CTX_free(ctx);
    return fflush(stdout) != 0;
}

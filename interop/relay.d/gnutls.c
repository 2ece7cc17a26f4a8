/* Loaded before gnutls-serv (LD_PRELOAD), which has no command for a key update: initiates two in each session, with the third
 * and the sixth content that it receives. The second asks the peer for one. It also has the server listen on the loopback. */
#define _GNU_SOURCE
#include <dlfcn.h>
#include <gnutls/gnutls.h>
#include <netinet/in.h>

ssize_t gnutls_record_recv(gnutls_session_t session, void *content, size_t len)
{
    static __typeof__(gnutls_record_recv) *own;
    static gnutls_session_t of;
    static int contents;

    if (!own)
        *(void **)&own = dlsym(RTLD_NEXT, "gnutls_record_recv");
    ssize_t received = own(session, content, len);
    if (of != session) {
        of = session;
        contents = 0;
    }
    if (received > 0) {
        contents++;
        if (contents == 3 || contents == 6)
            gnutls_session_key_update(session, contents == 6 ? GNUTLS_KU_PEER : 0);
    }
    return received;
}

int bind(int socket, const struct sockaddr *address, socklen_t len)
{
    static __typeof__(bind) *own;
    struct sockaddr_in6 copy;

    if (!own)
        *(void **)&own = dlsym(RTLD_NEXT, "bind");
    if (len > sizeof(copy))
        return own(socket, address, len);
    __builtin_memcpy(&copy, address, len);
    if (address->sa_family == AF_INET)
        ((struct sockaddr_in *)&copy)->sin_addr.s_addr = htonl(INADDR_LOOPBACK);
    if (address->sa_family == AF_INET6)
        copy.sin6_addr = in6addr_loopback;
    return own(socket, (struct sockaddr *)&copy, len);
}

/* Loaded before ngtcp2's programs (LD_PRELOAD): initiates a key update after each 40 datagrams, or as soon as ngtcp2 allows it
 * after them. */
#define _GNU_SOURCE
#include <dlfcn.h>
#include <ngtcp2/ngtcp2.h>

int ngtcp2_conn_read_pkt_versioned(ngtcp2_conn *conn, const ngtcp2_path *path, int version, const ngtcp2_pkt_info *info,
                                   const uint8_t *datagram, size_t len, ngtcp2_tstamp now)
{
    static __typeof__(ngtcp2_conn_read_pkt_versioned) *own;
    static int datagrams;

    if (!own)
        *(void **)&own = dlsym(RTLD_NEXT, "ngtcp2_conn_read_pkt_versioned");
    int status = own(conn, path, version, info, datagram, len, now);
    if (status == 0 && ngtcp2_conn_get_handshake_completed(conn) && ++datagrams > 40 &&
        ngtcp2_conn_initiate_key_update(conn, now) == 0)
        datagrams = 0;
    return status;
}

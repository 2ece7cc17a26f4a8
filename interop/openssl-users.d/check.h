/* Ends the program, with its line and the errors of OpenSSL, unless a condition holds. */
#include <openssl/err.h>
#include <stdio.h>
#include <stdlib.h>

#define CHECK(is)                                                    \
    do {                                                             \
        if (!(is)) {                                                 \
            fprintf(stderr, "failed: line %d, %s\n", __LINE__, #is); \
            ERR_print_errors_fp(stderr);                             \
            exit(1);                                                 \
        }                                                            \
    } while (0)

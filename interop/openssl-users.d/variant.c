/* In the place of the calls of cipher_test_enc in OpenSSL's test/evp_test.c, which includes this file: prints a line for
 * each variant of a stanza, with the cipher's provider, and goes on after one that splits the message and fails. */
static int variant(EVP_TEST *t, int enc, size_t out_misalign, size_t inp_misalign, int frag) {
    const CIPHER_DATA *data = t->data;
    int done = cipher_test_enc(t, enc, out_misalign, inp_misalign, frag);
    const char *reason = t->err == NULL ? "passes" : ERR_reason_error_string(ERR_peek_last_error());
    printf("variant %s %s %s %s\n", OSSL_PROVIDER_get0_name(EVP_CIPHER_get0_provider(data->cipher)),
           frag ? "split" : "whole", enc ? "sealing" : "opening", reason == NULL ? t->err : reason);
    fflush(stdout);
    if (t->err == NULL || !frag) return done;
    ERR_clear_error();
    t->err = NULL;
    return 1;
}

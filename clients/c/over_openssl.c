/* libmondlexi over TLS, by OpenSSL 3: adds one to word 0 of the tenant t, and prints the word.

       over_openssl SERVER NAME AUTHORITY

   SERVER: HOST:PORT of a proxy that speaks TLS. NAME: the name or address that its certificate must have. AUTHORITY: a file of the
   certificates that are trusted. Used by: whoever wants to copy `by_openssl`; scripts/check-clients. Status 0 if it was done. */
#include <inttypes.h>
#include <mondlexi.h>
#include <openssl/err.h>
#include <openssl/ssl.h>
#include <openssl/x509v3.h>
#include <signal.h>
#include <stdio.h>

/* What the streams are made by. */
typedef struct {
    SSL_CTX *context;
    const char *name;
} security;

static void *begin(void *context, int socket) {
    const security *by = context;
    SSL *ssl = SSL_new(by->context);
    if (!ssl || !SSL_set_fd(ssl, socket)) {
        SSL_free(ssl);
        return NULL;
    }
    /* The certificate must have this address, or else this name, which the greeting then tells the server. */
    if (!X509_VERIFY_PARAM_set1_ip_asc(SSL_get0_param(ssl), by->name) &&
        (!SSL_set1_host(ssl, by->name) || !SSL_set_tlsext_host_name(ssl, by->name))) {
        SSL_free(ssl);
        return NULL;
    }
    SSL_set_connect_state(ssl);
    return ssl;
}

/* What the library is told of a call of OpenSSL. */
static int code_of(SSL *ssl, int told) {
    if (told > 0) {
        return told;
    }
    switch (SSL_get_error(ssl, told)) {
    case SSL_ERROR_WANT_READ:
        return MONDLEXI_WAIT_TO_READ;
    case SSL_ERROR_WANT_WRITE:
        return MONDLEXI_WAIT_TO_WRITE;
    default:
        return MONDLEXI_ENDED;
    }
}

static int greet(void *stream) {
    ERR_clear_error();
    int code = code_of(stream, SSL_do_handshake(stream));
    if (code == MONDLEXI_ENDED) {
        fprintf(stderr, "over_openssl: %s\n", X509_verify_cert_error_string(SSL_get_verify_result(stream)));
    }
    return code;
}

static int send_bytes(void *stream, const char *bytes, int count) {
    ERR_clear_error();
    return code_of(stream, SSL_write(stream, bytes, count));
}

static int receive_bytes(void *stream, char *bytes, int room) {
    ERR_clear_error();
    return code_of(stream, SSL_read(stream, bytes, room));
}

static void end(void *stream) {
    ERR_clear_error();
    SSL_shutdown(stream);
    SSL_free(stream);
}

/* Streams of TLS. `by` must live as long as what is given back, and that as long as the client. */
static mondlexi_streams by_openssl(security *by) {
    mondlexi_streams streams = {begin, greet, send_bytes, receive_bytes, end, by};
    return streams;
}

static mondlexi_status add_one(mondlexi_client *client) {
    mondlexi_entry entry = {0, 0, 0};
    mondlexi_status status = mondlexi_get(client, 0, &entry.expected);
    entry.value = entry.expected + 1;
    if (!status) {
        status = mondlexi_cas(client, &entry, 1, NULL);
    }
    if (!status) {
        printf("%" PRIu64 "\n", entry.value);
    }
    return status;
}

int main(int count, char **words) {
    if (count != 4) {
        fprintf(stderr, "usage: over_openssl SERVER NAME AUTHORITY\n");
        return 2;
    }
    signal(SIGPIPE, SIG_IGN); /* OpenSSL writes to a connection that may have ended */
    security by = {SSL_CTX_new(TLS_client_method()), words[2]};
    if (!by.context || !SSL_CTX_load_verify_file(by.context, words[3])) {
        fprintf(stderr, "over_openssl: no certificates are in %s\n", words[3]);
        SSL_CTX_free(by.context);
        return 1;
    }
    SSL_CTX_set_verify(by.context, SSL_VERIFY_PEER, NULL);
    mondlexi_streams streams = by_openssl(&by);
    mondlexi_options options = MONDLEXI_DEFAULTS;
    options.timeout = 3000;
    options.streams = &streams;
    mondlexi_client *client;
    mondlexi_status status = mondlexi_connect(&client, words[1], "t", &options);
    status = status ? status : add_one(client);
    if (status) {
        fprintf(stderr, "%s: %s\n", mondlexi_meaning(status), client ? mondlexi_text(client) : "");
    }
    mondlexi_free(client);
    SSL_CTX_free(by.context);
    return status ? 1 : 0;
}

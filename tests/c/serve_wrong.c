/* serve_wrong.c: what is refused, by the table of crates/ti_http. */
#define _GNU_SOURCE
#include "served.h"

#include <unistd.h>

#define HOST "Host: localhost\r\n"
#define END "\r\n\r\n"

typedef struct {
    const char *request;
    int status;
    bool goes_on;       /* the connection stays */
    const char *field;  /* that the answer has, or NULL */
} wrong;

static const wrong WRONG[] = {
    { "nonsense" END, 400, false, NULL },
    { "GET / HTTP/1.1\n" HOST "\r\n", 400, false, NULL },
    { "GET / HTTP/1.1" END, 400, false, NULL },
    { "GET / HTTP/1.1\r\n" HOST HOST "\r\n", 400, false, NULL },
    { "GET / HTTP/1.1\r\n" HOST "Content-Length: x" END, 400, false, NULL },
    { "GET / HTTP/2.0\r\n" HOST "\r\n", 505, false, NULL },
    { "GET / HTTP/1.1\r\n" HOST "Content-Length: 3" END "abc", 413, false, NULL },
    { "GET / HTTP/1.1\r\n" HOST "Transfer-Encoding: chunked" END "0" END, 413, false, NULL },
    { "GET / HTTP/1.1\r\nHost: example.org" END, 421, true, NULL },
    { "GET / HTTP/1.1\r\nHost: 127.0.0.1:1" END, 421, true, NULL },
    { "GET / HTTP/1.1\r\n" HOST "Sec-Fetch-Site: cross-site" END, 403, true, NULL },
    { "POST / HTTP/1.1\r\n" HOST "\r\n", 405, true, "Allow: GET, HEAD" },
    { "DELETE /threads HTTP/1.1\r\n" HOST "\r\n", 405, true, "Allow: GET, HEAD" },
    { "OPTIONS / HTTP/1.1\r\n" HOST "\r\n", 405, true, "Allow: GET, HEAD" },
    { "BREW / HTTP/1.1\r\n" HOST "\r\n", 501, true, NULL },
    { "GET http://localhost/ HTTP/1.1\r\n" HOST "\r\n", 400, false, NULL },
    { "GET /debug HTTP/1.1\r\n" HOST "\r\n", 404, true, NULL },
    { "GET /%2e HTTP/1.1\r\n" HOST "\r\n", 404, true, NULL },
    { "GET /metrics?x=1 HTTP/1.1\r\n" HOST "\r\n", 400, true, NULL },
    { "GET /debug/pprof/threads?debug=3 HTTP/1.1\r\n" HOST "\r\n", 400, true, NULL },
    { "GET /debug/pprof/profile?seconds=0 HTTP/1.1\r\n" HOST "\r\n", 400, true, NULL },
    { "GET /debug/pprof/profile?seconds=301 HTTP/1.1\r\n" HOST "\r\n", 400, true, NULL },
    { "GET /debug/pprof/profile?rate=1001 HTTP/1.1\r\n" HOST "\r\n", 400, true, NULL },
    { "GET /debug/pprof/profile?rate=1&rate=1 HTTP/1.1\r\n" HOST "\r\n", 400, true, NULL },
    { "GET /debug/pprof/profile?labels=all HTTP/1.1\r\n" HOST "\r\n", 400, true, NULL },
};

static void expect(int socket, int status, bool goes_on, const char *line) {
    answer got;
    hear(socket, &got, false);
    SAME(got.status, status);
    CHECK(has_field(&got, "X-Go-Pprof: 1"));
    CHECK(has_field(&got, goes_on ? "Connection: keep-alive" : "Connection: close"));
    CHECK(line == NULL || has_field(&got, line));
    CHECK(!strstr(got.head, "Access-Control"));
    CHECK(got.length > 0);
    forget(&got);
    if (goes_on) {
        say(socket, "GET / HTTP/1.1\r\n" HOST "\r\n");
        hear(socket, &got, false);
        SAME(got.status, 200);
        forget(&got);
    } else {
        CHECK(is_closed(socket));
    }
    close(socket);
}

static void refuses(const wrong *one) {
    int socket = dial(&server);
    say(socket, one->request);
    expect(socket, one->status, one->goes_on, one->field);
}

/* A request whose target, or one of whose fields, has so many bytes. */
static void refuses_long(const char *front, size_t count, const char *back, int status) {
    char *text = malloc(strlen(front) + count + strlen(back) + 1);
    int socket = dial(&server);
    strcpy(text, front);
    memset(text + strlen(front), 'a', count);
    strcpy(text + strlen(front) + count, back);
    say(socket, text);
    expect(socket, status, false, NULL);
    free(text);
}

static void refuses_many_fields(void) {
    char text[4096] = "GET / HTTP/1.1\r\n" HOST;
    int socket = dial(&server);
    for (int i = 0; i < 64; i++) {
        strcat(text, "A: b\r\n");
    }
    say(socket, strcat(text, "\r\n"));
    expect(socket, 431, false, NULL);
}

void refuses_what_is_wrong(void) {
    for (size_t i = 0; i < sizeof WRONG / sizeof *WRONG; i++) {
        refuses(&WRONG[i]);
    }
    refuses_long("GET /", 1024, " HTTP/1.1\r\n" HOST "\r\n", 414);
    refuses_long("GET /", 20000, "", 414);
    refuses_long("GET / HTTP/1.1\r\n" HOST "A: ", 9000, "\r\n\r\n", 431);
    refuses_many_fields();
}

/* A desk in C, as the floor beside which the program is measured: one thread,
 * the sqlite3 library with prepared statements, WAL, synchronous=FULL, one
 * commit per command, one request per connection. It answers the measured
 * routes alone, with sample tokens and times in UTC.
 *
 *   cc -O2 -o desk desk.c -lsqlite3 && ./desk DB PORT SCHEMA
 */
#define _GNU_SOURCE
#include <arpa/inet.h>
#include <netinet/in.h>
#include <signal.h>
#include <sqlite3.h>
#include <stdarg.h>
#include <stdio.h>
#include <stdlib.h>
#include <string.h>
#include <sys/random.h>
#include <sys/socket.h>
#include <time.h>
#include <unistd.h>

typedef long long i64;
static sqlite3 *db;
static char *out; /* the body of the answer */
static size_t out_n, out_room;
static const char *type;
static const char *PORTAL = "\"user-portal-url\":\"https://wifi.example/portal\"";
static const char ALPHABET[] = "23456789ABCDEFGHJKMNPQRSTUVWXYZ";

#define DIE(...) (fprintf(stderr, __VA_ARGS__), exit(3))

__attribute__((format(printf, 1, 2))) static void put(const char *f, ...) {
    va_list a;
    if (out_n + 512 > out_room && !(out = realloc(out, out_room = out_room * 2 + 4096))) DIE("memory\n");
    va_start(a, f);
    out_n += (size_t)vsnprintf(out + out_n, 512, f, a);
    va_end(a);
}

static int refuse(int status, const char *word) {
    out_n = 0;
    type = "application/json";
    put("{\"error\":\"%s\"}", word);
    return status;
}

/* --- statements -------------------------------------------------------- */
enum {
    BEGIN, COMMIT, ROLLBACK, HEAD, SET_HEAD, PLAN, ADD_PLAN, BATCH, ADD_BATCH, ADD_VOUCHER, ADD_COUNT,
    VOUCHER, SELL, LAST, ADD_SESSION, ADD_GRANT, ADD_TOTAL, EXTEND, COUNT_UP, OPEN, PRINT, SESSION, USED,
    LESS, STATEMENTS
};
static const char *SQL[STATEMENTS] = {
    "BEGIN IMMEDIATE", "COMMIT", "ROLLBACK",
    "SELECT last_moment, grants, sessions FROM portal_head WHERE id=1",
    "UPDATE portal_head SET last_moment=?1, grants=?2, sessions=?3 WHERE id=1",
    "SELECT price, uses, seconds, bytes, shelf_days, extend FROM portal_plans WHERE id=?1",
    "INSERT INTO portal_plans VALUES(?1,?2,?3,?4,?5,?6,?7)",
    "SELECT plan_id, expires FROM portal_batches WHERE id=?1",
    "INSERT INTO portal_batches VALUES(?1,?2,?3,?4,?5)",
    "INSERT INTO portal_vouchers VALUES(?1,?2,?3,NULL,NULL,NULL)",
    "INSERT INTO portal_counts VALUES(?1,0)",
    "SELECT v.sold, v.refunded, b.expires, b.plan_id, p.price, p.uses, p.seconds, p.bytes, c.redeemed"
    " FROM portal_vouchers v JOIN portal_batches b ON b.id=v.batch_id JOIN portal_plans p ON p.id=b.plan_id"
    " JOIN portal_counts c ON c.code=v.code WHERE v.code=?1",
    "UPDATE portal_vouchers SET sold=?2 WHERE code=?1",
    "SELECT s.number, s.closed, p.extend, p.seconds, p.bytes, t.ends, t.remaining FROM portal_sessions s"
    " JOIN portal_plans p ON p.id=s.plan_id JOIN portal_totals t ON t.number=s.number"
    " WHERE s.device=?1 ORDER BY s.number DESC LIMIT 1",
    "INSERT INTO portal_sessions VALUES(?1,?2,?3,?4,0,NULL)",
    "INSERT INTO portal_grants VALUES(?1,?2,?3,?4,?5,?6)",
    "INSERT INTO portal_totals VALUES(?1,?2,?3)",
    "UPDATE portal_totals SET ends=ends+?2, remaining=remaining+?3 WHERE number=?1",
    "UPDATE portal_counts SET redeemed=redeemed+1 WHERE code=?1",
    "SELECT t.number, s.device, t.ends, t.remaining FROM portal_totals t"
    " JOIN portal_sessions s ON s.number=t.number WHERE s.closed IS NULL AND (t.ends IS NULL OR t.ends>?1)"
    " AND (t.remaining IS NULL OR t.remaining>0) ORDER BY t.number",
    "SELECT code FROM portal_vouchers WHERE batch_id=?1 ORDER BY place",
    "SELECT s.used, s.closed, t.ends, t.remaining FROM portal_sessions s"
    " JOIN portal_totals t ON t.number=s.number WHERE s.number=?1",
    "UPDATE portal_sessions SET used=?2 WHERE number=?1",
    "UPDATE portal_totals SET remaining=remaining-?2 WHERE number=?1",
};
static sqlite3_stmt *st[STATEMENTS];

static void end(int s) { sqlite3_reset(st[s]); }
static i64 col(int s, int at) { return sqlite3_column_int64(st[s], at); }
static int null(int s, int at) { return sqlite3_column_type(st[s], at) == SQLITE_NULL; }

/* The next row of a statement: 1, or 0 at its end. */
static int step(int s) {
    int rc = sqlite3_step(st[s]);
    if (rc == SQLITE_ROW) return 1;
    if (rc != SQLITE_DONE) DIE("%s: %s\n", SQL[s], sqlite3_errmsg(db));
    end(s);
    return 0;
}

/* Begins a statement with these values, an i64 for each i and a string for each
 * t, and makes its first step. A - is null. */
static int run(int s, const char *types, ...) {
    va_list a;
    end(s);
    va_start(a, types);
    for (int at = 1; *types; at++, types++) {
        if (*types == 'i') sqlite3_bind_int64(st[s], at, va_arg(a, i64));
        else if (*types == 't') sqlite3_bind_text(st[s], at, va_arg(a, const char *), -1, SQLITE_TRANSIENT);
        else sqlite3_bind_null(st[s], at);
    }
    va_end(a);
    return step(s);
}

static i64 t, grants, sessions; /* effective moment and head */
static void head(void) {
    run(HEAD, "");
    t = time(0);
    if (col(HEAD, 0) > t) t = col(HEAD, 0);
    grants = col(HEAD, 1);
    sessions = col(HEAD, 2);
    end(HEAD);
}

static void begin(void) {
    run(BEGIN, "");
    head();
}

static int undo(int status, const char *word) {
    run(ROLLBACK, "");
    return refuse(status, word);
}

static int commit(void) {
    run(SET_HEAD, "iii", t, grants, sessions);
    run(COMMIT, "");
    return 200;
}

/* --- commands ---------------------------------------------------------- */
/* The string or number of a flat JSON object; enough for the bodies sent. */
static int field(const char *body, const char *key, char *to, size_t room) {
    char name[40];
    snprintf(name, sizeof name, "\"%s\"", key);
    const char *p = strstr(body, name);
    if (!p) return 0;
    p += strlen(name);
    while (*p == ' ' || *p == ':') p++;
    int quoted = *p == '"';
    p += quoted;
    size_t n = strcspn(p, quoted ? "\"" : ",} ");
    if (n + 1 > room) return 0;
    memcpy(to, p, n);
    to[n] = 0;
    return 1;
}

static void add_plan(const char *id, const i64 *v) {
    if (!run(PLAN, "t", id)) run(ADD_PLAN, "tiiiiii", id, v[0], v[1], v[2], v[3], v[4], v[5]);
    end(PLAN);
}

static int plans(char *body) {
    static const char *keys[] = {"price", "uses", "seconds", "bytes", "shelf_days", "extend"};
    char id[40] = "";
    i64 v[6] = {0};
    int n = 0;
    begin();
    for (char *l = strtok(body, "\n"); l; l = strtok(0, "\n")) {
        if (!strncmp(l, "[[plan]]", 8)) {
            if (n++) add_plan(id, v);
        } else if (sscanf(l, "id = \"%32[a-z0-9-]\"", id) != 1)
            for (int k = 0; k < 6; k++) {
                size_t m = strlen(keys[k]);
                if (strncmp(l, keys[k], m) || strncmp(l + m, " = ", 3)) continue;
                v[k] = l[m + 3] == 't' ? 1 : atoll(l + m + 3);
            }
    }
    if (n) add_plan(id, v);
    put("{\"plans\":%d}", n);
    return commit();
}

static void draw_code(char *p) {
    unsigned w[15], sum = 0;
    if (getrandom(w, sizeof w, 0) != sizeof w) DIE("random\n");
    for (int i = 0; i < 16; i++) {
        unsigned v = i < 15 ? w[i] % 31 : (31 - sum % 31) % 31;
        sum += v * (unsigned)(i + 2);
        *p++ = ALPHABET[v];
        if (i == 3 || i == 7 || i == 11) *p++ = '-';
    }
    *p = 0;
}

static int issue(const char *body) {
    char id[40], plan[40], count[20], code[24];
    if (!field(body, "batch", id, sizeof id) || !field(body, "plan", plan, sizeof plan) ||
        !field(body, "count", count, sizeof count))
        return refuse(400, "bad_request");
    i64 n = atoll(count);
    if (n < 1 || n > 500) return refuse(400, "bad_request");
    begin();
    if (!run(PLAN, "t", plan)) return undo(404, "unknown_plan");
    i64 expires = t + col(PLAN, 4) * 86400;
    end(PLAN);
    int is_known = run(BATCH, "t", id);
    end(BATCH);
    if (is_known) return undo(409, "batch_exists");
    run(ADD_BATCH, "ttiii", id, plan, t, expires, n);
    for (i64 place = 0; place < n; place++) {
        draw_code(code);
        run(ADD_VOUCHER, "tti", code, id, place);
        run(ADD_COUNT, "t", code);
    }
    put("{\"batch\":\"%s\",\"count\":%lld,\"expires\":%lld}", id, n, expires);
    return commit();
}

static int sell(const char *body) {
    char code[40];
    if (!field(body, "code", code, sizeof code)) return refuse(400, "bad_request");
    begin();
    if (!run(VOUCHER, "t", code)) return undo(404, "unknown_code");
    int sold = !null(VOUCHER, 0), expired = col(VOUCHER, 2) <= t;
    i64 price = col(VOUCHER, 4);
    end(VOUCHER);
    if (sold) return undo(409, "sold_already");
    if (expired) return undo(410, "expired");
    run(SELL, "ti", code, t);
    put("{\"code\":\"%s\",\"price\":%lld}", code, price);
    return commit();
}

/* Whether the device's last session is open; its row is the one of LAST. */
static int last_open(const char *device) {
    return run(LAST, "t", device) && null(LAST, 1) && (null(LAST, 5) || t < col(LAST, 5)) &&
           (null(LAST, 6) || col(LAST, 6) > 0);
}

/* Adds to the open session of LAST; gives its number, or 0 after a refusal. */
static i64 extend(i64 seconds, i64 bytes, int *status) {
    i64 number = col(LAST, 0);
    int keeps = !col(LAST, 2), differs = !col(LAST, 3) != !seconds || !col(LAST, 4) != !bytes;
    end(LAST);
    if (keeps || differs) {
        *status = undo(409, keeps ? "no_extend" : "shape_differs");
        return 0;
    }
    run(EXTEND, "iii", number, seconds, bytes);
    return number;
}

static i64 open_session(const char *device, const char *plan, i64 seconds, i64 bytes) {
    char types[] = "i--";
    end(LAST);
    run(ADD_SESSION, "itti", ++sessions, device, plan, t);
    if (seconds) types[1] = 'i';
    if (bytes) types[2] = 'i';
    run(ADD_TOTAL, types, sessions, seconds ? t + seconds : bytes, bytes);
    return sessions;
}

/* Why the voucher of the row of VOUCHER cannot be redeemed, or null. */
static const char *unredeemable(void) {
    if (null(VOUCHER, 0)) return "not_sold";
    if (!null(VOUCHER, 1)) return "refunded";
    if (col(VOUCHER, 2) <= t) return "expired";
    return col(VOUCHER, 8) >= col(VOUCHER, 5) ? "used_up" : 0;
}

static int redeem(const char *device, const char *body) {
    char code[40], plan[40];
    int status = 0;
    if (!field(body, "code", code, sizeof code)) return refuse(400, "bad_request");
    begin();
    if (!run(VOUCHER, "t", code)) return undo(404, "unknown_code");
    const char *why = unredeemable();
    i64 left = col(VOUCHER, 5) - col(VOUCHER, 8) - 1, seconds = col(VOUCHER, 6), bytes = col(VOUCHER, 7);
    snprintf(plan, sizeof plan, "%s", sqlite3_column_text(st[VOUCHER], 3));
    end(VOUCHER);
    if (why) return undo(strcmp(why, "expired") ? 409 : 410, why);
    int extended = last_open(device);
    i64 number = extended ? extend(seconds, bytes, &status) : open_session(device, plan, seconds, bytes);
    if (!number) return status;
    run(ADD_GRANT, "itiiii", ++grants, code, number, t, seconds, bytes);
    run(COUNT_UP, "t", code);
    put("{\"extended\":%s,\"session\":%lld,\"uses_left\":%lld}", extended ? "true" : "false", number, left);
    return commit();
}

static int report(const char *body) {
    char a[24], b[24];
    if (!field(body, "session", a, sizeof a) || !field(body, "bytes", b, sizeof b))
        return refuse(400, "bad_request");
    i64 n = atoll(a), bytes = atoll(b);
    begin();
    if (!run(SESSION, "i", n)) return undo(404, "unknown_session");
    i64 used = col(SESSION, 0), more = bytes > used ? bytes - used : 0;
    int open = null(SESSION, 1) && (null(SESSION, 2) || t < col(SESSION, 2)) &&
               (null(SESSION, 3) || col(SESSION, 3) - more > 0);
    end(SESSION);
    if (more) {
        run(USED, "ii", n, bytes);
        run(LESS, "ii", n, more);
    }
    put("{\"open\":%s,\"session\":%lld,\"used\":%lld}", open ? "true" : "false", n, used + more);
    return commit();
}

/* --- questions --------------------------------------------------------- */
static int captive(const char *device) {
    head();
    type = "application/captive+json";
    if (last_open(device)) {
        put("{");
        if (!null(LAST, 6)) put("\"bytes-remaining\":%lld,", col(LAST, 6));
        put("\"can-extend-session\":%s,\"captive\":false,", col(LAST, 2) ? "true" : "false");
        if (!null(LAST, 5)) put("\"seconds-remaining\":%lld,", col(LAST, 5) - t);
        put("%s}", PORTAL);
    } else put("{\"captive\":true,%s}", PORTAL);
    end(LAST);
    return 200;
}

static int open_now(void) {
    const char *comma = "";
    head();
    put("{\"sessions\":[");
    for (int more = run(OPEN, "i", t); more; more = step(OPEN), comma = ",") {
        put("%s{", comma);
        if (!null(OPEN, 3)) put("\"bytes-remaining\":%lld,", col(OPEN, 3));
        put("\"device\":\"%s\"", sqlite3_column_text(st[OPEN], 1));
        if (!null(OPEN, 2)) put(",\"seconds-remaining\":%lld", col(OPEN, 2) - t);
        put(",\"session\":%lld}", col(OPEN, 0));
    }
    put("]}");
    return 200;
}

static int print(const char *id) {
    char plan[40], expires[32];
    if (!run(BATCH, "t", id)) return refuse(404, "unknown_batch");
    snprintf(plan, sizeof plan, "%s", sqlite3_column_text(st[BATCH], 0));
    time_t e = col(BATCH, 1);
    strftime(expires, sizeof expires, "%Y-%m-%d %H:%M", gmtime(&e));
    end(BATCH);
    run(PLAN, "t", plan);
    i64 price = col(PLAN, 0), seconds = col(PLAN, 2), bytes = col(PLAN, 3);
    end(PLAN);
    type = "text/csv; charset=utf-8";
    put("code,plan,seconds,bytes,price,expires\n");
    for (int more = run(PRINT, "t", id); more; more = step(PRINT)) {
        put("%s,%s,", sqlite3_column_text(st[PRINT], 0), plan);
        if (seconds) put("%lld", seconds);
        put(",");
        if (bytes) put("%lld", bytes);
        put(",%lld.%02lld,%s\n", price / 100, price % 100, expires);
    }
    return 200;
}

/* --- requests ---------------------------------------------------------- */
static int header(const char *in, const char *name, char *to, size_t room) {
    const char *p = strcasestr(in, name);
    if (!p) return 0;
    p += strlen(name);
    while (*p == ' ') p++;
    size_t n = strcspn(p, "\r\n");
    if (n >= room) return 0;
    memcpy(to, p, n);
    to[n] = 0;
    return 1;
}

static int ask_guest(const char *in, const char *body, int get) {
    char who[160];
    if (!header(in, "\r\nportal-device:", who, sizeof who) || strlen(who) != 17)
        return refuse(400, "bad_device");
    for (char *p = who; *p; p++) {
        if (*p >= 'A' && *p <= 'F') *p |= 32;
        else if (*p == '-') *p = ':';
    }
    return get ? captive(who) : redeem(who, body);
}

static int answer(const char *in, char *body) {
    char method[8], target[256], who[160] = "";
    out_n = 0;
    type = "application/json";
    if (sscanf(in, "%7s %255s HTTP/1.1\r\n", method, target) != 2 || !strcasestr(in, "\r\nhost:"))
        return refuse(400, "bad_request");
    int get = !strcmp(method, "GET");
    if (!strcmp(target, "/captive") || !strcmp(target, "/portal/redeem")) return ask_guest(in, body, get);
    header(in, "\r\nportal-token:", who, sizeof who);
    const char *token = strncmp(target, "/gateway/", 9) ? "desk-token" : "gate-token";
    if (strcmp(who, token)) return refuse(403, "forbidden");
    if (!strcmp(target, "/gateway/sessions")) return open_now();
    if (!strcmp(target, "/gateway/reports")) return report(body);
    if (!strcmp(target, "/desk/sales")) return sell(body);
    if (!strcmp(target, "/desk/batches")) return issue(body);
    if (!strcmp(target, "/desk/plans")) return plans(body);
    size_t n = strlen(target);
    if (!get || n < 21 || strncmp(target, "/desk/batches/", 14) || strcmp(target + n - 6, "/print"))
        return refuse(404, "no_route");
    target[n - 6] = 0;
    return print(target + 14);
}

/* Reads a request to its end and answers it. */
static void serve(int c) {
    static char in[80000], first[400], date[40], length[24];
    char *gap = 0;
    size_t n = 0;
    for (ssize_t r; n < sizeof in - 1 && (r = read(c, in + n, sizeof in - 1 - n)) > 0;) {
        in[n += (size_t)r] = 0;
        if (!gap) gap = strstr(in, "\r\n\r\n");
        if (gap && (!header(in, "\r\ncontent-length:", length, sizeof length) ||
                    n >= (size_t)(gap + 4 - in) + (size_t)atol(length)))
            break;
    }
    int status = gap ? answer(in, gap + 4) : refuse(400, "bad_request");
    time_t now = time(0);
    strftime(date, sizeof date, "%a, %d %b %Y %H:%M:%S GMT", gmtime(&now));
    size_t h = (size_t)snprintf(first, sizeof first,
                                "HTTP/1.1 %d %s\r\nDate: %s\r\nContent-Type: %s\r\nContent-Length: %zu\r\n"
                                "Cache-Control: no-store\r\nConnection: close\r\n\r\n",
                                status, status == 200 ? "OK" : "Refused", date, type, out_n);
    if (out_n + h + 1 > out_room && !(out = realloc(out, out_room = out_n + h + 4096))) DIE("memory\n");
    memmove(out + h, out, out_n);
    memcpy(out, first, h);
    for (size_t at = 0, all = out_n + h; at < all;) {
        ssize_t w = write(c, out + at, all - at);
        if (w <= 0) break;
        at += (size_t)w;
    }
}

static void open_database(const char *path, const char *schema_path) {
    static char schema[8192];
    char *error = 0;
    FILE *f = fopen(schema_path, "r");
    if (!f || !fread(schema, 1, sizeof schema - 1, f)) DIE("schema\n");
    fclose(f);
    const char *pragmas = "PRAGMA journal_mode=WAL; PRAGMA synchronous=FULL; PRAGMA foreign_keys=ON;";
    if (sqlite3_open(path, &db) || sqlite3_exec(db, pragmas, 0, 0, &error) ||
        sqlite3_exec(db, schema, 0, 0, &error))
        DIE("open: %s\n", error ? error : "");
    for (int i = 0; i < STATEMENTS; i++)
        if (sqlite3_prepare_v3(db, SQL[i], -1, SQLITE_PREPARE_PERSISTENT, &st[i], 0))
            DIE("%s: %s\n", SQL[i], sqlite3_errmsg(db));
}

int main(int argc, char **argv) {
    if (argc != 4) DIE("usage: desk DB PORT SCHEMA\n");
    open_database(argv[1], argv[3]);
    signal(SIGPIPE, SIG_IGN);
    int s = socket(AF_INET, SOCK_STREAM, 0), one = 1;
    struct sockaddr_in a = {.sin_family = AF_INET, .sin_port = htons((unsigned short)atoi(argv[2]))};
    a.sin_addr.s_addr = htonl(INADDR_LOOPBACK);
    setsockopt(s, SOL_SOCKET, SO_REUSEADDR, &one, sizeof one);
    if (bind(s, (struct sockaddr *)&a, sizeof a) || listen(s, 1024)) DIE("network\n");
    printf("listening 127.0.0.1:%s\n", argv[2]);
    fflush(stdout);
    for (;;) {
        int c = accept(s, 0, 0);
        if (c < 0) continue;
        serve(c);
        close(c);
    }
}

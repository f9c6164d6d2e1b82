// A desk in Go, as a team would write it first, beside which the program is
// measured: net/http, database/sql with mattn's go-sqlite3, prepared
// statements, WAL, synchronous=FULL, one commit per command under one writer
// lock, a pool of readers, Connection: close. It answers the measured routes
// alone, with sample tokens and times in UTC.
//
//	GO111MODULE=off GOPATH=/usr/share/gocode go build -tags libsqlite3 -o desk_go desk.go
//	./desk_go DB PORT SCHEMA
package main

import (
	"context"
	"crypto/rand"
	"database/sql"
	"encoding/binary"
	"encoding/json"
	"fmt"
	"io"
	"log"
	"net"
	"net/http"
	"os"
	"regexp"
	"strconv"
	"strings"
	"sync"
	"time"

	_ "github.com/mattn/go-sqlite3"
)

const portalURL = "https://wifi.example/portal"
const alphabet = "23456789ABCDEFGHJKMNPQRSTUVWXYZ"

type refusal struct {
	status int
	word   string
}

func (r refusal) Error() string { return r.word }

var (
	write sync.Mutex
	db    *sql.DB // readers
	conn  *sql.DB // the one writer
	wst   = map[string]*sql.Stmt{}
	rst   = map[string]*sql.Stmt{}
	idRe  = regexp.MustCompile(`^[a-z0-9-]{1,32}$`)
)

var texts = map[string]string{
	"head":       `SELECT last_moment, grants, sessions FROM portal_head WHERE id=1`,
	"setHead":    `UPDATE portal_head SET last_moment=?, grants=?, sessions=? WHERE id=1`,
	"plan":       `SELECT price, uses, seconds, bytes, shelf_days, extend FROM portal_plans WHERE id=?`,
	"addPlan":    `INSERT OR IGNORE INTO portal_plans VALUES(?,?,?,?,?,?,?)`,
	"batch":      `SELECT plan_id, expires FROM portal_batches WHERE id=?`,
	"addBatch":   `INSERT INTO portal_batches VALUES(?,?,?,?,?)`,
	"addVoucher": `INSERT INTO portal_vouchers VALUES(?,?,?,NULL,NULL,NULL)`,
	"addCount":   `INSERT INTO portal_counts VALUES(?,0)`,
	"voucher": `SELECT v.sold, v.refunded, b.expires, b.plan_id, p.price, p.uses, p.seconds, p.bytes, c.redeemed
		FROM portal_vouchers v JOIN portal_batches b ON b.id=v.batch_id JOIN portal_plans p ON p.id=b.plan_id
		JOIN portal_counts c ON c.code=v.code WHERE v.code=?`,
	"sell": `UPDATE portal_vouchers SET sold=? WHERE code=?`,
	"last": `SELECT s.number, s.closed, p.extend, p.seconds, p.bytes, t.ends, t.remaining FROM portal_sessions s
		JOIN portal_plans p ON p.id=s.plan_id JOIN portal_totals t ON t.number=s.number
		WHERE s.device=? ORDER BY s.number DESC LIMIT 1`,
	"addSession": `INSERT INTO portal_sessions VALUES(?,?,?,?,0,NULL)`,
	"addGrant":   `INSERT INTO portal_grants VALUES(?,?,?,?,?,?)`,
	"addTotal":   `INSERT INTO portal_totals VALUES(?,?,?)`,
	"extend":     `UPDATE portal_totals SET ends=ends+?, remaining=remaining+? WHERE number=?`,
	"countUp":    `UPDATE portal_counts SET redeemed=redeemed+1 WHERE code=?`,
	"open": `SELECT t.number, s.device, t.ends, t.remaining FROM portal_totals t
		JOIN portal_sessions s ON s.number=t.number WHERE s.closed IS NULL AND (t.ends IS NULL OR t.ends>?)
		AND (t.remaining IS NULL OR t.remaining>0) ORDER BY t.number`,
	"print": `SELECT code FROM portal_vouchers WHERE batch_id=? ORDER BY place`,
	"session": `SELECT s.used, s.closed, t.ends, t.remaining FROM portal_sessions s
		JOIN portal_totals t ON t.number=s.number WHERE s.number=?`,
	"used": `UPDATE portal_sessions SET used=? WHERE number=?`,
	"less": `UPDATE portal_totals SET remaining=remaining-? WHERE number=?`,
}

type head struct{ t, grants, sessions int64 }

func readHead(st *sql.Stmt) (h head, err error) {
	err = st.QueryRow().Scan(&h.t, &h.grants, &h.sessions)
	if now := time.Now().Unix(); now > h.t {
		h.t = now
	}
	return
}

// command runs one transaction on the writer; an error rolls it back.
func command(do func(q func(string) *sql.Stmt, h *head) (any, error)) (any, error) {
	write.Lock()
	defer write.Unlock()
	tx, err := conn.BeginTx(context.Background(), nil)
	if err != nil {
		return nil, err
	}
	q := func(name string) *sql.Stmt { return tx.Stmt(wst[name]) }
	h, err := readHead(q("head"))
	if err == nil {
		var reply any
		if reply, err = do(q, &h); err == nil {
			if _, err = q("setHead").Exec(h.t, h.grants, h.sessions); err == nil {
				return reply, tx.Commit()
			}
		}
	}
	tx.Rollback()
	return nil, err
}

func newCode() (string, error) {
	var raw [60]byte
	if _, err := rand.Read(raw[:]); err != nil {
		return "", err
	}
	var out [16]byte
	sum := 0
	for i := 0; i < 15; i++ {
		v := int(binary.LittleEndian.Uint32(raw[4*i:]) % 31)
		sum += v * (i + 2)
		out[i] = alphabet[v]
	}
	out[15] = alphabet[(31-sum%31)%31]
	return string(out[:4]) + "-" + string(out[4:8]) + "-" + string(out[8:12]) + "-" + string(out[12:]), nil
}

var planLine = regexp.MustCompile(`(?m)^(\w+) = "?([^"\n]+)"?$`)

func plans(body []byte) (any, error) {
	parts := strings.Split(string(body), "[[plan]]")[1:]
	return command(func(q func(string) *sql.Stmt, h *head) (any, error) {
		for _, part := range parts {
			f := map[string]string{}
			for _, m := range planLine.FindAllStringSubmatch(part, -1) {
				f[m[1]] = m[2]
			}
			_, err := q("addPlan").Exec(f["id"], f["price"], f["uses"], f["seconds"], f["bytes"], f["shelf_days"],
				f["extend"] == "true")
			if err != nil {
				return nil, err
			}
		}
		return map[string]int{"plans": len(parts)}, nil
	})
}

func addVouchers(q func(string) *sql.Stmt, batch string, size int64) error {
	voucher, count := q("addVoucher"), q("addCount")
	for place := int64(0); place < size; place++ {
		code, err := newCode()
		if err != nil {
			return err
		}
		if _, err = voucher.Exec(code, batch, place); err != nil {
			return err
		}
		if _, err = count.Exec(code); err != nil {
			return err
		}
	}
	return nil
}

func issue(body []byte) (any, error) {
	var o struct {
		Batch, Plan string
		Count       int64
	}
	if json.Unmarshal(body, &o) != nil || !idRe.MatchString(o.Batch) || !idRe.MatchString(o.Plan) ||
		o.Count < 1 || o.Count > 500 {
		return nil, refusal{400, "bad_request"}
	}
	return command(func(q func(string) *sql.Stmt, h *head) (any, error) {
		var price, uses, seconds, bytes, shelf, extend, expires int64
		var plan string
		if q("plan").QueryRow(o.Plan).Scan(&price, &uses, &seconds, &bytes, &shelf, &extend) != nil {
			return nil, refusal{404, "unknown_plan"}
		}
		if q("batch").QueryRow(o.Batch).Scan(&plan, &expires) == nil {
			return nil, refusal{409, "batch_exists"}
		}
		expires = h.t + shelf*86400
		if _, err := q("addBatch").Exec(o.Batch, o.Plan, h.t, expires, o.Count); err != nil {
			return nil, err
		}
		if err := addVouchers(q, o.Batch, o.Count); err != nil {
			return nil, err
		}
		return struct {
			Batch   string `json:"batch"`
			Count   int64  `json:"count"`
			Expires int64  `json:"expires"`
		}{o.Batch, o.Count, expires}, nil
	})
}

type voucher struct {
	sold, refunded                                 sql.NullInt64
	expires, price, uses, seconds, bytes, redeemed int64
	plan                                           string
}

func readVoucher(st *sql.Stmt, code string) (v voucher, err error) {
	err = st.QueryRow(code).Scan(&v.sold, &v.refunded, &v.expires, &v.plan, &v.price, &v.uses, &v.seconds,
		&v.bytes, &v.redeemed)
	if err == sql.ErrNoRows {
		err = refusal{404, "unknown_code"}
	}
	return
}

func readCode(body []byte) (string, error) {
	var o struct{ Code string }
	if json.Unmarshal(body, &o) != nil || len(o.Code) != 19 {
		return "", refusal{400, "bad_request"}
	}
	return o.Code, nil
}

func sell(body []byte) (any, error) {
	code, err := readCode(body)
	if err != nil {
		return nil, err
	}
	return command(func(q func(string) *sql.Stmt, h *head) (any, error) {
		v, err := readVoucher(q("voucher"), code)
		if err != nil {
			return nil, err
		}
		if v.sold.Valid {
			return nil, refusal{409, "sold_already"}
		}
		if h.t >= v.expires {
			return nil, refusal{410, "expired"}
		}
		_, err = q("sell").Exec(h.t, code)
		return struct {
			Code  string `json:"code"`
			Price int64  `json:"price"`
		}{code, v.price}, err
	})
}

type session struct {
	number, extend, seconds, bytes int64
	closed, ends, remaining        sql.NullInt64
}

func readLast(st *sql.Stmt, device string, t int64) (s session, open bool, err error) {
	err = st.QueryRow(device).Scan(&s.number, &s.closed, &s.extend, &s.seconds, &s.bytes, &s.ends, &s.remaining)
	if err == sql.ErrNoRows {
		return s, false, nil
	}
	open = !s.closed.Valid && (!s.ends.Valid || t < s.ends.Int64) &&
		(!s.remaining.Valid || s.remaining.Int64 > 0)
	return s, open, err
}

// mayRedeem gives the refusal of a voucher, or nil.
func (v voucher) mayRedeem(t int64) error {
	switch {
	case !v.sold.Valid:
		return refusal{409, "not_sold"}
	case v.refunded.Valid:
		return refusal{409, "refunded"}
	case t >= v.expires:
		return refusal{410, "expired"}
	case v.redeemed >= v.uses:
		return refusal{409, "used_up"}
	}
	return nil
}

// extendSession adds the voucher's time and bytes to an open session.
func extendSession(q func(string) *sql.Stmt, s session, v voucher) error {
	if s.extend == 0 {
		return refusal{409, "no_extend"}
	}
	if (s.seconds == 0) != (v.seconds == 0) || (s.bytes == 0) != (v.bytes == 0) {
		return refusal{409, "shape_differs"}
	}
	_, err := q("extend").Exec(v.seconds, v.bytes, s.number)
	return err
}

func openSession(q func(string) *sql.Stmt, h *head, device string, v voucher) error {
	h.sessions++
	if _, err := q("addSession").Exec(h.sessions, device, v.plan, h.t); err != nil {
		return err
	}
	ends := sql.NullInt64{Int64: h.t + v.seconds, Valid: v.seconds > 0}
	left := sql.NullInt64{Int64: v.bytes, Valid: v.bytes > 0}
	_, err := q("addTotal").Exec(h.sessions, ends, left)
	return err
}

func redeem(device string, body []byte) (any, error) {
	code, err := readCode(body)
	if err != nil {
		return nil, err
	}
	return command(func(q func(string) *sql.Stmt, h *head) (any, error) {
		v, err := readVoucher(q("voucher"), code)
		if err == nil {
			err = v.mayRedeem(h.t)
		}
		if err != nil {
			return nil, err
		}
		s, open, err := readLast(q("last"), device, h.t)
		switch {
		case err != nil:
		case open:
			err = extendSession(q, s, v)
		default:
			err = openSession(q, h, device, v)
			s.number = h.sessions
		}
		if err != nil {
			return nil, err
		}
		h.grants++
		if _, err = q("addGrant").Exec(h.grants, code, s.number, h.t, v.seconds, v.bytes); err != nil {
			return nil, err
		}
		_, err = q("countUp").Exec(code)
		return struct {
			Extended bool  `json:"extended"`
			Session  int64 `json:"session"`
			UsesLeft int64 `json:"uses_left"`
		}{open, s.number, v.uses - v.redeemed - 1}, err
	})
}

func report(body []byte) (any, error) {
	o := struct{ Session, Bytes int64 }{-1, -1}
	if json.Unmarshal(body, &o) != nil || o.Session < 0 || o.Bytes < 0 {
		return nil, refusal{400, "bad_request"}
	}
	return command(func(q func(string) *sql.Stmt, h *head) (any, error) {
		var used int64
		var closed, ends, left sql.NullInt64
		if q("session").QueryRow(o.Session).Scan(&used, &closed, &ends, &left) != nil {
			return nil, refusal{404, "unknown_session"}
		}
		if more := o.Bytes - used; more > 0 {
			if _, err := q("used").Exec(o.Bytes, o.Session); err != nil {
				return nil, err
			}
			if _, err := q("less").Exec(more, o.Session); err != nil {
				return nil, err
			}
			used, left.Int64 = o.Bytes, left.Int64-more
		}
		open := !closed.Valid && (!ends.Valid || h.t < ends.Int64) && (!left.Valid || left.Int64 > 0)
		return struct {
			Open    bool  `json:"open"`
			Session int64 `json:"session"`
			Used    int64 `json:"used"`
		}{open, o.Session, used}, nil
	})
}

type captiveState struct {
	Bytes   *int64 `json:"bytes-remaining,omitempty"`
	Extend  *bool  `json:"can-extend-session,omitempty"`
	Captive bool   `json:"captive"`
	Seconds *int64 `json:"seconds-remaining,omitempty"`
	Portal  string `json:"user-portal-url"`
}

func captive(device string) (any, error) {
	h, err := readHead(rst["head"])
	if err != nil {
		return nil, err
	}
	s, open, err := readLast(rst["last"], device, h.t)
	c := captiveState{Captive: !open, Portal: portalURL}
	if open {
		extend, left := s.extend != 0, s.ends.Int64-h.t
		c.Extend = &extend
		if s.ends.Valid {
			c.Seconds = &left
		}
		if s.remaining.Valid {
			c.Bytes = &s.remaining.Int64
		}
	}
	return c, err
}

type listed struct {
	Bytes   *int64 `json:"bytes-remaining,omitempty"`
	Device  string `json:"device"`
	Seconds *int64 `json:"seconds-remaining,omitempty"`
	Session int64  `json:"session"`
}

func openNow() (any, error) {
	h, err := readHead(rst["head"])
	if err != nil {
		return nil, err
	}
	rows, err := rst["open"].Query(h.t)
	if err != nil {
		return nil, err
	}
	defer rows.Close()
	list := []listed{}
	for rows.Next() {
		var o listed
		if err = rows.Scan(&o.Session, &o.Device, &o.Seconds, &o.Bytes); err != nil {
			return nil, err
		}
		if o.Seconds != nil {
			*o.Seconds -= h.t
		}
		list = append(list, o)
	}
	return map[string]any{"sessions": list}, rows.Err()
}

func money(n int64) string { return fmt.Sprintf("%d.%02d", n/100, n%100) }

func printBatch(id string) (any, error) {
	var plan string
	var expires, price, uses, seconds, bytes, shelf, extend int64
	if rst["batch"].QueryRow(id).Scan(&plan, &expires) != nil {
		return nil, refusal{404, "unknown_batch"}
	}
	if err := rst["plan"].QueryRow(plan).Scan(&price, &uses, &seconds, &bytes, &shelf, &extend); err != nil {
		return nil, err
	}
	limit := func(n int64) string { return strings.TrimPrefix(strconv.FormatInt(n, 10), "0") }
	day := time.Unix(expires, 0).UTC().Format("2006-01-02 15:04")
	tail := fmt.Sprintf(",%s,%s,%s,%s,%s\n", plan, limit(seconds), limit(bytes), money(price), day)
	rows, err := rst["print"].Query(id)
	if err != nil {
		return nil, err
	}
	defer rows.Close()
	var b strings.Builder
	b.WriteString("code,plan,seconds,bytes,price,expires\n")
	for rows.Next() {
		var code string
		if err = rows.Scan(&code); err != nil {
			return nil, err
		}
		b.WriteString(code)
		b.WriteString(tail)
	}
	return b.String(), rows.Err()
}

func send(w http.ResponseWriter, kind string, reply any, err error) {
	status := 200
	var body []byte
	if r, is := err.(refusal); is {
		status, kind, reply = r.status, "application/json", map[string]string{"error": r.word}
	} else if err != nil {
		log.Print(err)
		status, kind, reply = 503, "application/json", map[string]string{"error": "stopped"}
	}
	if s, is := reply.(string); is {
		body = []byte(s)
	} else {
		body, _ = json.Marshal(reply)
	}
	w.Header().Set("Content-Type", kind)
	w.Header().Set("Content-Length", strconv.Itoa(len(body)))
	w.Header().Set("Cache-Control", "no-store")
	w.Header().Set("Connection", "close")
	w.WriteHeader(status)
	w.Write(body)
}

func route(method, path, token, kind string, do func(r *http.Request, body []byte) (any, error)) {
	http.HandleFunc(path, func(w http.ResponseWriter, r *http.Request) {
		switch {
		case r.Method != method:
			w.Header().Set("Allow", method)
			send(w, kind, nil, refusal{405, "bad_method"})
		case token != "" && r.Header.Get("Portal-Token") != token:
			send(w, kind, nil, refusal{403, "forbidden"})
		case token == "" && len(r.Header.Get("Portal-Device")) != 17:
			send(w, kind, nil, refusal{400, "bad_device"})
		default:
			body, err := io.ReadAll(io.LimitReader(r.Body, 65537))
			if err == nil {
				var reply any
				reply, err = do(r, body)
				send(w, kind, reply, err)
				return
			}
			send(w, kind, nil, refusal{400, "bad_request"})
		}
	})
}

func device(r *http.Request) string {
	return strings.ToLower(strings.ReplaceAll(r.Header.Get("Portal-Device"), "-", ":"))
}

func routes() {
	const desk, gate, js, csv = "desk-token", "gate-token", "application/json", "text/csv; charset=utf-8"
	only := func(f func([]byte) (any, error)) func(*http.Request, []byte) (any, error) {
		return func(_ *http.Request, b []byte) (any, error) { return f(b) }
	}
	state := func(r *http.Request, _ []byte) (any, error) { return captive(device(r)) }
	use := func(r *http.Request, b []byte) (any, error) { return redeem(device(r), b) }
	list := func(*http.Request, []byte) (any, error) { return openNow() }
	sheet := func(r *http.Request, _ []byte) (any, error) {
		return printBatch(strings.TrimSuffix(strings.TrimPrefix(r.URL.Path, "/desk/batches/"), "/print"))
	}
	route("GET", "/captive", "", "application/captive+json", state)
	route("POST", "/portal/redeem", "", js, use)
	route("POST", "/desk/plans", desk, js, only(plans))
	route("POST", "/desk/batches", desk, js, only(issue))
	route("POST", "/desk/sales", desk, js, only(sell))
	route("POST", "/gateway/reports", gate, js, only(report))
	route("GET", "/gateway/sessions", gate, js, list)
	route("GET", "/desk/batches/", desk, csv, sheet)
	http.HandleFunc("/", func(w http.ResponseWriter, _ *http.Request) {
		send(w, js, nil, refusal{404, "no_route"})
	})
}

// openDatabase makes the tables and prepares each statement for the writer and the readers.
func openDatabase(path, schemaPath string) error {
	schema, err := os.ReadFile(schemaPath)
	if err != nil {
		return err
	}
	dsn := "file:" + path +
		"?_journal_mode=WAL&_synchronous=FULL&_foreign_keys=1&_busy_timeout=5000&_txlock=immediate"
	if conn, err = sql.Open("sqlite3", dsn); err != nil {
		return err
	}
	conn.SetMaxOpenConns(1)
	if _, err = conn.Exec(string(schema)); err != nil {
		return err
	}
	if db, err = sql.Open("sqlite3", dsn); err != nil {
		return err
	}
	db.SetMaxOpenConns(4)
	db.SetMaxIdleConns(4)
	for name, text := range texts {
		if wst[name], err = conn.Prepare(text); err != nil {
			return err
		}
		if rst[name], err = db.Prepare(text); err != nil {
			return err
		}
	}
	return nil
}

func main() {
	if len(os.Args) != 4 {
		log.Fatal("usage: desk_go DB PORT SCHEMA")
	}
	if err := openDatabase(os.Args[1], os.Args[3]); err != nil {
		log.Fatal(err)
	}
	routes()
	l, err := net.Listen("tcp", "127.0.0.1:"+os.Args[2])
	if err != nil {
		log.Fatal(err)
	}
	fmt.Printf("listening 127.0.0.1:%s\n", os.Args[2])
	s := &http.Server{}
	s.SetKeepAlivesEnabled(false)
	log.Fatal(s.Serve(l))
}

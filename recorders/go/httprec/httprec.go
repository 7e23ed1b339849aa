// Package httprec records the requests and responses of net/http as messages, by one line on each side:
//
//	http.DefaultClient.Transport = httprec.Transport(left, nil)      // in a client
//	err := http.ListenAndServe(":8080", httprec.Handler(right, mux)) // in a server
//
// A request is a message from the client to the server, and its response one back. Their ids travel in headers. A
// request is sent where it leaves the client, and received before it is handled; its response is sent before its first
// byte is written, and received once its head has come. What a handler does after its first write doesn't come before
// the client's receipt, so record what it changes before that.
//
// A handler records by the recorder that its request's context carries, and what it requests with that context is
// recorded by the same one:
//
//	recorder, ok := record.FromContext(request.Context())
//
// Recording never fails a request. A recorder that is nil records nothing. If a recorder refuses or fails, that is said
// once on standard error, and requests go on without what it has refused.
package httprec

import (
	"bufio"
	"errors"
	"fmt"
	"net"
	"net/http"
	"os"
	"regexp"
	"strings"
	"sync"

	"monitor.example/record"
)

// The headers in which the ids of messages travel. Each is taken out of what has come once it was read, so that a proxy
// doesn't pass on what it has received itself.
const (
	RequestHeader  = "Monitor-Request"
	ResponseHeader = "Monitor-Response"
)

var (
	anyID       = regexp.MustCompile(`^[ -~]{1,64}$`)
	madeID      = regexp.MustCompile(`^([A-Za-z_][A-Za-z0-9_]*)-[0-9]+$`)
	traceParent = regexp.MustCompile(`^[0-9a-f]{2}-([0-9a-f]{32})-([0-9a-f]{16})-[0-9a-f]{2}(?:-|$)`)
)

// Transport is the round tripper next, which records each request and its response. They are recorded by the recorder
// that the request's context carries, or else by this one. If next is nil it is http.DefaultTransport. Each redirect
// that a client follows, and each attempt that it makes, is a request of its own; a copy that http.Transport sends by
// itself, as over a new connection, has the id of the first one, and the server doesn't record it.
//
// One recorder is one order of requests. If several of one recorder wait for their responses at once, that is said once
// on standard error: give each goroutine a strand, and its requests a context that carries it.
func Transport(recorder *record.Recorder, next http.RoundTripper) http.RoundTripper {
	if next == nil {
		next = http.DefaultTransport
	}
	return &transport{recorder: recorder, next: next, underWay: map[*record.Recorder]int{}}
}

type transport struct {
	faults
	recorder *record.Recorder
	next     http.RoundTripper

	mutex     sync.Mutex
	underWay  map[*record.Recorder]int // how many requests of each recorder wait for the head of a response
	isAdvised bool
}

func (t *transport) RoundTrip(request *http.Request) (*http.Response, error) {
	recorder, _ := record.FromContext(request.Context())
	if recorder == nil {
		recorder = t.recorder
	}
	if recorder == nil || request.Header == nil {
		return t.next.RoundTrip(request)
	}
	t.leave(recorder)
	defer t.arrive(recorder)
	sent := request.Clone(request.Context()) // a round tripper may not change what it is given
	setID(sent.Header, RequestHeader, t.send(recorder))
	response, err := t.next.RoundTrip(sent)
	if response != nil {
		if response.Request == sent {
			response.Request = request
		}
		t.receive(recorder, takenID(response.Header, ResponseHeader))
	}
	return response, err
}

// leave says once if requests of one recorder are under way at once.
func (t *transport) leave(recorder *record.Recorder) {
	t.mutex.Lock()
	defer t.mutex.Unlock()
	t.underWay[recorder]++
	if t.underWay[recorder] > 1 && !t.isAdvised {
		t.isAdvised = true
		fmt.Fprintf(os.Stderr, "httprec: %s has several requests under way at once, and their order is taken for a "+
			"cause: give each goroutine a strand, in the context of its requests.\n", recorder.Process())
	}
}

func (t *transport) arrive(recorder *record.Recorder) {
	t.mutex.Lock()
	defer t.mutex.Unlock()
	if t.underWay[recorder]--; t.underWay[recorder] == 0 {
		delete(t.underWay, recorder)
	}
}

// CloseIdleConnections is what http.Client calls.
func (t *transport) CloseIdleConnections() {
	if closer, ok := t.next.(interface{ CloseIdleConnections() }); ok {
		closer.CloseIdleConnections()
	}
}

// A Server is a handler that records the requests that come to it, and their responses.
type Server struct {
	faults
	recorder   *record.Recorder
	next       http.Handler
	isByClient bool // whether a client that is new gets a strand

	mutex    sync.Mutex
	bySender map[string]*record.Recorder
	strands  []*record.Recorder
}

// Handler is the handler next, whose requests are all recorded by this recorder, in the order in which they come and do
// things. That order is taken for a cause, and no other one is judged. It is right if what they do goes through what the
// process keeps in memory, where a later request sees what an earlier one did, or if there is one client. If they have
// nothing in common the order was an accident: take ByClient.
//
// A request with no header of ours but a traceparent is received from that span: its id is the trace's and the span's
// with a hyphen between them. Its response isn't recorded, and neither is anything of a request without these. The
// context of both carries this recorder.
func Handler(recorder *record.Recorder, next http.Handler) *Server {
	return &Server{recorder: recorder, next: next, bySender: map[string]*record.Recorder{}}
}

// ByClient is the handler next, whose requests are recorded by a strand of this recorder for each client: by right_left
// if left sends to right. So the requests of one client have the order in which they came, and those of different
// clients have none but by messages, whatever they share in memory: record that too if a predicate needs it. The strand
// is begun as the client's first request comes, and the document names it. A client is what its recorder is: each of
// its own strands is one. Requests without an id of a recorder are recorded as Handler does.
//
// If no strand can be begun, as for the name of a client that is too long, or a 17th process, that is said on standard
// error, and this recorder records the requests of each client that is new from then on.
func ByClient(recorder *record.Recorder, next http.Handler) *Server {
	server := Handler(recorder, next)
	server.isByClient = true
	return server
}

// ServeHTTP handles the request, and records it and its response.
func (s *Server) ServeHTTP(out http.ResponseWriter, request *http.Request) {
	if s.recorder == nil {
		s.next.ServeHTTP(out, request)
		return
	}
	id := takenID(request.Header, RequestHeader)
	recorder := s.recorderFor(id)
	request = request.WithContext(record.NewContext(request.Context(), recorder))
	if id == "" {
		s.receive(recorder, spanOf(request.Header))
		s.next.ServeHTTP(out, request)
		return
	}
	s.receive(recorder, id)
	response := &writer{ResponseWriter: out, server: s, recorder: recorder}
	defer response.leave() // also by a panic, of which another handler may make a response
	s.next.ServeHTTP(response.withAbilities(), request)
}

// Join ends the strands of ByClient, and records that the process has waited for them: call it AFTER the server was shut
// down, if the process then does anything that comes after its requests. Without it the strands end with the process.
func (s *Server) Join() error {
	s.mutex.Lock()
	defer s.mutex.Unlock()
	for _, strand := range s.strands {
		if err := strand.End(); err != nil {
			return err
		}
		if err := s.recorder.Join(strand); err != nil {
			return err
		}
	}
	s.strands = nil
	return nil
}

// recorderFor is the recorder of the client that has sent the message with this id.
func (s *Server) recorderFor(id string) *record.Recorder {
	made := madeID.FindStringSubmatch(id)
	if made == nil {
		return s.recorder
	}
	s.mutex.Lock()
	defer s.mutex.Unlock()
	if s.bySender[made[1]] == nil && s.isByClient {
		s.try(func() error { return s.begin(made[1]) })
		s.isByClient = s.bySender[made[1]] != nil // a strand that can't be begun isn't tried again
	}
	if strand := s.bySender[made[1]]; strand != nil {
		return strand
	}
	return s.recorder
}

// begin begins the strand of a client; the lock is held.
func (s *Server) begin(client string) error {
	strand, err := s.recorder.Strand(s.recorder.Process() + "_" + client)
	if err == nil {
		s.bySender[client] = strand
		s.strands = append(s.strands, strand)
	}
	return err
}

// A writer records the send of the response before its first byte is written.
type writer struct {
	http.ResponseWriter
	server   *Server
	recorder *record.Recorder
	hasLeft  bool
}

func (w *writer) leave() {
	if !w.hasLeft {
		w.hasLeft = true
		setID(w.Header(), ResponseHeader, w.server.send(w.recorder))
	}
}

// WriteHeader may be called several times, with a status below 200 before the last.
func (w *writer) WriteHeader(status int) {
	if status >= http.StatusOK || status == http.StatusSwitchingProtocols {
		w.leave()
	}
	w.ResponseWriter.WriteHeader(status)
}

func (w *writer) Write(part []byte) (int, error) {
	w.leave()
	return w.ResponseWriter.Write(part)
}

// Unwrap is what http.ResponseController calls.
func (w *writer) Unwrap() http.ResponseWriter { return w.ResponseWriter }

type flusher struct {
	response *writer
	next     http.Flusher
}

func (f flusher) Flush() {
	f.response.leave()
	f.next.Flush()
}

type hijacker struct {
	response *writer
	next     http.Hijacker
}

// Hijack gives the connection to the handler, and so the response: it isn't recorded.
func (h hijacker) Hijack() (net.Conn, *bufio.ReadWriter, error) {
	connection, buffer, err := h.next.Hijack()
	if err == nil {
		h.response.hasLeft = true
	}
	return connection, buffer, err
}

// withAbilities is the writer, which can flush, be hijacked, push and notify if what it writes to can.
func (w *writer) withAbilities() http.ResponseWriter {
	flush, flushes := w.ResponseWriter.(http.Flusher)
	hijack, isHijackable := w.ResponseWriter.(http.Hijacker)
	pusher, pushes := w.ResponseWriter.(http.Pusher)
	notifier, notifies := w.ResponseWriter.(http.CloseNotifier)
	switch {
	case flushes && notifies && isHijackable: // what net/http has for HTTP/1
		return struct {
			*writer
			http.Flusher
			http.CloseNotifier
			http.Hijacker
		}{w, flusher{w, flush}, notifier, hijacker{w, hijack}}
	case flushes && notifies && pushes: // and for HTTP/2
		return struct {
			*writer
			http.Flusher
			http.CloseNotifier
			http.Pusher
		}{w, flusher{w, flush}, notifier, pusher}
	case flushes && isHijackable:
		return struct {
			*writer
			http.Flusher
			http.Hijacker
		}{w, flusher{w, flush}, hijacker{w, hijack}}
	case flushes:
		return struct {
			*writer
			http.Flusher
		}{w, flusher{w, flush}}
	case pushes: // and for a handler with a time limit
		return struct {
			*writer
			http.Pusher
		}{w, pusher}
	}
	return w
}

// faults says once what a recorder has refused, or failed at.
type faults struct{ once sync.Once }

// try makes a call of a recorder. Neither an error nor a panic of it reaches the program.
func (f *faults) try(call func() error) {
	defer func() {
		if cause := recover(); cause != nil {
			f.tell(fmt.Errorf("panic: %v", cause))
		}
	}()
	// A message with an id that has come before is its second copy, which isn't recorded.
	if err := call(); err != nil && !errors.Is(err, record.ErrIDTwice) {
		f.tell(err)
	}
}

func (f *faults) tell(err error) {
	f.once.Do(func() {
		fmt.Fprintf(os.Stderr, "httprec: %v. Requests go on, and no more such errors are told.\n", err)
	})
}

// send is the id of a message that is about to leave, or empty.
func (f *faults) send(recorder *record.Recorder) (id string) {
	f.try(func() (err error) {
		id, err = recorder.Send()
		return err
	})
	return id
}

// receive records that a message has come, if it has an id.
func (f *faults) receive(recorder *record.Recorder, id string) {
	if id != "" {
		f.try(func() error { return recorder.Receive(id) })
	}
}

// setID sets a header to the id of a message. Without an id it may not have that of another one, as a proxy has it.
func setID(header http.Header, name, id string) {
	if id == "" {
		header.Del(name)
	} else {
		header.Set(name, id)
	}
}

// takenID is the id in a header, which is taken out of it. What is no printable ASCII, or over the limit, is none.
func takenID(header http.Header, name string) string {
	id := header.Get(name)
	header.Del(name)
	if !anyID.MatchString(id) {
		return ""
	}
	return id
}

// spanOf is the id of a message that has only the header of W3C's trace context: the trace's id and the span's.
func spanOf(header http.Header) string {
	parts := traceParent.FindStringSubmatch(header.Get("Traceparent"))
	if parts == nil || strings.Trim(parts[1], "0") == "" || strings.Trim(parts[2], "0") == "" {
		return ""
	}
	return parts[1] + "-" + parts[2]
}

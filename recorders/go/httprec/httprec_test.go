package httprec

import (
	"context"
	"errors"
	"fmt"
	"io"
	"net/http"
	"net/http/httptest"
	"net/http/httputil"
	"net/url"
	"os"
	"os/exec"
	"path/filepath"
	"strings"
	"sync"
	"testing"

	"monitor.example/record"
)

// recorders are those of these processes, whose streams are in the folder.
func recorders(t *testing.T, folder string, names ...string) []*record.Recorder {
	t.Helper()
	var made []*record.Recorder
	for _, name := range names {
		recorder, err := record.ToFile(name, filepath.Join(folder, name+".stream"))
		if err != nil {
			t.Fatal(err)
		}
		t.Cleanup(func() { recorder.Close() })
		made = append(made, recorder)
	}
	return made
}

func see(t *testing.T, found, wanted string) {
	t.Helper()
	if found != wanted {
		t.Errorf("there is\n%s\nand not\n%s", found, wanted)
	}
}

// seeStream sees the lines of a stream between the first and the last one.
func seeStream(t *testing.T, folder, name string, events ...string) {
	t.Helper()
	text, err := os.ReadFile(filepath.Join(folder, name+".stream"))
	if err != nil {
		t.Error(err)
		return
	}
	lines := append([]string{`{"process":"` + name + `"}`}, events...)
	see(t, string(text), strings.Join(lines, "\n")+"\n"+`{"end":true}`+"\n")
}

// judged ends the recorders and sees what the program says of all streams in the folder, if it is there: of the
// document that has these processes, with this predicate.
func judged(t *testing.T, folder string, ended []*record.Recorder, processes, predicate, wanted string) {
	t.Helper()
	for _, recorder := range ended {
		if err := recorder.End(); err != nil {
			t.Fatal(err)
		}
	}
	program, err := exec.LookPath(os.Getenv("MONITOR"))
	if err != nil {
		t.Logf("not judged, since MONITOR names no program: %v", err)
		return
	}
	var parts []string
	for _, name := range strings.Fields(processes) {
		parts = append(parts, fmt.Sprintf(`{"name":"%s","vars":{"x":0}}`, name))
	}
	document := filepath.Join(folder, "session.json")
	text := fmt.Sprintf(`{"processes":[%s],"predicates":[{"name":"both","text":"%s"}]}`, strings.Join(parts, ","),
		predicate)
	if err := os.WriteFile(document, []byte(text), 0o666); err != nil {
		t.Fatal(err)
	}
	streams, _ := filepath.Glob(filepath.Join(folder, "*.stream"))
	report, err := exec.Command(program, append([]string{"judge", document}, streams...)...).Output()
	if ended := new(exec.ExitError); err != nil && !errors.As(err, &ended) {
		t.Fatal(err)
	}
	if !strings.HasPrefix(string(report), wanted) {
		t.Errorf("the report is\n%sand not\n%s", report, wanted)
	}
}

// saying is what a call writes on standard error.
func saying(t *testing.T, call func()) string {
	t.Helper()
	file, err := os.CreateTemp(t.TempDir(), "said")
	if err != nil {
		t.Fatal(err)
	}
	before := os.Stderr
	os.Stderr = file
	defer func() { os.Stderr = before; file.Close() }()
	call()
	text, err := os.ReadFile(file.Name())
	if err != nil {
		t.Fatal(err)
	}
	return string(text)
}

func served(t *testing.T, handler http.Handler) string {
	server := httptest.NewServer(handler)
	t.Cleanup(server.Close)
	return server.URL
}

// get is the body of the answer.
func get(t *testing.T, recorder *record.Recorder, url string) string {
	t.Helper()
	client := http.Client{Transport: Transport(recorder, nil)}
	response, err := client.Get(url)
	if err != nil {
		t.Error(err)
		return ""
	}
	defer response.Body.Close()
	body, err := io.ReadAll(response.Body)
	if err != nil {
		t.Error(err)
	}
	if response.Header.Get(ResponseHeader) != "" {
		t.Error("the id stands in the response that was received")
	}
	return string(body)
}

// inside is a handler that is inside while it handles a request.
var inside = http.HandlerFunc(func(out http.ResponseWriter, request *http.Request) {
	recorder, _ := record.FromContext(request.Context())
	for x := 1; x >= 0; x-- {
		if err := recorder.Event(record.Set("x", x)); err != nil {
			panic(err)
		}
	}
	fmt.Fprint(out, "done")
})

func TestTheHeadersAreThoseOfTheOtherLanguages(t *testing.T) {
	see(t, RequestHeader+" "+ResponseHeader, "Monitor-Request Monitor-Response")
}

func TestRequestsOfTwoClientsHaveNoOrder(t *testing.T) {
	folder := t.TempDir()
	all := recorders(t, folder, "right", "ann", "bob")
	url := served(t, ByClient(all[0], inside))
	for _, client := range []int{1, 2, 1} {
		see(t, get(t, all[client], url), "done")
	}
	judged(t, folder, all, "right ann bob right_ann right_bob", "right_ann.x == 1 and right_bob.x == 1",
		"session 5 processes 22 events 8 messages\nboth possibly yes 2,1,1,3,3\n")
	seeStream(t, folder, "ann", `{"send":"ann-1"}`, `{"recv":"right_ann-1"}`, `{"send":"ann-2"}`, `{"recv":"right_ann-2"}`)
	seeStream(t, folder, "right", `{"send":"right-1"}`, `{"send":"right-2"}`)
	seeStream(t, folder, "right_bob", `{"recv":"right-2"}`, `{"recv":"bob-1"}`, `{"set":{"x":1}}`, `{"set":{"x":0}}`,
		`{"send":"right_bob-1"}`)
}

func TestRequestsInOrder(t *testing.T) {
	folder := t.TempDir()
	all := recorders(t, folder, "right", "ann", "bob")
	url := served(t, Handler(all[0], inside))
	for _, client := range all[1:] {
		see(t, get(t, client, url), "done")
	}
	judged(t, folder, all, "right ann bob", "right.x == 1 and bob.x == 0", "session 3 processes 12 events 4 messages\n")
	seeStream(t, folder, "right", `{"recv":"ann-1"}`, `{"set":{"x":1}}`, `{"set":{"x":0}}`, `{"send":"right-1"}`,
		`{"recv":"bob-1"}`, `{"set":{"x":1}}`, `{"set":{"x":0}}`, `{"send":"right-2"}`)
}

func TestManyAtOnce(t *testing.T) {
	folder := t.TempDir()
	all := recorders(t, folder, "right", "ann", "bob", "cid")
	server := ByClient(all[0], inside)
	url := served(t, server)
	var group sync.WaitGroup
	for _, client := range all[1:] {
		client := client
		group.Add(1)
		go func() {
			defer group.Done()
			for i := 0; i < 10; i++ { // over one connection
				get(t, client, url)
			}
		}()
	}
	group.Wait()
	if err := server.Join(); err != nil {
		t.Fatal(err)
	}
	if err := all[0].Event(record.Set("x", 2)); err != nil { // after all of the requests
		t.Fatal(err)
	}
	judged(t, folder, all, "right ann bob cid right_ann right_bob right_cid", "right.x == 2 and right_bob.x == 1",
		"session 7 processes 193 events 66 messages\nboth possibly no\n")
}

func TestRequestsWithoutAnID(t *testing.T) {
	folder := t.TempDir()
	all := recorders(t, folder, "right")
	handler := ByClient(all[0], http.HandlerFunc(func(out http.ResponseWriter, request *http.Request) {
		if recorder, _ := record.FromContext(request.Context()); recorder != all[0] {
			t.Error("the context carries another recorder")
		}
	}))
	const trace, span = "0af7651916cd43dd8448eb211c80319c", "b7ad6b7169203331"
	headers := [][2]string{{"Accept", "*/*"}, {RequestHeader, strings.Repeat("x", 65)}, {RequestHeader, "a\xff"},
		{"traceparent", "00-" + trace + "-" + span + "-01"}, {"traceparent", "00-" + trace + "-" + span + "-01"},
		{"traceparent", "01-" + trace + "-00000000000000ab-01-more"}, {"traceparent", "00-" + trace + "-01"},
		{"traceparent", "00-" + strings.Repeat("0", 32) + "-" + span + "-01"},
		{"traceparent", "00-" + trace + "-" + strings.Repeat("0", 16) + "-01"}}
	said := saying(t, func() {
		for _, header := range headers {
			request, out := httptest.NewRequest(http.MethodGet, "/", nil), httptest.NewRecorder()
			request.Header.Set(header[0], header[1])
			handler.ServeHTTP(out, request)
			if out.Header().Get(ResponseHeader) != "" {
				t.Errorf("%v: the response has an id", header)
			}
		}
	})
	see(t, said, "")
	if err := all[0].End(); err != nil {
		t.Fatal(err)
	}
	seeStream(t, folder, "right", `{"recv":"`+trace+"-"+span+`"}`, `{"recv":"`+trace+`-00000000000000ab"}`)
}

func TestEachRedirectIsARequest(t *testing.T) {
	folder := t.TempDir()
	all := recorders(t, folder, "first", "second", "ann")
	second := served(t, ByClient(all[1], inside))
	first := served(t, ByClient(all[0], http.RedirectHandler(second, http.StatusFound)))
	see(t, get(t, all[2], first), "done")
	judged(t, folder, all, "first second ann first_ann second_ann", "first_ann.x == 1",
		"session 5 processes 14 events 6 messages\n")
	seeStream(t, folder, "ann", `{"send":"ann-1"}`, `{"recv":"first_ann-1"}`, `{"send":"ann-2"}`,
		`{"recv":"second_ann-1"}`)
}

func TestASecondCopyIsNoReceipt(t *testing.T) {
	folder := t.TempDir()
	all := recorders(t, folder, "right", "ann")
	url := served(t, ByClient(all[0], inside))
	id, _ := all[1].Send()
	said := saying(t, func() {
		for i := 0; i < 2; i++ {
			request, _ := http.NewRequest(http.MethodGet, url, nil)
			request.Header.Set(RequestHeader, id)
			response, err := http.DefaultClient.Do(request)
			if err != nil || response.Header.Get(ResponseHeader) != fmt.Sprintf("right_ann-%d", i+1) {
				t.Errorf("%v %v", response, err)
			}
		}
	})
	see(t, said, "")
	judged(t, folder, all, "right ann right_ann", "ann.x == 1", "session 3 processes 10 events 2 messages\n")
}

func TestARequestThatIsGivenUpLeavesASend(t *testing.T) {
	folder := t.TempDir()
	all := recorders(t, folder, "right", "ann")
	ctx, giveUp := context.WithCancel(context.Background())
	goOn, done := make(chan bool), make(chan bool)
	url := served(t, ByClient(all[0], http.HandlerFunc(func(out http.ResponseWriter, request *http.Request) {
		defer func() { done <- true }()
		giveUp()
		<-goOn
		fmt.Fprint(out, "too late")
	})))
	request, _ := http.NewRequestWithContext(ctx, http.MethodGet, url, nil)
	if response, err := Transport(all[1], nil).RoundTrip(request); err == nil {
		t.Errorf("there is a response: %v", response)
	}
	goOn <- true
	<-done
	judged(t, folder, all, "right ann right_ann", "ann.x == 1", "session 3 processes 5 events 2 messages\n")
	seeStream(t, folder, "ann", `{"send":"ann-1"}`)
}

// A layer is a handler around another one.
type layer func(http.Handler) http.Handler

// handled is what becomes of a request that has an id.
func handled(t *testing.T, folder string, handler http.HandlerFunc, around layer) (string, error) {
	all := recorders(t, folder, "right", "ann")
	server := httptest.NewServer(around(ByClient(all[0], handler)))
	defer func() {
		server.Close()
		all[0].End()
		all[1].End()
	}()
	client := http.Client{Transport: Transport(all[1], nil)}
	response, err := client.Get(server.URL)
	if err != nil {
		return "", err
	}
	defer response.Body.Close()
	body, err := io.ReadAll(response.Body)
	return string(body), err
}

func asItIs(handler http.Handler) http.Handler { return handler }

func TestAPanicOfWhichAResponseIsMade(t *testing.T) {
	folder := t.TempDir()
	recovering := func(handler http.Handler) http.Handler {
		return http.HandlerFunc(func(out http.ResponseWriter, request *http.Request) {
			defer func() { http.Error(out, fmt.Sprint(recover()), http.StatusInternalServerError) }()
			handler.ServeHTTP(out, request)
		})
	}
	body, err := handled(t, folder, func(http.ResponseWriter, *http.Request) { panic("lost") }, recovering)
	if err != nil {
		t.Fatal(err)
	}
	see(t, body, "lost\n")
	seeStream(t, folder, "ann", `{"send":"ann-1"}`, `{"recv":"right_ann-1"}`)
}

func TestAPanicThatClosesTheConnection(t *testing.T) {
	folder := t.TempDir()
	aborting := func(http.ResponseWriter, *http.Request) { panic(http.ErrAbortHandler) }
	if body, err := handled(t, folder, aborting, asItIs); err == nil {
		t.Errorf("there is a response: %s", body)
	}
	seeStream(t, folder, "ann", `{"send":"ann-1"}`)
}

func TestAResponseLeavesWithItsFirstPart(t *testing.T) {
	folder := t.TempDir()
	all := recorders(t, folder, "right", "ann")
	goOn := make(chan bool)
	url := served(t, ByClient(all[0], http.HandlerFunc(func(out http.ResponseWriter, request *http.Request) {
		out.WriteHeader(http.StatusEarlyHints)
		recorder, _ := record.FromContext(request.Context())
		recorder.Event(record.Set("x", 1))
		out.(http.Flusher).Flush()
		<-goOn
		recorder.Event(record.Set("x", 2))
		io.WriteString(out, "done")
	})))
	client := http.Client{Transport: Transport(all[1], nil)}
	response, err := client.Get(url)
	if err != nil {
		t.Fatal(err)
	}
	defer response.Body.Close()
	see(t, fmt.Sprint(all[1].Events()), "2") // the body hasn't come by then
	close(goOn)
	body, err := io.ReadAll(response.Body)
	see(t, string(body)+fmt.Sprint(err), "done<nil>")
	judged(t, folder, all, "right ann right_ann", "right_ann.x == 2", "session 3 processes 8 events 3 messages\n")
	seeStream(t, folder, "right_ann", `{"recv":"right-1"}`, `{"recv":"ann-1"}`, `{"set":{"x":1}}`,
		`{"send":"right_ann-1"}`, `{"set":{"x":2}}`)
}

func TestAHandlerThatTakesTheConnection(t *testing.T) {
	folder := t.TempDir()
	body, err := handled(t, folder, func(out http.ResponseWriter, request *http.Request) {
		connection, _, err := out.(http.Hijacker).Hijack()
		if err != nil {
			t.Error(err)
			return
		}
		defer connection.Close()
		io.WriteString(connection, "HTTP/1.1 200 OK\r\nContent-Length: 4\r\nConnection: close\r\n\r\ndone")
	}, asItIs)
	if err != nil {
		t.Fatal(err)
	}
	see(t, body, "done")
	seeStream(t, folder, "right_ann", `{"recv":"right-1"}`, `{"recv":"ann-1"}`)
}

// plain is a writer that can do nothing more.
type plain struct{ http.ResponseWriter }

func TestAWriterCanWhatTheOtherOneCan(t *testing.T) {
	flushing := httptest.NewRecorder()
	writers := []http.ResponseWriter{plain{flushing}, flushing, both{flushing, nil, nil}, pushing{flushing, nil}}
	for _, out := range writers {
		w := (&writer{ResponseWriter: out}).withAbilities()
		_, before := out.(http.Flusher)
		_, after := w.(http.Flusher)
		_, pushes := out.(http.Pusher)
		_, pushesAfter := w.(http.Pusher)
		_, hijacks := out.(http.Hijacker)
		_, hijacksAfter := w.(http.Hijacker)
		if before != after || pushes != pushesAfter || hijacks != hijacksAfter {
			t.Errorf("of %T there is %T", out, w)
		}
	}
}

type both struct {
	http.ResponseWriter
	http.Flusher
	http.Hijacker
}

type pushing struct {
	http.ResponseWriter
	http.Pusher
}

func TestHTTP2(t *testing.T) {
	folder := t.TempDir()
	all := recorders(t, folder, "right", "ann")
	server := httptest.NewUnstartedServer(ByClient(all[0], http.HandlerFunc(
		func(out http.ResponseWriter, request *http.Request) {
			_, pushes := out.(http.Pusher)
			_, notifies := out.(http.CloseNotifier)
			out.(http.Flusher).Flush()
			fmt.Fprint(out, request.Proto, pushes, notifies)
		})))
	server.EnableHTTP2 = true
	server.StartTLS()
	defer server.Close()
	client := http.Client{Transport: Transport(all[1], server.Client().Transport)}
	response, err := client.Get(server.URL)
	if err != nil {
		t.Fatal(err)
	}
	body, err := io.ReadAll(response.Body)
	see(t, string(body)+fmt.Sprint(err), "HTTP/2.0true true<nil>")
	client.CloseIdleConnections()
	judged(t, folder, all, "right ann right_ann", "ann.x == 1", "session 3 processes 6 events 3 messages\n")
}

// proxy passes requests on to this place.
func proxy(t *testing.T, to string, transport http.RoundTripper) http.Handler {
	target, err := url.Parse(to)
	if err != nil {
		t.Fatal(err)
	}
	made := httputil.NewSingleHostReverseProxy(target)
	made.Transport = transport
	return made
}

func TestProxies(t *testing.T) {
	for recorded, wanted := range map[string]string{
		"in and out": "back front ann back_front_ann front_ann: session 5 processes 14 events 6 messages\n",
		"in":         "back front ann front_ann: session 4 processes 8 events 3 messages\n",
		"out":        "back front ann back_front: session 4 processes 9 events 3 messages\n",
		"not at all": "back front ann back_ann: session 4 processes 8 events 3 messages\n",
	} {
		t.Run(recorded, func(t *testing.T) {
			folder := t.TempDir()
			all := recorders(t, folder, "back", "front", "ann")
			var transport http.RoundTripper
			if strings.Contains(recorded, "out") {
				transport = Transport(all[1], nil)
			}
			front := proxy(t, served(t, ByClient(all[0], inside)), transport)
			if strings.Contains(recorded, "in") {
				front = ByClient(all[1], front)
			}
			see(t, get(t, all[2], served(t, front)), "done")
			processes, report, _ := strings.Cut(wanted, ": ")
			judged(t, folder, all, processes, "ann.x == 1", report)
		})
	}
}

const after = " Requests go on, and no more such errors are told.\n"

// narrow is a file with room for so many lines.
type narrow struct{ room int }

func (n *narrow) Write(line []byte) (int, error) {
	if n.room--; n.room < 0 {
		return 0, errors.New("no space is left")
	}
	return len(line), nil
}

func (n *narrow) Close() error { return nil }

func TestARecorderThatFailsIsToldOnce(t *testing.T) {
	right, _ := record.New("right", &narrow{room: 2})
	ann, _ := record.New("ann", &narrow{room: 4})
	transport := Transport(ann, nil)
	handler := Handler(right, http.HandlerFunc(func(out http.ResponseWriter, request *http.Request) {
		out.Header().Set(ResponseHeader, "another-1")
		fmt.Fprint(out, "done")
	}))
	url := served(t, http.HandlerFunc(func(out http.ResponseWriter, request *http.Request) {
		if request.Header.Get(RequestHeader) == "another-1" {
			t.Error("the request has the id of another one")
		}
		request.Header.Set(RequestHeader, "ann-9")
		handler.ServeHTTP(out, request)
	}))
	request, _ := http.NewRequest(http.MethodGet, url, nil)
	request.Header.Set(RequestHeader, "another-1") // as a proxy has it
	said := saying(t, func() {
		for i := 0; i < 6; i++ {
			response, err := transport.RoundTrip(request)
			if err != nil {
				t.Error(err)
				continue
			}
			body, _ := io.ReadAll(response.Body)
			response.Body.Close()
			see(t, string(body)+response.Header.Get(ResponseHeader), "done")
		}
	})
	see(t, said, "httprec: no space is left."+after+"httprec: no space is left."+after)
}

func TestARecorderThatPanics(t *testing.T) {
	said := saying(t, func() { new(faults).try(func() error { panic("lost") }) })
	see(t, said, "httprec: panic: lost."+after)
}

func TestAStrandThatCannotBegin(t *testing.T) {
	folder := t.TempDir()
	long := strings.Repeat("a", 30)
	all := recorders(t, folder, "right", "ann", long, "bob")
	url := served(t, ByClient(all[0], inside))
	said := saying(t, func() {
		for _, client := range []int{1, 2, 3, 1} {
			see(t, get(t, all[client], url), "done")
		}
	})
	see(t, said, `httprec: record: "right_`+long+`": no name of a process.`+after)
	judged(t, folder, all, "right ann bob right_ann "+long, "ann.x == 1", "session 5 processes 26 events 9 messages\n")
}

func TestRequestsAtOnceAreToldOnce(t *testing.T) {
	folder := t.TempDir()
	all := recorders(t, folder, "right", "ann")
	var arrived, done sync.WaitGroup
	url := served(t, Handler(all[0], http.HandlerFunc(func(http.ResponseWriter, *http.Request) {
		arrived.Done()
		arrived.Wait()
	})))
	client := http.Client{Transport: Transport(all[1], nil)}
	said := saying(t, func() {
		for round := 0; round < 2; round++ {
			arrived.Add(3)
			for i := 0; i < 3; i++ {
				done.Add(1)
				go func() {
					defer done.Done()
					if response, err := client.Get(url); err != nil || response.StatusCode != http.StatusOK {
						t.Errorf("%v %v", response, err)
					}
				}()
			}
			done.Wait()
		}
	})
	see(t, said, "httprec: ann has several requests under way at once, and their order is taken for a cause: give each "+
		"goroutine a strand, in the context of its requests.\n")
}

func TestWithoutARecorder(t *testing.T) {
	url := served(t, Handler(nil, http.HandlerFunc(func(out http.ResponseWriter, request *http.Request) {
		fmt.Fprint(out, request.Header.Get(RequestHeader))
	})))
	said := saying(t, func() {
		see(t, get(t, nil, url), "")
		see(t, get(t, recorders(t, t.TempDir(), "ann")[0], url), "ann-1")
	})
	see(t, said, "")
}

// closing is a transport that is told to close its connections.
type closing struct {
	http.RoundTripper
	isClosed bool
}

func (c *closing) CloseIdleConnections() { c.isClosed = true }

func TestConnectionsAreClosed(t *testing.T) {
	next := &closing{}
	(&http.Client{Transport: Transport(nil, next)}).CloseIdleConnections()
	if !next.isClosed {
		t.Error("they are open")
	}
}

func TestTheRecorderOfTheContextComesFirst(t *testing.T) {
	folder := t.TempDir()
	all := recorders(t, folder, "right", "ann")
	url := served(t, ByClient(all[0], inside))
	strand, err := all[1].Strand("ann_2")
	if err != nil {
		t.Fatal(err)
	}
	request, _ := http.NewRequestWithContext(record.NewContext(context.Background(), strand), http.MethodGet, url, nil)
	response, err := Transport(all[1], nil).RoundTrip(request)
	if err != nil || response.Request != request || len(request.Header) > 0 {
		t.Errorf("%v %v", response, err)
	}
	strand.End()
	judged(t, folder, all, "right ann ann_2 right_ann_2", "ann.x == 1", "session 4 processes 11 events 4 messages\n")
}

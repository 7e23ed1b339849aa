// The program workers has two workers take turns by a lock service, as three processes that are traced by
// OpenTelemetry's SDK for Go: `workers FOLDER` writes FOLDER/traces.json. A worker gives the lock back before its write
// has ended.
//
// Debian has the SDK, in its package golang-opentelemetry-otel-dev, but no exporter of OTLP: what stands in export.go
// writes the spans that the SDK hands to it. With that package, in this folder:
//
//	GO111MODULE=off GOPATH=/usr/share/gocode go build -o /tmp/workers .
//	mkdir -p /tmp/traced-by-sdk
//	/tmp/workers /tmp/traced-by-sdk
//
// The stored session was made of the traces.json that is stored here, by the command that recorders/README.md gives for
// examples/traces.
package main

import (
	"bufio"
	"context"
	"fmt"
	"log"
	"net"
	"net/http"
	"os"
	"os/exec"
	"path/filepath"
	"time"

	"go.opentelemetry.io/otel"
	"go.opentelemetry.io/otel/attribute"
	"go.opentelemetry.io/otel/propagation"
	"go.opentelemetry.io/otel/sdk/resource"
	sdk "go.opentelemetry.io/otel/sdk/trace"
	"go.opentelemetry.io/otel/trace"
)

const writing = 200 * time.Millisecond

// call asks the lock service, in a client's span.
func call(ctx context.Context, url, path string) error {
	ctx, span := otel.Tracer("workers").Start(ctx, "POST "+path, trace.WithSpanKind(trace.SpanKindClient))
	defer span.End()
	request, err := http.NewRequestWithContext(ctx, http.MethodPost, url+path, nil)
	if err != nil {
		return err
	}
	otel.GetTextMapPropagator().Inject(ctx, propagation.HeaderCarrier(request.Header))
	response, err := http.DefaultClient.Do(request)
	if err != nil {
		return err
	}
	span.SetAttributes(attribute.Int("http.response.status_code", response.StatusCode))
	return response.Body.Close()
}

// work writes while it has the lock, but for the end of the write.
func work(ctx context.Context, url string) error {
	ctx, job := otel.Tracer("workers").Start(ctx, "job")
	defer job.End()
	if err := call(ctx, url, "/acquire"); err != nil {
		return err
	}
	_, write := otel.Tracer("workers").Start(ctx, "write", trace.WithAttributes(attribute.Int("rows", 12)))
	defer write.End()
	if err := call(ctx, url, "/release"); err != nil { // the bug: it is given back too early
		return err
	}
	time.Sleep(writing)
	write.AddEvent("flushed", trace.WithAttributes(attribute.Bool("synced", true)))
	return nil
}

// serve answers in servers' spans, whose parents the requests name, until its input ends.
func serve() error {
	lock := make(chan bool, 1)
	answer := func(act func()) http.HandlerFunc {
		return func(writer http.ResponseWriter, request *http.Request) {
			ctx := otel.GetTextMapPropagator().Extract(request.Context(), propagation.HeaderCarrier(request.Header))
			kind := trace.WithSpanKind(trace.SpanKindServer)
			_, span := otel.Tracer("workers").Start(ctx, "POST "+request.URL.Path, kind)
			defer span.End()
			act()
		}
	}
	http.Handle("/acquire", answer(func() { lock <- true }))
	http.Handle("/release", answer(func() { <-lock }))
	listener, err := net.Listen("tcp4", "127.0.0.1:0")
	if err != nil {
		return err
	}
	fmt.Printf("http://%s\n", listener.Addr())
	go http.Serve(listener, nil)
	bufio.NewReader(os.Stdin).ReadString('\n')
	return nil
}

// runInstance is one process, with the spans in a file.
func runInstance(path, service, instance, url string) error {
	file, err := os.Create(path)
	if err != nil {
		return err
	}
	defer file.Close()
	own, err := resource.Merge(resource.Default(), resource.NewSchemaless(
		attribute.String("service.name", service), attribute.String("service.instance.id", instance)))
	if err != nil {
		return err
	}
	provider := sdk.NewTracerProvider(sdk.WithBatcher(exporter{file}), sdk.WithResource(own))
	otel.SetTracerProvider(provider)
	otel.SetTextMapPropagator(propagation.TraceContext{})
	if service == "lock" {
		err = serve()
	} else {
		err = work(context.Background(), url)
	}
	if err != nil {
		return err
	}
	return provider.Shutdown(context.Background())
}

// runAll starts the lock service and the workers, and puts what they export into one file.
func runAll(folder string) error {
	part := func(name string) string { return filepath.Join(folder, name+".part") }
	lock := exec.Command(os.Args[0], part("lock"), "lock", "main", "")
	lock.Stderr = os.Stderr
	input, err := lock.StdinPipe()
	if err != nil {
		return err
	}
	output, err := lock.StdoutPipe()
	if err != nil {
		return err
	}
	if err := lock.Start(); err != nil {
		return err
	}
	var url string
	if _, err := fmt.Fscanln(output, &url); err != nil {
		return err
	}
	var workers []*exec.Cmd
	for _, name := range []string{"blue", "green"} {
		worker := exec.Command(os.Args[0], part(name), "worker", name, url)
		worker.Stderr = os.Stderr
		if err := worker.Start(); err != nil {
			return err
		}
		workers = append(workers, worker)
		time.Sleep(2 * writing) // so that by its times all goes well
	}
	for _, worker := range workers {
		if err := worker.Wait(); err != nil {
			return err
		}
	}
	input.Close()
	if err := lock.Wait(); err != nil {
		return err
	}
	return join(filepath.Join(folder, "traces.json"), part("blue"), part("green"), part("lock"))
}

// join puts the parts into one file, and removes them.
func join(path string, parts ...string) error {
	var all []byte
	for _, part := range parts {
		text, err := os.ReadFile(part)
		if err != nil {
			return err
		}
		all = append(all, text...)
		if err := os.Remove(part); err != nil {
			return err
		}
	}
	return os.WriteFile(path, all, 0o666)
}

func main() {
	var err error
	switch words := os.Args[1:]; len(words) {
	case 1:
		err = runAll(words[0])
	case 4:
		err = runInstance(words[0], words[1], words[2], words[3])
	default:
		err = fmt.Errorf("workers FOLDER")
	}
	if err != nil {
		log.Fatal(err)
	}
}

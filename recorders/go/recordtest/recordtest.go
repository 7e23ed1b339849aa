// Package recordtest judges what a test has recorded, at the test's end:
//
//	func TestTheyTakeTurns(t *testing.T) {
//		run := recordtest.Start(t, "session.json", "both")
//		left := recordtest.Recorder(run, "left", record.ToFile)
//		right := recordtest.Recorder(run, "right", record.ToFile)
//		takeTurns(left, right)
//	}
//
// The test fails if a predicate that must never hold may have held (possibly yes), if that isn't settled, or if the
// recordings are refused or empty. The failure has the report's line and the path of a picture, and the run's folder
// stays, with all that was judged; that of a run that passes is deleted. docs/IN-TESTS.md goes through it.
//
// The program is the one that the environment's MONITOR names, or else monitor on the path. Runs are kept in the folder
// that MONITOR_RUNS names, or else in monitor-runs in the folder of the test's package.
package recordtest

import (
	"context"
	"errors"
	"fmt"
	"io/fs"
	"os"
	"os/exec"
	"path/filepath"
	"regexp"
	"runtime"
	"strconv"
	"strings"
	"sync"
	"testing"
	"time"
)

const patience = 60 * time.Second

var (
	otherThanPlain = regexp.MustCompile(`[^A-Za-z0-9_.-]+`)
	refusedStream  = regexp.MustCompile(`^refused stream (\d+) `)
)

// An Ender is what a recorder is here.
type Ender interface {
	End() error
	Close() error
}

// A Run is one run of a test, with a folder of its own.
type Run struct {
	t        testing.TB
	program  string
	folder   string
	never    []string
	patience time.Duration
	// What the program explains of the report, if MONITOR_EXPLAIN asks for that.
	explained []string

	mutex     sync.Mutex
	recorders []Ender
}

// Start is a run of the test, by the session document in a file, whose path is relative to the folder of the test's
// package. It is judged after the test and its subtests, and after what the test hands to Cleanup from now on. Never
// are the predicates that must never hold: all of the document, if none is given.
func Start(t testing.TB, document string, never ...string) *Run {
	t.Helper()
	text, err := os.ReadFile(document)
	if err != nil {
		t.Fatal(err)
	}
	return StartWith(t, string(text), never...)
}

// StartWith does the same, by a document as a text.
func StartWith(t testing.TB, document string, never ...string) *Run {
	t.Helper()
	program, err := foundProgram()
	if err != nil {
		t.Fatal(err)
	}
	folder, err := newFolder(t.Name())
	if err != nil {
		t.Fatal(err)
	}
	run := &Run{t: t, program: program, folder: folder, never: never, patience: patience}
	if err := os.WriteFile(filepath.Join(folder, "session.json"), []byte(document), 0o666); err != nil {
		t.Fatal(err)
	}
	t.Cleanup(run.finish)
	return run
}

// Recorder is a recorder for a process that the test plays, made by record.ToFile. At the test's end it is ended, if it
// isn't by then; if the test has failed by itself, it is closed without an end.
func Recorder[R Ender](run *Run, process string, toFile func(process, path string) (R, error)) R {
	run.t.Helper()
	recorder, err := toFile(process, run.Path(process))
	if err != nil {
		run.t.Fatal(err)
	}
	run.mutex.Lock()
	defer run.mutex.Unlock()
	run.recorders = append(run.recorders, recorder)
	return recorder
}

// Path is where the stream of a process belongs, for one that makes its recorder by itself: it must have ended the
// stream before the test's end.
func (r *Run) Path(process string) string { return filepath.Join(r.folder, process+".stream") }

// Folder has the run's files.
func (r *Run) Folder() string { return r.folder }

func (r *Run) finish() {
	r.t.Helper()
	r.mutex.Lock()
	defer r.mutex.Unlock()
	hasFailed := r.t.Failed() || isPanicking()
	if hasFailed || r.t.Skipped() {
		for _, recorder := range r.recorders {
			recorder.Close()
		}
	} else if err := r.judge(); err != nil {
		r.t.Error(err)
		return
	}
	if hasFailed {
		r.t.Logf("what was recorded until then is in %s", r.folder)
	} else if err := os.RemoveAll(r.folder); err != nil {
		r.t.Error(err)
	}
}

// isPanicking says whether a panic is leaving the test, of which Failed doesn't know yet.
func isPanicking() bool {
	callers := make([]uintptr, 100)
	frames := runtime.CallersFrames(callers[:runtime.Callers(0, callers)])
	for {
		frame, more := frames.Next()
		if frame.Function == "runtime.gopanic" || !more {
			return more
		}
	}
}

// judge ends the recorders and judges the streams. Its error says why the test has to fail.
func (r *Run) judge() error {
	for _, recorder := range r.recorders {
		if err := recorder.End(); err != nil {
			return r.failure("a recording can't be ended:", err.Error())
		}
	}
	streams, err := r.streams()
	if err != nil {
		return r.failure(err.Error())
	}
	if len(streams) == 0 {
		return r.failure("nothing was recorded: there is no stream")
	}
	status, said, err := r.monitor("report", append([]string{"judge", "session.json"}, streams...))
	if err != nil {
		return r.failure(err.Error())
	}
	if status != 0 && status != 1 {
		return r.failure(fmt.Sprintf("judging ended with status %d: %s", status, said))
	}
	report, err := os.ReadFile(filepath.Join(r.folder, "report"))
	if err != nil {
		return r.failure(err.Error())
	}
	lines := strings.Split(strings.TrimSuffix(string(report), "\n"), "\n")
	if said != "" {
		r.explained = strings.Split(said, "\n")
	}
	if status == 1 {
		refusal := lines[0] + namedStream(lines[0], streams)
		return r.failure("the recordings are refused:", append([]string{refusal}, r.explained...)...)
	}
	if strings.Contains(lines[0], " 0 events ") {
		return r.failure("nothing was recorded:", lines[0])
	}
	return r.lookAt(lines[1:], streams)
}

// lookAt is the failure that comes of the report's answers, if any does.
func (r *Run) lookAt(answers, streams []string) error {
	possibly, never := map[string]string{}, r.never
	for _, line := range answers {
		if words := strings.Fields(line); words[1] == "possibly" {
			possibly[words[0]] = line
			if len(r.never) == 0 {
				never = append(never, words[0])
			}
		}
	}
	var held, unknown []string
	for _, name := range never {
		line, ok := possibly[name]
		switch {
		case !ok:
			return r.failure("the document has no predicate " + name + ", which must never hold")
		case strings.Fields(line)[2] == "yes":
			held = append(held, line, r.picture(name, streams))
		case strings.Fields(line)[2] == "unknown":
			unknown = append(unknown, line)
		}
	}
	switch {
	case len(held) > 0:
		return r.failure("what must never hold may have held:", append(held, r.explained...)...)
	case len(unknown) > 0:
		return r.failure("not settled, since the document's width is too small:", append(unknown, r.explained...)...)
	}
	return nil
}

// streams are the names of the streams' files.
func (r *Run) streams() ([]string, error) {
	entries, err := os.ReadDir(r.folder)
	if err != nil {
		return nil, err
	}
	var names []string
	for _, entry := range entries {
		if strings.HasSuffix(entry.Name(), ".stream") {
			names = append(names, entry.Name())
		}
	}
	return names, nil
}

func (r *Run) picture(name string, streams []string) string {
	words := append([]string{"draw", "session.json", "report"}, streams...)
	status, said, err := r.monitor(name+".svg", append(words, "--predicate", name))
	path := filepath.Join(r.folder, name+".svg")
	if err == nil && status == 0 {
		return "picture: " + path
	}
	os.Remove(path)
	if err != nil {
		said = err.Error()
	}
	return "no picture: " + said
}

// monitor runs the program in the folder, and gives its status and its errors. What it writes goes to a file there.
func (r *Run) monitor(file string, words []string) (status int, said string, err error) {
	out, err := os.Create(filepath.Join(r.folder, file))
	if err != nil {
		return 0, "", err
	}
	defer out.Close()
	errorFile, err := os.CreateTemp(r.folder, "errors-")
	if err != nil {
		return 0, "", err
	}
	defer os.Remove(errorFile.Name())
	defer errorFile.Close()
	inTime, cancel := context.WithTimeout(context.Background(), r.patience)
	defer cancel()
	command := exec.CommandContext(inTime, r.program, words...)
	command.Dir, command.Stdout, command.Stderr = r.folder, out, errorFile
	err = command.Run()
	var ended *exec.ExitError
	if inTime.Err() != nil {
		return 0, "", fmt.Errorf("monitor %s took over %v", words[0], r.patience)
	}
	if err != nil && !errors.As(err, &ended) {
		return 0, "", err
	}
	text, err := os.ReadFile(errorFile.Name())
	return command.ProcessState.ExitCode(), strings.TrimSpace(string(text)), err
}

func (r *Run) failure(head string, lines ...string) error {
	all := append([]string{head}, lines...)
	return errors.New(strings.Join(append(all, "all of the run: "+r.folder), "\n  "))
}

// namedStream is the name of the stream that is refused, which the report counts.
func namedStream(refusal string, streams []string) string {
	match := refusedStream.FindStringSubmatch(refusal)
	if match == nil {
		return ""
	}
	number, err := strconv.Atoi(match[1])
	if err != nil || number < 1 || number > len(streams) {
		return ""
	}
	return " (" + streams[number-1] + ")"
}

// foundProgram is the path of the program. A test that can't be judged fails, and isn't passed over.
func foundProgram() (string, error) {
	given := os.Getenv("MONITOR")
	word, what := given, "MONITOR is "+given+", which is no program"
	if given == "" {
		word, what = "monitor", "there is no program monitor on the path"
	}
	path, err := exec.LookPath(word)
	if err != nil {
		return "", errors.New(what + ": set MONITOR to the path of monitor")
	}
	return filepath.Abs(path)
}

// newFolder is a folder for a run that no other run has, also of tests that go on at the same time.
func newFolder(test string) (string, error) {
	base := os.Getenv("MONITOR_RUNS")
	if base == "" {
		base = "monitor-runs"
	}
	base, err := filepath.Abs(base)
	if err != nil {
		return "", err
	}
	if err := os.MkdirAll(base, 0o777); err != nil {
		return "", err
	}
	name := strings.Trim(otherThanPlain.ReplaceAllString(test, "_"), "_.")
	if name == "" {
		name = "run"
	}
	for number := 1; ; number++ {
		folder := filepath.Join(base, fmt.Sprintf("%s-%d", name, number))
		if err := os.Mkdir(folder, 0o777); !errors.Is(err, fs.ErrExist) {
			return folder, err
		}
	}
}

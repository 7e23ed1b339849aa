package recordtest

import (
	"fmt"
	"os"
	"os/exec"
	"path/filepath"
	"reflect"
	"regexp"
	"runtime"
	"strings"
	"testing"
	"time"

	"monitor.example/record"
)

// document is one without its last brace.
const document = `{"processes":[{"name":"left","vars":{"inside":0}},{"name":"right","vars":{"inside":0}}],` +
	`"predicates":[{"name":"both","text":"left.inside == 1 and right.inside == 1"},` +
	`{"name":"left_in","text":"left.inside == 1"}]`

var (
	early = []string{`{"set":{"inside":1}}`, `{"send":"m"}`, `{"set":{"inside":0}}`, `{"end":true}`}
	late  = []string{`{"set":{"inside":1}}`, `{"set":{"inside":0}}`, `{"send":"m"}`, `{"end":true}`}
	right = []string{`{"recv":"m","set":{"inside":1}}`, `{"end":true}`}
)

// aTest is a test that a run belongs to, and what it says.
type aTest struct {
	testing.TB
	name        string
	hasFailed   bool
	said        []string
	atItsEnd    []func()
	runs        string
	environment map[string]string
}

func (a *aTest) Name() string        { return a.name }
func (a *aTest) Helper()             {}
func (a *aTest) Failed() bool        { return a.hasFailed }
func (a *aTest) Skipped() bool       { return false }
func (a *aTest) Cleanup(last func()) { a.atItsEnd = append(a.atItsEnd, last) }
func (a *aTest) Error(what ...any)   { a.hasFailed, a.said = true, append(a.said, fmt.Sprint(what...)) }
func (a *aTest) Logf(string, ...any) {}
func (a *aTest) Fatal(what ...any)   { a.Error(what...); runtime.Goexit() }
func (a *aTest) played(play func(*aTest)) string {
	done := make(chan bool)
	go func() {
		defer close(done)
		play(a)
	}()
	<-done
	for place := len(a.atItsEnd) - 1; place >= 0; place-- {
		a.atItsEnd[place]()
	}
	return strings.Join(a.said, "\n")
}

// program is the program of the environment.
func program(t *testing.T) string {
	t.Helper()
	path, err := foundProgram()
	if err != nil {
		t.Skip(err)
	}
	return path
}

// said is what a test says that plays so, with RUN for its folder, and whether the folder stays.
func said(t *testing.T, play func(*aTest)) (string, bool) {
	t.Helper()
	runs := t.TempDir()
	t.Setenv("MONITOR_RUNS", runs)
	folder := filepath.Join(runs, "turns-1")
	text := (&aTest{TB: t, name: "turns"}).played(play)
	_, err := os.Stat(folder)
	return strings.ReplaceAll(text, folder, "RUN"), err == nil
}

// see fails if the test that plays so doesn't say this, or if its folder stays though it says nothing.
func see(t *testing.T, wanted string, play func(*aTest)) {
	t.Helper()
	text, stays := said(t, play)
	if text != wanted {
		t.Errorf("there is\n%s\nand not\n%s", text, wanted)
	}
	if stays != (wanted != "") {
		t.Errorf("that the folder stays is %v", stays)
	}
}

// recorded plays a test that writes these streams of left and right, as far as there are so many.
func recorded(document string, never []string, streams ...[]string) func(*aTest) {
	return func(test *aTest) {
		run := StartWith(test, document, never...)
		for place, lines := range streams {
			name := [...]string{"left", "right"}[place]
			text := fmt.Sprintf("{\"process\":%q}\n%s\n", name, strings.Join(lines, "\n"))
			if err := os.WriteFile(run.Path(name), []byte(text), 0o666); err != nil {
				test.Fatal(err)
			}
		}
	}
}

func TestRunsThatAreJudged(t *testing.T) {
	program(t)
	both := []string{"both"}
	see(t, "", recorded(document+"}", both, late, right))
	see(t, "what must never hold may have held:\n  both possibly yes 2,1\n  picture: RUN/both.svg\n  all of the run: RUN",
		recorded(document+"}", both, early, right))
	see(t, "what must never hold may have held:\n  both possibly yes 2,1\n  picture: RUN/both.svg\n"+
		"  left_in possibly yes 1,0\n  picture: RUN/left_in.svg\n  all of the run: RUN",
		recorded(document+"}", nil, early, right))
	see(t, "the document has no predicate never, which must never hold\n  all of the run: RUN",
		recorded(document+"}", []string{"never"}, late, right))
	apart := []string{`{"set":{"inside":1}}`, `{}`, `{}`, `{"set":{"inside":0}}`, `{"end":true}`}
	see(t, "not settled, since the document's width is too small:\n  both possibly unknown 1\n  all of the run: RUN",
		recorded(document+`,"width":1}`, both, apart, apart))
}

func TestRunsThatAreExplained(t *testing.T) {
	program(t)
	t.Setenv("MONITOR_EXPLAIN", "1")
	for line, play := range map[string]func(*aTest){
		"\n  `both` can happen, when these processes have come this far:\n": recorded(document+"}", nil, early, right),
		"\n  No stream is that of process `right`, which":                   recorded(document+"}", nil, late),
	} {
		if text, _ := said(t, play); !strings.Contains(text, line) {
			t.Errorf("there is no %q in\n%s", line, text)
		}
	}
}

func TestRunsThatAreNotJudged(t *testing.T) {
	program(t)
	see(t, "nothing was recorded: there is no stream\n  all of the run: RUN", recorded(document+"}", nil))
	end := []string{`{"end":true}`}
	see(t, "nothing was recorded:\n  session 2 processes 0 events 0 messages\n  all of the run: RUN",
		recorded(document+"}", nil, end, end))
	see(t, "the recordings are refused:\n  refused stream 2 line 3 unended (right.stream)\n  all of the run: RUN",
		recorded(document+"}", nil, late, []string{`{"recv":"m"}`}))
	see(t, "the recordings are refused:\n  refused absent right\n  all of the run: RUN", recorded(document+"}", nil, late))
	see(t, "the recordings are refused:\n  refused spec json\n  all of the run: RUN", recorded(document, nil, late, right))
}

func TestWhatIsKept(t *testing.T) {
	program(t)
	runs := t.TempDir()
	t.Setenv("MONITOR_RUNS", runs)
	(&aTest{TB: t, name: "turns"}).played(recorded(document+"}", []string{"both"}, early, right))
	found, err := filepath.Glob(filepath.Join(runs, "*", "*"))
	wanted := []string{"both.svg", "left.stream", "report", "right.stream", "session.json"}
	for place, name := range wanted {
		wanted[place] = filepath.Join(runs, "turns-1", name)
	}
	if err != nil || !reflect.DeepEqual(found, wanted) {
		t.Errorf("there are %v, and not %v", found, wanted)
	}
	picture, err := os.ReadFile(wanted[0])
	if err != nil || !strings.Contains(string(picture), ">both possibly yes, definitely ") {
		t.Errorf("the picture is %s", picture)
	}
}

func TestRecorders(t *testing.T) {
	program(t)
	see(t, "", func(test *aTest) {
		run := StartWith(test, document+"}", "both")
		Recorder(run, "left", record.ToFile).Event(record.Set("inside", 1))
		Recorder(run, "right", record.ToFile).End()
	})
	see(t, "the recordings are refused:\n  refused stream 1 line 2 unended (left.stream)\n  all of the run: RUN",
		func(test *aTest) {
			run := StartWith(test, document+"}", "both")
			Recorder(run, "left", record.ToFile).Close()
			Recorder(run, "right", record.ToFile)
		})
	text, stays := said(t, func(test *aTest) {
		run := StartWith(test, document+"}")
		Recorder(run, "left", record.ToFile)
		Recorder(run, "left", record.ToFile)
	})
	if !strings.HasPrefix(text, "open RUN/left.stream: file exists: a recording isn't written over") || !stays {
		t.Errorf("there is %s", text)
	}
}

// TestOtherPrograms has runs judged by programs that end otherwise than monitor, or that aren't there.
func TestOtherPrograms(t *testing.T) {
	folder := t.TempDir()
	script := func(lines string) {
		text := "#!/bin/sh\n" + lines + "\n"
		if err := os.WriteFile(filepath.Join(folder, "monitor"), []byte(text), 0o777); err != nil {
			t.Fatal(err)
		}
	}
	run := recorded(document+"}", nil, early, right)
	t.Setenv("MONITOR", filepath.Join(folder, "monitor"))
	script("echo monitor: memory >&2; exit 4")
	see(t, "judging ended with status 4: monitor: memory\n  all of the run: RUN", run)
	script("[ $1 = draw ] && { echo monitor: memory >&2; exit 4; }; echo session 1; echo both possibly yes 1")
	see(t, "what must never hold may have held:\n  both possibly yes 1\n  no picture: monitor: memory\n"+
		"  all of the run: RUN", run)
	script("exec sleep 60")
	see(t, "monitor judge took over 50ms\n  all of the run: RUN", func(test *aTest) {
		run := StartWith(test, document)
		run.patience = 50 * time.Millisecond
		Recorder(run, "left", record.ToFile)
	})
	t.Setenv("MONITOR", "")
	t.Setenv("PATH", folder+":"+os.Getenv("PATH"))
	script("echo session 1; echo both possibly no")
	see(t, "", run)
	t.Setenv("PATH", "/nowhere")
	for given, wanted := range map[string]string{
		"":                 "there is no program monitor on the path: set MONITOR to the path of monitor",
		"/nowhere/monitor": "MONITOR is /nowhere/monitor, which is no program: set MONITOR to the path of monitor",
	} {
		t.Setenv("MONITOR", given)
		if text, stays := said(t, run); text != wanted || stays {
			t.Errorf("there is %s, and not %s", text, wanted)
		}
	}
}

func TestNames(t *testing.T) {
	t.Setenv("MONITOR_RUNS", t.TempDir())
	var found []string
	for _, name := range []string{"TestTurns/number=3", "../é", "", "a/b", "a/b"} {
		folder, err := newFolder(name)
		if err != nil {
			t.Fatal(err)
		}
		found = append(found, filepath.Base(folder))
	}
	wanted := []string{"TestTurns_number_3-1", "run-1", "run-2", "a_b-1", "a_b-2"}
	if !reflect.DeepEqual(found, wanted) {
		t.Errorf("there are %v, and not %v", found, wanted)
	}
}

// inGo is what `go test` says of the tests in testdata with these names, without times, and with RUNS for the folder of
// the runs; and which runs are kept.
func inGo(t *testing.T, words ...string) (string, []string) {
	t.Helper()
	runs := t.TempDir()
	command := exec.Command("go", append([]string{"test", "./testdata/turns", "-run"}, words...)...)
	command.Env = append(os.Environ(), "MONITOR="+program(t), "MONITOR_RUNS="+runs)
	text, err := command.CombinedOutput()
	if err == nil {
		t.Errorf("it passes: %s", text)
	}
	entries, err := os.ReadDir(runs)
	if err != nil {
		t.Fatal(err)
	}
	var kept []string
	for _, entry := range entries {
		kept = append(kept, entry.Name())
	}
	plain := regexp.MustCompile(` \(\d+\.\d+s\)|\t\d+\.\d+s`).ReplaceAllString(string(text), "")
	return strings.ReplaceAll(plain, runs, "RUNS"), kept
}

// seeInGo fails if `go test` doesn't say this first, or if other runs than these are kept.
func seeInGo(t *testing.T, wanted string, kept []string, words ...string) {
	t.Helper()
	text, found := inGo(t, words...)
	if !strings.HasPrefix(text, wanted) {
		t.Errorf("there is\n%s\nand not\n%s", text, wanted)
	}
	if !reflect.DeepEqual(found, kept) {
		t.Errorf("there are %v, and not %v", found, kept)
	}
}

// held is what `go test` says of a run that fails, whose report says so.
func held(place, run, answer string) string {
	return fmt.Sprintf("%s: what must never hold may have held:\n          both possibly yes %s\n"+
		"          picture: RUNS/%s/both.svg\n          all of the run: RUNS/%[3]s\n", place, answer, run)
}

func TestInGo(t *testing.T) {
	program(t)
	seeInGo(t, "--- FAIL: TestEarly\n    "+held("turns_test.go:39", "TestEarly-1", "2,1")+"FAIL\n",
		[]string{"TestEarly-1"}, "Early|Late|Skipped")
	seeInGo(t, "--- FAIL: TestMany\n    --- FAIL: TestMany/number=2\n        "+
		strings.ReplaceAll(held("turns_test.go:47", "TestMany_number_2-1", "2,1"), "\n          ", "\n              ")+
		"FAIL\n", []string{"TestMany_number_2-1"}, "Many")
	seeInGo(t, "--- FAIL: TestOfSubtests\n    "+held("turns_test.go:54", "TestOfSubtests-1", "1,1")+"FAIL\n",
		[]string{"TestOfSubtests-1"}, "Subtests")
	seeInGo(t, "--- FAIL: TestAgain\n    "+held("turns_test.go:70", "TestAgain-1", "2,1")+"FAIL\n",
		[]string{"TestAgain-1"}, "Again", "-count=4")
}

func TestThatFailsByItself(t *testing.T) {
	program(t)
	until := "turns_test.go:%d: what was recorded until then is in RUNS/%s\n"
	seeInGo(t, "--- FAIL: TestByItself\n    turns_test.go:75: one isn't two\n    "+
		fmt.Sprintf(until, 74, "TestByItself-1"), []string{"TestByItself-1"}, "Itself")
	seeInGo(t, "--- FAIL: TestPanics\n    "+fmt.Sprintf(until, 79, "TestPanics-1")+"panic: it panics",
		[]string{"TestPanics-1"}, "Panics")
	seeInGo(t, "--- FAIL: TestWithoutADocument\n    turns_test.go:89: open nowhere.json: no such file or directory\n", nil,
		"Without")
	seeInGo(t, "--- FAIL: TestOfAProcessThatCannotBe\n    turns_test.go:93: record: \"not\": no name of a process\n    "+
		fmt.Sprintf(until, 93, "TestOfAProcessThatCannotBe-1"), []string{"TestOfAProcessThatCannotBe-1"}, "CannotBe")
}

package record

import (
	"bytes"
	"context"
	"encoding/json"
	"errors"
	"fmt"
	"io"
	"io/fs"
	"math"
	"net"
	"os"
	"path/filepath"
	"reflect"
	"runtime"
	"strconv"
	"strings"
	"syscall"
	"testing"
	"time"
)

// memory is a file that has room for so many bytes.
type memory struct {
	bytes.Buffer
	room   int
	closed bool
}

func (m *memory) Write(text []byte) (int, error) {
	if len(text) > m.room-m.Len() {
		return 0, syscall.ENOSPC
	}
	return m.Buffer.Write(text)
}

func (m *memory) Close() error {
	m.closed = true
	return nil
}

func opened(t *testing.T) (*Recorder, *memory) {
	t.Helper()
	out := &memory{room: 1000}
	r, err := New("left", out)
	if err != nil {
		t.Fatal(err)
	}
	return r, out
}

// see fails if the error isn't the one that is wanted.
func see(t *testing.T, err, wanted error) {
	t.Helper()
	if !errors.Is(err, wanted) {
		t.Errorf("the error is %v, and not %v", err, wanted)
	}
}

func seeText(t *testing.T, out *memory, wanted string) {
	t.Helper()
	if out.String() != wanted {
		t.Errorf("there is\n%sand not\n%s", out, wanted)
	}
}

func TestEveryReasonIsNotRecorded(t *testing.T) {
	reasons := []error{ErrProcessName, ErrVariableName, ErrValue, ErrVariables, ErrEvents, ErrID, ErrIDTwice, ErrEnded,
		ErrBroken, ErrNameTwice, ErrProcesses, ErrNoPlace, ErrNotEnded, ErrPlace, ErrRunning, ErrAgain,
		ErrLong, ErrNotes}
	for place, reason := range reasons {
		see(t, refused("x", reason), ErrNotRecorded)
		for other := range reasons {
			if errors.Is(refused("x", reason), reasons[other]) != (place == other) {
				t.Errorf("%v is taken for %v", reason, reasons[other])
			}
		}
	}
}

func TestValuesOfEachType(t *testing.T) {
	type level uint8
	type flag bool
	r, out := opened(t)
	see(t, r.Event(Set("a", int8(-1)), Set("b", uint64(math.MaxInt64)), Set("c", level(3)), Set("d", flag(true)),
		Set("e", false), Set("f", int64(math.MinInt64))), nil)
	see(t, r.Event(Set("a", uint64(math.MaxInt64)+1)), ErrValue)
	seeText(t, out, `{"process":"left"}`+"\n"+`{"set":{"a":-1,"b":9223372036854775807,"c":3,"d":1,"e":0,`+
		`"f":-9223372036854775808}}`+"\n")
}

func TestAVariableTwiceInOneCall(t *testing.T) {
	r, _ := opened(t)
	see(t, r.Event(Set("x", 1), Set("x", 1)), ErrVariableName)
	see(t, r.Event(Set("x", 1)), nil)
}

func TestIDsThatAreNotUTF8(t *testing.T) {
	r, out := opened(t)
	for _, id := range []string{"\x80", "\xc3", "\xc0\xaf", "\xed\xa0\x80", "\xf4\x90\x80\x80", "a\xe2\x82"} {
		see(t, r.SendAs(id), ErrID)
		see(t, r.Receive(id), ErrID)
	}
	see(t, r.SendAs("a\x00b"), nil)
	seeText(t, out, `{"process":"left"}`+"\n"+`{"send":"a\u0000b"}`+"\n")
}

func TestAfterALineThatCouldNotBeWrittenNothingIs(t *testing.T) {
	r, out := opened(t)
	out.room = out.Len() + 3
	see(t, r.Event(), nil)
	see(t, r.Event(), syscall.ENOSPC)
	out.room = 1000
	see(t, r.Event(), ErrBroken)
	see(t, r.End(), ErrBroken)
	see(t, r.Close(), nil)
	seeText(t, out, `{"process":"left"}`+"\n{}\n")
	if r.Events() != 1 || !out.closed {
		t.Errorf("there are %d events, and closed is %t", r.Events(), out.closed)
	}
}

func TestALongRecording(t *testing.T) {
	id := strings.Repeat("x", LongIDByteLimit)
	out := &memory{room: 10000}
	r, err := Options{Long: true}.New("left", out)
	see(t, err, nil)
	see(t, r.Receive(id), nil)
	see(t, r.SendAs(id+"x"), ErrID)
	see(t, r.End(), nil)
	seeText(t, out, "{\"process\":\"left\"}\n{\"recv\":\""+id+"\"}\n{\"end\":true}\n")
}

func TestAPanicLeavesNoEndLine(t *testing.T) {
	r, out := opened(t)
	func() {
		defer func() { _ = recover() }()
		defer r.Close()
		see(t, r.Event(), nil)
		panic("something went wrong")
	}()
	seeText(t, out, `{"process":"left"}`+"\n{}\n")
	see(t, r.Event(), ErrEnded)
}

func TestCloseAfterEndDoesNothing(t *testing.T) {
	r, out := opened(t)
	see(t, r.End(), nil)
	see(t, r.Close(), nil)
	see(t, r.End(), nil)
	seeText(t, out, `{"process":"left"}`+"\n"+`{"end":true}`+"\n")
}

func TestFiles(t *testing.T) {
	path := filepath.Join(t.TempDir(), "left.stream")
	_, err := ToFile("1", path)
	see(t, err, ErrProcessName)
	r, err := ToFile("left", path)
	see(t, err, nil)
	see(t, r.End(), nil)
	_, err = ToFile("left", path)
	see(t, err, fs.ErrExist)
	_, err = ToFile("left", filepath.Join(path, "none"))
	see(t, err, syscall.ENOTDIR)
	_, err = New("left", &memory{})
	see(t, err, syscall.ENOSPC)
}

// silentPort is a port on which nobody listens, as long as the test runs.
func silentPort(t *testing.T) int {
	t.Helper()
	listener, err := net.Listen("tcp4", "127.0.0.1:0")
	see(t, err, nil)
	connection, err := net.Dial("tcp4", listener.Addr().String())
	see(t, err, nil)
	see(t, listener.Close(), nil)
	t.Cleanup(func() { connection.Close() })
	return connection.LocalAddr().(*net.TCPAddr).Port
}

func TestAPortOnWhichNobodyListens(t *testing.T) {
	port := silentPort(t)
	canceled, cancel := context.WithCancel(context.Background())
	time.AfterFunc(20*time.Millisecond, cancel)
	_, err := ToPort(canceled, "left", port)
	see(t, err, context.Canceled)
	late, cancel := context.WithTimeout(context.Background(), 20*time.Millisecond)
	defer cancel()
	_, err = ToPort(late, "left", port)
	see(t, err, context.DeadlineExceeded)
	_, err = ToPort(context.Background(), "and", port)
	see(t, err, ErrProcessName)
}

func TestTokens(t *testing.T) {
	ctx := context.Background()
	for _, token := range []string{"a\x00b", "a\n", strings.Repeat("x", TokenByteLimit+1)} {
		_, err := Options{Token: token}.ToPort(ctx, "left", 1)
		see(t, err, ErrToken)
		see(t, err, ErrNotRecorded)
	}
	for _, options := range []Options{{Notes: true}, {Again: true}, {Long: true}} {
		_, err := options.ToPort(ctx, "left", 1)
		see(t, err, ErrNotRecorded)
	}
	listener, err := net.Listen("tcp4", "127.0.0.1:0")
	see(t, err, nil)
	defer listener.Close()
	t.Setenv("MONITOR_TOKEN", "a secret\rof two")
	t.Setenv("MONITOR_TO", ":"+strconv.Itoa(listener.Addr().(*net.TCPAddr).Port))
	_, err = FromEnvironment(ctx, "left")
	see(t, err, ErrToken)
	if strings.Contains(err.Error(), "secret") {
		t.Errorf("the error is %q", err)
	}
	r, err := Options{Token: "own \xff"}.FromEnvironment(ctx, "left")
	see(t, err, nil)
	connection, err := listener.Accept()
	see(t, err, nil)
	see(t, r.End(), nil)
	text, err := io.ReadAll(connection)
	see(t, err, nil)
	if string(text) != "own \xff\n{\"process\":\"left\"}\n{\"end\":true}\n" {
		t.Errorf("the connection has %q", text)
	}
}

func TestAPlaceThatTheEnvironmentNames(t *testing.T) {
	at := func(place, name string) (*Recorder, error) {
		t.Setenv("MONITOR_TO", place)
		return FromEnvironment(context.Background(), name)
	}
	folder := filepath.Join(t.TempDir(), "new", "folder")
	for _, name := range []string{"left", "right"} {
		r, err := at(folder, name)
		see(t, err, nil)
		see(t, r.End(), nil)
	}
	_, err := at(folder, "left")
	see(t, err, fs.ErrExist)
	listener, err := net.Listen("tcp4", "127.0.0.1:0")
	see(t, err, nil)
	defer listener.Close()
	port := strconv.Itoa(listener.Addr().(*net.TCPAddr).Port)
	for _, host := range []string{"", "localhost", "127.0.0.1"} {
		r, err := at(host+":"+port, "left")
		see(t, err, nil)
		connection, err := listener.Accept()
		see(t, err, nil)
		see(t, r.End(), nil)
		text, err := io.ReadAll(connection)
		see(t, err, nil)
		if string(text) != "{\"process\":\"left\"}\n{\"end\":true}\n" {
			t.Errorf("the connection has %q", text)
		}
		connection.Close()
	}
	for _, place := range []string{"", ":0", ":65535", "localhost:99999"} {
		_, err := at(place, "left")
		see(t, err, ErrPlace)
	}
	_, err = at(folder, "and")
	see(t, err, ErrProcessName)
}

// noteOf is a note, without its clock, and the line of this file that is its place.
type noteOf struct {
	process string
	event   int
	text    string
	line    string
}

// notes reads the notes of a process.
func (p process) notes(name string) (notes []noteOf) {
	p.t.Helper()
	text, err := os.ReadFile(filepath.Join(p.folder, name+".notes.jsonl"))
	see(p.t, err, nil)
	_, own, _, _ := runtime.Caller(0)
	source, err := os.ReadFile(own)
	see(p.t, err, nil)
	for _, line := range strings.SplitAfter(string(text), "\n") {
		if line == "" {
			break
		}
		note := struct {
			Process string
			Event   int
			Text    string
			Place   string
			Clock   float64
		}{}
		see(p.t, json.Unmarshal([]byte(line), &note), nil)
		number, err := strconv.Atoi(strings.TrimPrefix(note.Place, own+":"))
		see(p.t, err, nil)
		there := strings.TrimSpace(strings.Split(string(source), "\n")[number-1])
		notes = append(notes, noteOf{note.Process, note.Event, note.Text, there})
	}
	return notes
}

func (p process) seeNotes(name string, wanted ...noteOf) {
	p.t.Helper()
	if found := p.notes(name); !reflect.DeepEqual(found, wanted) {
		p.t.Errorf("the notes of %s are\n%v\nand not\n%v", name, found, wanted)
	}
}

func openedWithNotes(t *testing.T) process {
	t.Helper()
	folder := t.TempDir()
	r, err := Options{Notes: true}.ToFile("left", filepath.Join(folder, "left.stream"))
	see(t, err, nil)
	return process{r, t, folder}
}

func TestNotes(t *testing.T) {
	p := openedWithNotes(t)
	see(t, p.Event(Note("first"), Set("x", 1), Note("said"), Set("y", 2)), nil)
	worker, err := p.Strand("worker")
	see(t, err, nil)
	func() {
		defer func() { see(t, fmt.Errorf("%w", recover().(error)), io.EOF) }()
		defer worker.Close()
		panic(io.EOF) // it is left here
	}()
	see(t, p.Join(worker, Note("a\xffb\xc3")), nil)
	see(t, p.End(), nil)
	p.seeStream("left", `{"set":{"x":1,"y":2}}`, `{"send":"left-1"}`, `{"recv":"worker-1"}`, `{"end":true}`)
	p.seeNotes("left", noteOf{"left", 1, "said", `see(t, p.Event(Note("first"), Set("x", 1), Note("said"), Set("y", 2)), nil)`},
		noteOf{"left", 2, "", `worker, err := p.Strand("worker")`},
		noteOf{"left", 3, "a\uFFFDb\uFFFD", `see(t, p.Join(worker, Note("a\xffb\xc3")), nil)`})
	p.seeNotes("worker", noteOf{"worker", 1, "", `worker, err := p.Strand("worker")`},
		noteOf{"worker", 2, "", `panic(io.EOF) // it is left here`})
}

func TestNotesOfWhatGoroutinesShare(t *testing.T) {
	p := openedWithNotes(t)
	a, b := p.strand("a"), p.strand("b")
	var mutex Mutex
	see(t, mutex.Lock(a), nil)
	see(t, mutex.Unlock(a), nil)
	see(t, mutex.Lock(b), nil)
	carried, err := Carry(b, 7, Note("on its way"))
	see(t, err, nil)
	_, err = carried.Take(a, Note("there"))
	see(t, err, nil)
	see(t, p.End(), nil)
	if found := p.notes("a"); len(found) != 3 || found[1].line != "see(t, mutex.Unlock(a), nil)" ||
		found[2] != (noteOf{"a", 3, "there", `_, err = carried.Take(a, Note("there"))`}) {
		t.Errorf("the notes are %v", found)
	}
	if found := p.notes("b"); len(found) != 3 || found[1].line != "see(t, mutex.Lock(b), nil)" ||
		found[2] != (noteOf{"b", 3, "on its way", `carried, err := Carry(b, 7, Note("on its way"))`}) {
		t.Errorf("the notes are %v", found)
	}
}

func TestWhereThereIsNoPlaceForNotes(t *testing.T) {
	folder := t.TempDir()
	for _, name := range []string{"left", "left.stream.txt", "left.notes.jsonl"} {
		_, err := Options{Notes: true}.ToFile("left", filepath.Join(folder, name))
		see(t, err, ErrNotes)
	}
	t.Setenv("MONITOR_NOTES", "1")
	t.Setenv("MONITOR_TO", ":7411")
	_, err := FromEnvironment(context.Background(), "left")
	see(t, err, ErrNotes)
	t.Setenv("MONITOR_TO", folder)
	r, err := FromEnvironment(context.Background(), "left")
	see(t, err, nil)
	see(t, r.End(), nil)
	for _, wanted := range []string{"0", ""} {
		t.Setenv("MONITOR_NOTES", wanted)
		r, err := FromEnvironment(context.Background(), "without"+wanted)
		see(t, err, nil)
		see(t, r.End(), nil)
	}
	for _, place := range []string{folder, ":7411"} {
		t.Setenv("MONITOR_NOTES", "yes")
		t.Setenv("MONITOR_TO", place)
		_, err = FromEnvironment(context.Background(), "other")
		see(t, err, ErrNotes)
	}
	seeNames(t, folder, "left.notes.jsonl", "left.stream", "without.stream", "without0.stream")
}

func seeNames(t *testing.T, folder string, wanted ...string) {
	t.Helper()
	entries, err := os.ReadDir(folder)
	see(t, err, nil)
	var names []string
	for _, entry := range entries {
		names = append(names, entry.Name())
	}
	if !reflect.DeepEqual(names, wanted) {
		t.Errorf("there are %v, and not %v", names, wanted)
	}
}

func TestFilesThatAreReplaced(t *testing.T) {
	folder := t.TempDir()
	path, notes := filepath.Join(folder, "left.stream"), filepath.Join(folder, "left.notes.jsonl")
	see(t, os.WriteFile(notes, []byte("mine"), 0o666), nil)
	_, err := Options{Notes: true}.ToFile("left", path)
	see(t, err, fs.ErrExist)
	seeNames(t, folder, "left.notes.jsonl")
	for turn := 0; turn < 2; turn++ {
		r, err := Options{Notes: true, Replace: true}.ToFile("left", path)
		see(t, err, nil)
		strand, err := r.Strand("worker")
		see(t, err, nil)
		see(t, strand.End(), nil)
		_, err = r.Strand("left")
		see(t, err, ErrNameTwice)
		see(t, r.End(), nil)
		seeNames(t, folder, "left.notes.jsonl", "left.stream", "worker.notes.jsonl", "worker.stream")
	}
	t.Setenv("MONITOR_TO", folder)
	r, err := Options{Replace: true}.FromEnvironment(context.Background(), "left")
	see(t, err, nil)
	see(t, r.End(), nil)
	seeNames(t, folder, "left.stream", "worker.notes.jsonl", "worker.stream")
	// A strand doesn't replace the file of its process, by whatever name.
	other, err := Options{Replace: true}.ToFile("other", path)
	see(t, err, nil)
	_, err = other.Strand("left")
	see(t, err, fs.ErrExist)
	see(t, other.End(), nil)
}

func TestAfterANoteThatCouldNotBeWrittenNothingIs(t *testing.T) {
	folder := t.TempDir()
	see(t, os.Symlink("/dev/full", filepath.Join(folder, "left.notes.jsonl")), nil)
	r, err := Options{Notes: true, Replace: true}.ToFile("left", filepath.Join(folder, "left.stream"))
	see(t, err, nil)
	see(t, r.Event(), syscall.ENOSPC)
	see(t, r.Event(), ErrBroken)
	see(t, r.Close(), nil)
	process{r, t, folder}.seeStream("left")
}

func TestAContextCarriesARecorder(t *testing.T) {
	r, _ := opened(t)
	found, ok := FromContext(NewContext(context.Background(), r))
	if found != r || !ok {
		t.Error("the context has lost it")
	}
	if _, ok := FromContext(context.Background()); ok {
		t.Error("a context without a recorder has one")
	}
}

// process is a recorder in a new folder, and reads the streams there.
type process struct {
	*Recorder
	t      *testing.T
	folder string
}

func openedWithStrands(t *testing.T) process {
	t.Helper()
	folder := t.TempDir()
	r, err := ToFile("left", filepath.Join(folder, "left.stream"))
	see(t, err, nil)
	return process{r, t, folder}
}

func (p process) strand(name string) *Recorder {
	p.t.Helper()
	strand, err := p.Strand(name)
	see(p.t, err, nil)
	return strand
}

// seeStream sees that the stream of this process has these lines.
func (p process) seeStream(name string, lines ...string) {
	p.t.Helper()
	text, err := os.ReadFile(filepath.Join(p.folder, name+".stream"))
	see(p.t, err, nil)
	wanted := strings.Join(append([]string{`{"process":"` + name + `"}`}, lines...), "\n") + "\n"
	if string(text) != wanted {
		p.t.Errorf("the stream of %s is\n%sand not\n%s", name, text, wanted)
	}
}

const endLine = `{"end":true}`

func TestGoroutinesWithAStrandEach(t *testing.T) {
	p := openedWithStrands(t)
	work := func(ctx context.Context) error {
		strand, _ := FromContext(ctx)
		defer strand.Close()
		for turn := 0; turn < 100; turn++ {
			if err := strand.Event(Set("x", turn)); err != nil {
				return err
			}
		}
		return nil
	}
	var strands []*Recorder
	errs := make(chan error, 8)
	for number := 0; number < 8; number++ {
		strand := p.strand(fmt.Sprint("s", number))
		strands = append(strands, strand)
		go func() { errs <- work(NewContext(context.Background(), strand)) }()
	}
	var left []string
	for number := range strands {
		left = append(left, fmt.Sprintf(`{"send":"left-%d"}`, number+1))
		see(t, <-errs, nil)
	}
	for number, strand := range strands {
		see(t, p.Join(strand), nil)
		left = append(left, fmt.Sprintf(`{"recv":"s%d-1"}`, number))
	}
	see(t, p.End(), nil)
	p.seeStream("left", append(left, endLine)...)
	for number := range strands {
		lines := []string{fmt.Sprintf(`{"recv":"left-%d"}`, number+1)}
		for turn := 0; turn < 100; turn++ {
			lines = append(lines, fmt.Sprintf(`{"set":{"x":%d}}`, turn))
		}
		p.seeStream(fmt.Sprint("s", number), append(lines, fmt.Sprintf(`{"send":"s%d-1"}`, number), endLine)...)
	}
}

func TestAProcessThatEndsWhileItsStrandsRecord(t *testing.T) {
	p := openedWithStrands(t)
	errs := make(chan error, 4)
	for number := 0; number < 4; number++ {
		strand := p.strand(fmt.Sprint("s", number))
		go func() {
			var err error
			for err == nil {
				if err = strand.Event(); err == nil {
					err = p.Event()
				}
				time.Sleep(time.Millisecond) // or there are no more events before the end
			}
			errs <- err
		}()
	}
	time.Sleep(5 * time.Millisecond)
	see(t, p.End(), nil)
	for number := 0; number < 4; number++ {
		see(t, <-errs, ErrEnded)
		text, err := os.ReadFile(filepath.Join(p.folder, fmt.Sprintf("s%d.stream", number)))
		see(t, err, nil)
		if strings.Count(string(text), endLine) != 1 || !strings.HasSuffix(string(text), endLine+"\n") {
			t.Errorf("the end line of s%d isn't its last line", number)
		}
	}
	_, err := p.Strand("late")
	see(t, err, ErrEnded)
}

func TestAPanicOfAStrandEndsIt(t *testing.T) {
	p := openedWithStrands(t)
	strand := p.strand("worker")
	func() {
		defer func() { _ = recover() }()
		defer strand.Close()
		panic("something went wrong")
	}()
	see(t, p.Join(strand, Set("failed", true)), nil)
	see(t, p.End(), nil)
	p.seeStream("worker", `{"recv":"left-1"}`, `{"send":"worker-1"}`, endLine)
	p.seeStream("left", `{"send":"left-1"}`, `{"recv":"worker-1","set":{"failed":1}}`, endLine)
}

func TestTheWorkingDirectoryMayChange(t *testing.T) {
	before, err := os.Getwd()
	see(t, err, nil)
	folder := t.TempDir()
	see(t, os.Chdir(folder), nil)
	r, err := ToFile("left", "left.stream")
	see(t, os.Chdir(before), nil)
	see(t, err, nil)
	p := process{r, t, folder}
	see(t, p.strand("worker").End(), nil)
	see(t, p.End(), nil)
	p.seeStream("worker", `{"recv":"left-1"}`, `{"send":"worker-1"}`, endLine)
}

func TestStrandsAreClosedWithTheirProcess(t *testing.T) {
	p := openedWithStrands(t)
	strand := p.strand("worker")
	see(t, p.Close(), nil)
	see(t, strand.Close(), nil)
	see(t, strand.End(), nil)
	see(t, strand.Event(), ErrEnded)
	p.seeStream("worker", `{"recv":"left-1"}`)
	p.seeStream("left", `{"send":"left-1"}`)
}

func TestAStrandThatIsBrokenIsNotEndedAndTheOthersAre(t *testing.T) {
	p := openedWithStrands(t)
	broken := p.strand("broken")
	p.strand("whole")
	see(t, broken.out.Close(), nil)
	broken.out = &memory{}
	see(t, broken.Event(), syscall.ENOSPC)
	see(t, p.Join(broken), ErrNotEnded)
	see(t, p.End(), nil)
	see(t, broken.Event(), ErrEnded)
	p.seeStream("broken", `{"recv":"left-1"}`)
	p.seeStream("whole", `{"recv":"left-2"}`, endLine)
	p.seeStream("left", `{"send":"left-1"}`, `{"send":"left-2"}`, endLine)
}

func TestStrandsThatAreRefused(t *testing.T) {
	r, _ := opened(t)
	_, err := r.Strand("worker")
	see(t, err, ErrNoPlace)
	see(t, r.Join(nil), ErrNotEnded)
	see(t, r.Join(r), ErrNotEnded)
	_, err = r.Strand("left")
	see(t, err, ErrNameTwice)
}

func TestAMutexKeepsApart(t *testing.T) {
	p := openedWithStrands(t)
	var mutex Mutex
	inside, most := 0, 0
	work := func(strand *Recorder) error {
		defer strand.Close()
		for turn := 0; turn < 50; turn++ {
			if err := mutex.Lock(strand); err != nil {
				return err
			}
			inside++
			if inside > most {
				most = inside
			}
			err := strand.Event(Set("inside", inside))
			inside--
			if unlocked := mutex.Unlock(strand); err == nil {
				err = unlocked
			}
			if err != nil {
				return err
			}
		}
		return nil
	}
	errs := make(chan error, 2)
	for _, strand := range []*Recorder{p.strand("a"), p.strand("b")} {
		strand := strand
		go func() { errs <- work(strand) }()
	}
	see(t, <-errs, nil)
	see(t, <-errs, nil)
	see(t, p.End(), nil)
	if most != 1 {
		t.Errorf("there were %d inside", most)
	}
}

func TestUnlockingIsAMessageToWhoeverLocksNext(t *testing.T) {
	p := openedWithStrands(t)
	a, b := p.strand("a"), p.strand("b")
	var mutex Mutex
	for _, r := range []*Recorder{a, a, b, nil, b, a} {
		see(t, mutex.Lock(r), nil)
		see(t, mutex.Unlock(r), nil)
	}
	see(t, mutex.Lock(b), nil)
	see(t, mutex.Unlock(nil), nil)
	see(t, mutex.Lock(b), nil)
	see(t, p.End(), nil)
	p.seeStream("a", `{"recv":"left-1"}`, `{"send":"a-1"}`, `{"send":"a-2"}`, `{"recv":"b-2"}`, `{"send":"a-3"}`, endLine)
	p.seeStream("b", `{"recv":"left-2"}`, `{"recv":"a-2"}`, `{"send":"b-1"}`, `{"send":"b-2"}`,
		`{"recv":"a-3"}`, endLine)
}

func TestAMutexThatIsRefusedIsNotLocked(t *testing.T) {
	p := openedWithStrands(t)
	a, b := p.strand("a"), p.strand("b")
	var mutex Mutex
	see(t, mutex.Lock(a), nil)
	see(t, mutex.Unlock(a), nil)
	see(t, b.End(), nil)
	see(t, mutex.Lock(b), ErrEnded)
	see(t, mutex.Lock(p.Recorder), nil)
	see(t, p.End(), nil)
	see(t, mutex.Unlock(p.Recorder), ErrEnded)
	see(t, mutex.Lock(nil), nil)
	p.seeStream("left", `{"send":"left-1"}`, `{"send":"left-2"}`, `{"recv":"a-1"}`, endLine)
}

func TestValuesThroughAChannel(t *testing.T) {
	p := openedWithStrands(t)
	values := make(chan Carried[string])
	a, b := p.strand("a"), p.strand("b")
	errs := make(chan error, 1)
	go func() {
		defer close(values)
		for number, value := range []string{"first", "second"} {
			carried, err := Carry(a, value, Set("x", number))
			if err != nil {
				errs <- err
				return
			}
			values <- carried
		}
		errs <- a.End()
	}()
	var taken []string
	for carried := range values {
		value, err := carried.Take(b, Set("y", len(taken)))
		see(t, err, nil)
		taken = append(taken, value)
	}
	see(t, <-errs, nil)
	see(t, p.End(), nil)
	if strings.Join(taken, " ") != "first second" {
		t.Errorf("there came %q", taken)
	}
	p.seeStream("a", `{"recv":"left-1"}`, `{"send":"a-1","set":{"x":0}}`, `{"send":"a-2","set":{"x":1}}`, `{"send":"a-3"}`,
		endLine)
	p.seeStream("b", `{"recv":"left-2"}`, `{"recv":"a-1","set":{"y":0}}`, `{"recv":"a-2","set":{"y":1}}`, endLine)
}

func TestValuesWithoutRecordersOrWithOne(t *testing.T) {
	r, out := opened(t)
	carried, err := Carry(nil, 7, Set("x", 1))
	see(t, err, nil)
	_, err = carried.Take(r)
	see(t, err, nil)
	_, err = Carried[int]{}.Take(r) // as a closed channel gives
	see(t, err, nil)
	own, err := Carry(r, 8)
	see(t, err, nil)
	_, err = own.Take(r)
	see(t, err, nil)
	value, err := own.Take(r, Set("x", 2))
	see(t, err, nil)
	if value != 8 {
		t.Errorf("there came %d", value)
	}
	_, err = own.Take(nil, Set("x", 3))
	see(t, err, nil)
	other, err := New("right", &memory{room: 1000})
	see(t, err, nil)
	_, err = own.Take(other)
	see(t, err, nil)
	_, err = own.Take(other)
	see(t, err, ErrIDTwice)
	_, err = Carry(r, 9, Set("1", 1))
	see(t, err, ErrVariableName)
	seeText(t, out, `{"process":"left"}
{"send":"left-1"}
{"set":{"x":2}}
`)
}

func TestAStrandOverAConnection(t *testing.T) {
	listener, err := net.Listen("tcp4", "127.0.0.1:0")
	see(t, err, nil)
	r, err := ToPort(context.Background(), "left", listener.Addr().(*net.TCPAddr).Port)
	see(t, err, nil)
	strand, err := r.Strand("worker")
	see(t, err, nil)
	see(t, strand.End(), nil)
	see(t, r.Join(strand), nil)
	see(t, r.End(), nil)
	for _, wanted := range []string{`{"process":"left"}`, `{"process":"worker"}`} {
		connection, err := listener.Accept()
		see(t, err, nil)
		text, err := io.ReadAll(connection)
		see(t, err, nil)
		if !strings.HasPrefix(string(text), wanted) || !strings.HasSuffix(string(text), endLine+"\n") {
			t.Errorf("over the connection came\n%s", text)
		}
	}
	see(t, listener.Close(), nil)
}

func ExampleRecorder() {
	run := func(folder string) error {
		left, err := ToFile("left", filepath.Join(folder, "left.stream"))
		if err != nil {
			return err
		}
		defer left.Close()
		if err := left.Event(Set("inside", 1)); err != nil {
			return err
		}
		message, err := left.Send(Set("inside", 0)) // before the message leaves, with this id in it
		if err != nil {
			return err
		}
		fmt.Println(message)
		return left.End()
	}
	folder, _ := os.MkdirTemp("", "record")
	defer os.RemoveAll(folder)
	fmt.Println(run(folder))
	text, _ := os.ReadFile(filepath.Join(folder, "left.stream"))
	fmt.Print(strings.TrimSpace(string(text)))
	// Output:
	// left-1
	// <nil>
	// {"process":"left"}
	// {"set":{"inside":1}}
	// {"send":"left-1","set":{"inside":0}}
	// {"end":true}
}

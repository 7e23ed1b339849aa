// Package record records one process of a distributed program for monitor: its events in their order, one line each.
//
//	left, err := record.ToFile("left", "left.stream")
//	if err != nil {
//		return err
//	}
//	defer left.Close()
//	err = left.Event(record.Set("inside", 1), record.Set("waiting", 0)) // these are their values from now on
//	message, err := left.Send(record.Set("money", 70))                  // BEFORE the message leaves, with this id in it
//	err = left.Receive("right-1", record.Set("money", 80))              // AFTER a message has come, with the id in it
//	return left.End()
//
// Each line is handed to the operating system before the call returns, so that nothing that was recorded is lost if the
// process crashes. Several goroutines may use one recorder: record while you hold the lock of the data, if a change of
// shared data and its line must stay together. What monitor would refuse is refused at once, by an error that is
// [ErrNotRecorded], and the recorder goes on as if the call hadn't been made. The formats and limits are those of
// docs/SPECIFICATION.md.
//
// A recorder that is closed before [Recorder.End], as by a return with an error or a panic, leaves no end line, since
// nobody knows what the process would have done: monitor refuses the stream as unended.
//
// One recorder is one order of events. A goroutine that waits by itself gets a strand, or the order in which it came is
// taken for a cause:
//
//	worker, err := left.Strand("worker") // where the goroutine is started; it records to worker.stream
//	..
//	go func() {
//		defer close(done)
//		defer worker.Close() // in the goroutine, when it has done its work
//		work(record.NewContext(ctx, worker))
//	}()
//	<-done
//	err = left.Join(worker) // AFTER the goroutine has been waited for
//
// A session has limits, and a recording that is over them is refused at the call. With [Options] that are Long, or
// MONITOR_LONG=1 in the environment, it is a long recording, of any length, which monitor_reduce.py reduces before it
// is judged.
//
// Events have no names. With [Options] each has a note in left.notes.jsonl, of the line of the program that recorded it,
// and of a text if one is given, as by left.Event(record.Set("inside", 1), record.Note("the lock is ours")).
package record

import (
	"context"
	"errors"
	"fmt"
	"io"
	"io/fs"
	"math"
	"net"
	"os"
	"path/filepath"
	"reflect"
	"regexp"
	"runtime"
	"strconv"
	"strings"
	"sync"
	"syscall"
	"time"
	"unicode/utf8"
)

// The limits of a recording.
const (
	EventLimit    = 10_000 // at most so many events has a process
	VariableLimit = 16     // at most so many variables has a process
	ProcessLimit  = 16     // at most so many processes has a session: a process and its strands are as many at most
	NameByteLimit = 32     // at most so many bytes has the name of a process or of a variable
	IDByteLimit   = 64     // at most so many bytes has the id of a message, and at least one
	NoteByteLimit = 1_024  // at most so many bytes has a note of its text, and of its place's file: the rest is cut

	TokenByteLimit = 1_024 // at most so many bytes has a token
)

// The limits of a long recording: see [Options].
const (
	LongEventLimit   = 2_147_483_647 // at most so many events has a process
	LongProcessLimit = 4_096         // at most so many processes are a process and its strands
	LongIDByteLimit  = 1_024         // at most so many bytes has the id of a message
)

// Limits are how many events, processes and bytes of an id a recording may have.
type limits struct{ events, processes, idBytes int }

var (
	session = limits{EventLimit, ProcessLimit, IDByteLimit}
	long    = limits{LongEventLimit, LongProcessLimit, LongIDByteLimit}
)

const (
	patience  = 10 * time.Second
	pause     = 50 * time.Millisecond
	portLimit = 65534
	here      = "127.0.0.1"

	socketPrefix, socketByteLimit = "unix:", 107

	ending, notesEnding = ".stream", ".notes.jsonl"
)

// Options say how a file is recorded to, as in record.Options{Notes: true}.ToFile("left", "left.stream").
type Options struct {
	// Replace records also to a file that is there already, which is lost then, with its notes.
	Replace bool
	// Notes gives each event a note, in a file beside: that of left.stream is left.notes.jsonl. The path has to end with
	// .stream then. docs/RECORDING.md has the format.
	Notes bool
	// Again takes a file that is there for what the process recorded before it was killed and started again, and records
	// a further incarnation, as a process of its own and to a file beside: of left and left.stream the second one is
	// left_2 in left_2.stream. Its first event receives the message left-ended, by which it comes after all that the one
	// before did; monitor_mend adds the send. It is ErrRunning while the one before still runs. It needs POSIX's locks,
	// by which that is seen: they are in lock_unix.go.
	Again bool
	// Long makes it a long recording: it may have 2,147,483,647 events, 4,096 processes with its strands, and ids of
	// 1,024 bytes, and has to be reduced by monitor_reduce.py before it is judged. MONITOR_LONG=1 in the environment says
	// the same, of each recorder that is made.
	Long bool
	// Token is the line with which each connection begins, as monitor serve asks for after --token. If it is empty, that
	// is MONITOR_TOKEN in the environment, if there is one. It says nothing of a file.
	Token string
}

// limits are those of what is recorded, as the options or the environment say.
func (o Options) limits() (limits, error) {
	switch text := os.Getenv("MONITOR_LONG"); {
	case text != "" && text != "0" && text != "1":
		return limits{}, refused("MONITOR_LONG="+text, ErrLong)
	case o.Long || text == "1":
		return long, nil
	}
	return session, nil
}

// withinSession is an error if it is a long recording, which no connection to this place takes.
func (o Options) withinSession(place string) error {
	wanted, err := o.limits()
	if err == nil && wanted == long {
		err = refused(place, ErrLong)
	}
	return err
}

// ErrNotRecorded is what each error of a call is, by errors.Is, that was refused and wrote nothing.
var ErrNotRecorded = errors.New("not recorded")

// The reasons for which a call is refused. Each of them is ErrNotRecorded too. Other errors are the system's: a part of
// the line may have been written then.
var (
	// ErrProcessName: a name has letters, digits and _, at most 32, no digit first, and is no word of predicates.
	ErrProcessName error = refusal("no name of a process")
	// ErrVariableName: the name is none of a variable, or stands twice in one call.
	ErrVariableName error = refusal("no name of a variable, or one that stands twice")
	// ErrValue: the value is over the greatest one of 64 bits with a sign.
	ErrValue error = refusal("no whole number of 64 bits with a sign")
	// ErrVariables: a process has at most 16 variables.
	ErrVariables error = refusal("a process has at most 16 variables")
	// ErrEvents: a process has at most 10,000 events, or 2,147,483,647 in a long recording. The last one of a strand is
	// kept for its end.
	ErrEvents error = refusal("a process has at most 10,000 events, of which a strand's last one is its end; record " +
		"fewer, " + asALongRun)
	// ErrID: the id of a message has 1 to 64 bytes, or 1,024 in a long recording, which are UTF-8.
	ErrID error = refusal("the id of a message has 1 to 64 bytes of UTF-8, or 1,024 in a long run")
	// ErrIDTwice: the process has sent or received a message with this id before: a receipt is that of a second copy.
	ErrIDTwice error = refusal("a message with this id was sent or received before")
	// ErrEnded: the recording has ended, or was closed.
	ErrEnded error = refusal("the recording has ended")
	// ErrBroken: an earlier line could not be written, so none is any more.
	ErrBroken error = refusal("an earlier line could not be written")
	// ErrNameTwice: the name is that of the process or of another strand of it.
	ErrNameTwice error = refusal("another process of this recording has this name: give each strand one of its own")
	// ErrProcesses: a process and its strands are at most 16, or 4,096 in a long recording.
	ErrProcesses error = refusal("a session has at most 16 processes, and a process and its strands are as many; begin " +
		"fewer strands, " + asALongRun)
	// ErrNoPlace: the recorder was made by New, so there is no place for the stream of a strand.
	ErrNoPlace error = refusal("no place for the stream of a strand: make the recorder by ToFile or ToPort")
	// ErrNotEnded: what is to be joined is no strand that has ended.
	ErrNotEnded error = refusal("no strand that has ended: wait for it, and then join it")
	// ErrPlace says that MONITOR_TO isn't set, or names no folder, port or socket that there can be.
	ErrPlace error = refusal("MONITOR_TO names no place: it names a folder, which has a slash if it has a colon, a port " +
		"as :7411, host:7411 or [::1]:7411, from 1 to 65534, or a socket as unix:/run/a.sock, of at most 107 bytes")
	// ErrRunning: an earlier incarnation of the process still runs.
	ErrRunning error = refusal("an earlier incarnation still runs: what is started beside it is no later one, but a " +
		"process of its own")
	// ErrAgain says that no earlier incarnation can be told, as of a connection, of a file that is replaced, or on a
	// system without POSIX's locks.
	ErrAgain error = refusal("no earlier incarnation is there to be told: it has a file in a folder, which isn't " +
		"replaced, and this system has to have locks, which are in lock_unix.go")
	// ErrLong says that a long recording goes to no connection, or that MONITOR_LONG is neither 1 nor 0.
	ErrLong error = refusal("no long recording is made: MONITOR_LONG is 1 for one, and else 0 or not set; and none goes " +
		"to a connection, of MONITOR_TO or not, since monitor serve judges within the limits of a session: record to a " +
		"folder, and reduce it by monitor_reduce.py")
	// ErrToken says that the token of the options, or MONITOR_TOKEN, is over 1,024 bytes, or has a LF, CR or NUL.
	ErrToken error = refusal("no token: it is one line of at most 1,024 bytes, without LF, CR and NUL")
	// ErrNotes says that there is no place for notes, as at a port, or that MONITOR_NOTES is neither 1 nor 0.
	ErrNotes error = refusal("no place for notes, which go beside a file whose name ends with .stream and to no port; " +
		"MONITOR_NOTES is 1 for notes, and else 0 or not set")
)

const asALongRun = "or record it as a long run: record.Options{Long: true} or MONITOR_LONG=1, and reduce it by " +
	"monitor_reduce.py"

type refusal string

func (r refusal) Error() string { return string(r) }

func (r refusal) Is(target error) bool { return target == ErrNotRecorded }

// A Value is what a variable can be set to: a whole number of 64 bits with a sign, or true for 1 and false for 0.
type Value interface {
	~bool | ~int | ~int8 | ~int16 | ~int32 | ~int64 | ~uint | ~uint8 | ~uint16 | ~uint32 | ~uint64 | ~uintptr
}

// A Setting is a variable and the value that it has from now on, or the text of the event's note.
type Setting struct {
	name   string
	value  int64
	fault  error
	isNote bool // the name is the text then
}

// Note stands among the settings of an event, and is the text of its note, if the events have notes.
func Note(text string) Setting { return Setting{name: text, isNote: true} }

// Set is a variable and the value that it has from now on. One over the greatest number of 64 bits with a sign is
// refused when it is recorded.
func Set[V Value](name string, value V) Setting {
	number := reflect.ValueOf(value)
	switch {
	case number.Kind() == reflect.Bool && number.Bool():
		return Setting{name: name, value: 1}
	case number.Kind() == reflect.Bool:
		return Setting{name: name}
	case number.CanInt():
		return Setting{name: name, value: number.Int()}
	case number.Uint() > math.MaxInt64:
		return Setting{name: name, fault: ErrValue}
	}
	return Setting{name: name, value: int64(number.Uint())}
}

// A Recorder is the recording of one process, or of a strand of one. The errors of its calls are the reasons above, or
// the system's; after one of the system's each later call is ErrBroken.
type Recorder struct {
	process  string
	family   *family
	limits   limits
	isStrand bool

	mutex  sync.Mutex
	out    io.WriteCloser
	notes  io.WriteCloser // nil if the events have none
	ended  bool
	broken bool
	events int
	made   int    // the number of the last id that was made
	last   string // the id of the message by which a strand has ended
	ids    map[string]bool
	names  map[string]bool
}

// ToFile records to a new file. One that is there already is fs.ErrExist.
func ToFile(process, path string) (*Recorder, error) { return Options{}.ToFile(process, path) }

// ToFile records to a new file, with these options.
func (o Options) ToFile(process, path string) (*Recorder, error) {
	if !isName(process) {
		return nil, refused(process, ErrProcessName)
	}
	first, err := filepath.Abs(path) // the working directory may change
	if err != nil {
		return nil, err
	}
	if o.Notes && !strings.HasSuffix(first, ending) {
		return nil, refused(path, ErrNotes)
	}
	open := func(name string) (files, error) {
		beside := filepath.Join(filepath.Dir(first), name+ending)
		if o.Replace && isSameFile(beside, first) {
			return files{}, already(fs.ErrExist)
		}
		return newFiles(beside, o)
	}
	wanted, err := o.limits()
	if err != nil {
		return nil, err
	}
	if o.Again {
		return o.incarnation(process, first, wanted, open)
	}
	out, err := newFiles(path, o)
	if err != nil {
		return nil, err
	}
	return over(process, out, wanted, open)
}

// Locks of POSIX: that of a file which this process writes, and whether another process has one. They are nil where
// there are none.
var (
	lock     func(file *os.File)
	isLocked func(file *os.File) bool
)

// incarnation records to the first file of the process that isn't there yet.
func (o Options) incarnation(
	process, first string, wanted limits, open func(string) (files, error),
) (*Recorder, error) {
	if o.Replace || lock == nil {
		return nil, refused(process, ErrAgain)
	}
	number := 1
	for isThere(pathOf(first, number)) {
		number++
	}
	name, path := incarnationOf(process, number), pathOf(first, number)
	if number > 1 {
		if err := runs(incarnationOf(process, number-1), pathOf(first, number-1)); err != nil {
			return nil, err
		}
	}
	if !isName(name) {
		return nil, refused(name, ErrProcessName)
	}
	// It gets its name once the receipt stands in it, so that it has that whenever the process is killed.
	part := newPart(path)
	made, err := o.inPart(path, part)
	if err != nil {
		os.Remove(part)
		return nil, err
	}
	r, err := over(name, made, wanted, open)
	if err == nil && number > 1 {
		err = r.Receive(incarnationOf(process, number-1) + "-ended")
	}
	if err == nil {
		err = os.Rename(part, path)
	}
	if err != nil {
		if r != nil {
			r.closeOut()
		}
		os.Remove(part)
		return nil, err
	}
	return r, nil
}

// inPart opens a new file with a lock. Notes that are there are of an incarnation that was killed before its stream had
// its name.
func (o Options) inPart(path, part string) (files, error) {
	out, err := os.OpenFile(part, os.O_WRONLY|os.O_CREATE|os.O_EXCL, 0o666)
	if err != nil {
		return files{}, err
	}
	lock(out)
	made := files{out: out}
	if o.Notes {
		made.notes, err = newFile(strings.TrimSuffix(path, ending)+notesEnding, Options{Replace: true})
		if err != nil {
			out.Close()
			return files{}, err
		}
	}
	return made, nil
}

// runs is an error if the earlier incarnation with this file still runs.
func runs(process, path string) error {
	file, err := os.Open(path)
	if err != nil {
		return err
	}
	defer file.Close()
	if isLocked(file) {
		return refused(process, ErrRunning)
	}
	return nil
}

// incarnationOf is the name of this incarnation of a process.
func incarnationOf(process string, number int) string {
	if number == 1 {
		return process
	}
	return process + "_" + strconv.Itoa(number)
}

// pathOf is the file of this incarnation, if that of the first one is given.
func pathOf(first string, number int) string {
	ext := filepath.Ext(first)
	if ext == filepath.Base(first) {
		ext = "" // a name that begins with its only dot
	}
	return incarnationOf(strings.TrimSuffix(first, ext), number) + ext
}

// newPart is where a file stands until it gets its name. A process that was killed before may have had the number of
// this one.
func newPart(path string) string {
	part := fmt.Sprintf("%s.%d.part", path, os.Getpid())
	for number := 2; isThere(part); number++ {
		part = fmt.Sprintf("%s.%d-%d.part", path, os.Getpid(), number)
	}
	return part
}

func isThere(path string) bool {
	_, err := os.Lstat(path)
	return err == nil
}

// Files are that of a stream and that of its notes, which is nil if it has none.
type files struct{ out, notes io.WriteCloser }

func (f files) close() error {
	err := f.out.Close()
	if f.notes != nil {
		if closed := f.notes.Close(); err == nil {
			err = closed
		}
	}
	return err
}

// newFiles opens the files of a recording. What it replaces has no notes any more.
func newFiles(path string, o Options) (files, error) {
	out, err := newFile(path, o)
	if err != nil {
		return files{}, err
	}
	made := files{out: out}
	beside := strings.TrimSuffix(path, ending) + notesEnding
	switch {
	case o.Notes:
		made.notes, err = newFile(beside, o)
	case o.Replace && strings.HasSuffix(path, ending):
		if err = os.Remove(beside); errors.Is(err, fs.ErrNotExist) {
			err = nil
		}
	}
	if err != nil {
		out.Close()
		if !o.Replace {
			os.Remove(path)
		}
		return files{}, err
	}
	return made, nil
}

func newFile(path string, o Options) (io.WriteCloser, error) {
	flags := os.O_WRONLY | os.O_CREATE | os.O_EXCL
	if o.Replace {
		flags = os.O_WRONLY | os.O_CREATE | os.O_TRUNC
	}
	file, err := os.OpenFile(path, flags, 0o666)
	if errors.Is(err, fs.ErrExist) {
		return nil, already(err)
	}
	if err != nil {
		return nil, err // and not file, which is no nil interface
	}
	return file, nil
}

func already(err error) error {
	return fmt.Errorf("%w: a recording isn't written over: record to another file or folder, remove it, or say "+
		"record.Options{Replace: true}", err)
}

func isSameFile(one, other string) bool {
	first, err := os.Stat(one)
	if err != nil {
		return false
	}
	second, err := os.Stat(other)
	return err == nil && os.SameFile(first, second)
}

// ToPort records to monitor serve on a port of this machine, 1 to 65,534. If nobody listens there yet, it is tried
// again until the context is done; if it has no deadline, for ten seconds at most. Then the error is the context's, or
// syscall.ECONNREFUSED. A later call waits while the monitor doesn't read. With MONITOR_LONG=1 it is ErrLong, since a
// long recording is reduced before it is judged.
func ToPort(ctx context.Context, process string, port int) (*Recorder, error) {
	return Options{}.ToPort(ctx, process, port)
}

// ToPort records to monitor serve on a port of this machine, with the token of these options. Notes are ErrNotes there,
// Again is ErrAgain, and Long is ErrLong.
func (o Options) ToPort(ctx context.Context, process string, port int) (*Recorder, error) {
	if !isName(process) {
		return nil, refused(process, ErrProcessName)
	}
	digits := strconv.Itoa(port)
	return o.toAddress(ctx, process, address{"tcp4", net.JoinHostPort(here, digits)}, digits)
}

// toAddress records to an address, of which this is the place.
func (o Options) toAddress(ctx context.Context, process string, a address, place string) (*Recorder, error) {
	switch {
	case o.Notes:
		return nil, refused(place, ErrNotes)
	case o.Again:
		return nil, refused(place, ErrAgain)
	}
	if err := o.withinSession(place); err != nil {
		return nil, err
	}
	line, err := o.tokenLine()
	if err != nil {
		return nil, err
	}
	return a.record(ctx, process, line)
}

// tokenLine is what a connection begins with: the token and a LF, or nothing if there is none. No error shows it.
func (o Options) tokenLine() (string, error) {
	name, token := "Options.Token", o.Token
	if token == "" {
		name, token = "MONITOR_TOKEN", os.Getenv("MONITOR_TOKEN")
	}
	switch {
	case token == "":
		return "", nil
	case len(token) > TokenByteLimit || strings.ContainsAny(token, "\n\r\x00"):
		return "", refused(name, ErrToken)
	}
	return token + "\n", nil
}

// An address is where monitor serve listens, as the package net takes it.
type address struct{ network, text string }

// record records to the address, with this line before all others, if it is one.
func (a address) record(ctx context.Context, process, line string) (*Recorder, error) {
	connection, err := a.begun(ctx, line)
	if err != nil {
		return nil, err
	}
	return over(process, files{out: connection}, session, func(string) (files, error) {
		connection, err := a.begun(context.Background(), line)
		return files{out: connection}, err
	})
}

// begun is a connection to the address that has begun with this line.
func (a address) begun(ctx context.Context, line string) (net.Conn, error) {
	connection, err := a.connection(ctx)
	if err != nil || line == "" {
		return connection, err
	}
	if _, err := io.WriteString(connection, line); err != nil {
		connection.Close()
		return nil, err
	}
	return connection, nil
}

// addressOf is the port or the socket that MONITOR_TO names. A folder is no address.
func addressOf(place string) (a address, isFolder bool, err error) {
	switch path := strings.TrimPrefix(place, socketPrefix); {
	case place == "":
		return address{}, false, refused(place, ErrPlace)
	case path != place && (!strings.HasPrefix(path, "/") || len(path) > socketByteLimit):
		return address{}, false, refused(place, ErrPlace)
	case path != place:
		return address{"unix", path}, false, nil
	case !strings.Contains(place, ":") || strings.ContainsAny(place, `/\`):
		return address{}, true, nil
	}
	found := portPattern.FindStringSubmatch(place)
	if found == nil {
		return address{}, false, refused(place, ErrPlace)
	}
	port, err := strconv.ParseUint(found[3], 10, 16)
	if err != nil || port < 1 || port > portLimit {
		return address{}, false, refused(place, ErrPlace)
	}
	host := found[1] + found[2]
	if host == "" || host == "localhost" {
		host = here
	}
	return address{"tcp", net.JoinHostPort(host, found[3])}, false, nil
}

// A port of this machine, or of another one by its name or address. One of IPv6 stands in brackets.
var portPattern = regexp.MustCompile(
	`^(?:\[([0-9A-Fa-f:.]+(?:%[A-Za-z0-9._-]+)?)\]|([A-Za-z0-9._-]*)):([0-9]{1,5})$`)

// FromEnvironment records to where MONITOR_TO in the environment says, so that no code changes between a test and a
// live session: to a new file NAME.stream in a folder of this name, which is made if there is none; or to monitor
// serve, on a port of this machine, of :7411 or localhost:7411, on one of another machine, of host:7411 or
// [fe80::1]:7411, or by a Unix socket, of unix:/run/monitor.sock. With MONITOR_NOTES=1 each event gets a note beside
// the file. A connection has no place for notes, keeps no earlier incarnation, and is judged within the limits of a
// session, so with one notes are ErrNotes, and [Options] with Again are ErrAgain, and with Long ErrLong. It begins with
// MONITOR_TOKEN, if that is set, or the token of [Options]. What has a colon and no slash is no folder.
func FromEnvironment(ctx context.Context, process string) (*Recorder, error) {
	return Options{}.FromEnvironment(ctx, process)
}

// FromEnvironment records to where MONITOR_TO says, with these options, and with notes if MONITOR_NOTES says so.
func (o Options) FromEnvironment(ctx context.Context, process string) (*Recorder, error) {
	if !isName(process) {
		return nil, refused(process, ErrProcessName)
	}
	place := os.Getenv("MONITOR_TO")
	address, isFolder, err := addressOf(place)
	wanted := os.Getenv("MONITOR_NOTES")
	o.Notes = o.Notes || wanted == "1"
	switch {
	case err != nil:
		return nil, err
	case wanted != "" && wanted != "0" && wanted != "1":
		return nil, refused(wanted, ErrNotes)
	case !isFolder:
		return o.toAddress(ctx, process, address, place)
	}
	if _, err := o.limits(); err != nil {
		return nil, err
	}
	if err := os.MkdirAll(place, 0o777); err != nil {
		return nil, err
	}
	return o.ToFile(process, filepath.Join(place, process+ending))
}

// New records to a file, a connection or whatever else takes bytes, without a buffer of its own. It is closed with the
// recorder.
func New(process string, out io.WriteCloser) (*Recorder, error) { return Options{}.New(process, out) }

// New records to a file, a connection or whatever else takes bytes. Of these options only Long says anything of it.
func (o Options) New(process string, out io.WriteCloser) (*Recorder, error) {
	if !isName(process) {
		return nil, refused(process, ErrProcessName)
	}
	wanted, err := o.limits()
	if err != nil {
		return nil, err
	}
	return begun(process, out, wanted)
}

// begun is a recorder that has written its first line.
func begun(process string, out io.WriteCloser, wanted limits) (*Recorder, error) {
	r := &Recorder{process: process, limits: wanted, out: out, ids: map[string]bool{}, names: map[string]bool{}}
	r.family = &family{names: map[string]bool{process: true}}
	if err := r.write(`{"process":` + quoted(process) + "}\n"); err != nil {
		return nil, err
	}
	return r, nil
}

func over(process string, made files, wanted limits, open func(string) (files, error)) (*Recorder, error) {
	r, err := begun(process, made.out, wanted)
	if err != nil {
		made.close()
		return nil, err
	}
	r.notes = made.notes
	r.family.open = open
	return r, nil
}

// Event records that something happened in this process; these variables have these values from now on.
func (r *Recorder) Event(settings ...Setting) error {
	r.mutex.Lock()
	defer r.mutex.Unlock()
	return r.record("", "", settings)
}

// Send records that this process sends a message to one other or, if the document is of version 2, to several: call it
// once, BEFORE the message leaves. The id that it makes, the process's name and a counter as in left-1, has to travel
// with the message. With an error the id is empty.
func (r *Recorder) Send(settings ...Setting) (id string, err error) {
	r.mutex.Lock()
	defer r.mutex.Unlock()
	if err := r.room(); err != nil {
		return "", err
	}
	return r.sendAny(settings)
}

// SendAs does the same, with an id that no other send of the session has.
func (r *Recorder) SendAs(id string, settings ...Setting) error {
	r.mutex.Lock()
	defer r.mutex.Unlock()
	return r.record("send", id, settings)
}

// Receive records that a message has come, with this id: call it AFTER that. A second copy of a message is ErrIDTwice.
func (r *Recorder) Receive(id string, settings ...Setting) error {
	r.mutex.Lock()
	defer r.mutex.Unlock()
	return r.record("recv", id, settings)
}

// Strand begins a strand, for a goroutine that waits by itself: a recorder which is a process of the session, of this
// name. It is recorded to NAME.stream beside the file of this recorder, or to the same port. This process sends it a
// message, so call it where the goroutine is started. A strand ends by [Recorder.End] or [Recorder.Close]; then it
// sends a message to whoever joins it. It ends with its process at the latest.
func (r *Recorder) Strand(name string) (*Recorder, error) {
	if !isName(name) {
		return nil, refused(name, ErrProcessName)
	}
	r.mutex.Lock()
	defer r.mutex.Unlock()
	if err := r.room(); err != nil {
		return nil, err
	}
	strand, err := r.family.begun(name, r.limits)
	if err != nil {
		return nil, err
	}
	id, err := r.sendAny(nil)
	if err == nil {
		err = strand.Receive(id)
	}
	if err != nil {
		strand.closeOut()
		return nil, err
	}
	return strand, nil
}

// Join records that this process has waited for a strand, which has ended: call it AFTER that. The process receives the
// strand's last message; these variables have these values from now on.
func (r *Recorder) Join(strand *Recorder, settings ...Setting) error {
	name, last := strand.lastMessage()
	r.mutex.Lock()
	defer r.mutex.Unlock()
	if err := r.room(); err != nil {
		return err
	}
	if last == "" {
		return refused(name, ErrNotEnded)
	}
	return r.put("recv", last, settings)
}

// lastMessage is the name of a strand and the id by which it has ended, if it has.
func (r *Recorder) lastMessage() (name, last string) {
	if r == nil {
		return "", ""
	}
	r.mutex.Lock()
	defer r.mutex.Unlock()
	return r.process, r.last
}

// Process is the name of the process, or of the strand, that is recorded.
func (r *Recorder) Process() string { return r.process }

// Events says how many events are recorded.
func (r *Recorder) Events() int {
	r.mutex.Lock()
	defer r.mutex.Unlock()
	return r.events
}

// End records that nothing more happens in this process: it writes the end line, and closes the file or connection. Its
// strands that have not ended get their end lines. A strand sends its last message before. A second call does nothing.
func (r *Recorder) End() error {
	if r.isStrand {
		return r.end(r.sendLast)
	}
	err := r.family.endAll((*Recorder).cutOff)
	if ended := r.end(nil); ended != nil {
		return ended
	}
	return err
}

// Close closes the file or connection. Without End before, the stream has no end line, and neither have those of its
// strands that have not ended. A strand ends by it, as by End. A second call does nothing.
func (r *Recorder) Close() error {
	if r.isStrand {
		err := r.end(r.sendLast)
		if closed := r.closeOut(); err == nil {
			err = closed
		}
		return err
	}
	err := r.family.endAll((*Recorder).closeOut)
	if closed := r.closeOut(); closed != nil {
		return closed
	}
	return err
}

// end writes the end line after the last event, if there is one, and closes.
func (r *Recorder) end(last func() error) error {
	r.mutex.Lock()
	defer r.mutex.Unlock()
	if r.ended {
		return nil
	}
	if r.broken {
		return refused(r.process, ErrBroken)
	}
	if last != nil {
		if err := last(); err != nil {
			return err
		}
	}
	if err := r.write("{\"end\":true}\n"); err != nil {
		return err
	}
	r.ended = true
	return files{r.out, r.notes}.close()
}

// sendLast sends the message by which a strand has ended; the lock is held.
func (r *Recorder) sendLast() (err error) {
	r.last, err = r.sendAny(nil)
	return err
}

// cutOff ends a strand whose process ends before it: nobody joins it any more.
func (r *Recorder) cutOff() error {
	err := r.end(nil)
	if errors.Is(err, ErrBroken) { // the call that broke it has said so
		err = nil
	}
	if closed := r.closeOut(); err == nil {
		err = closed
	}
	return err
}

func (r *Recorder) closeOut() error {
	r.mutex.Lock()
	defer r.mutex.Unlock()
	if r.ended {
		return nil
	}
	r.ended = true
	return files{r.out, r.notes}.close()
}

// A family is a process that is recorded and its strands.
type family struct {
	mutex   sync.Mutex
	open    func(name string) (files, error) // opens the files of a strand, if there is a place for them
	names   map[string]bool
	strands []*Recorder
	ended   bool
}

// begun is a strand of this name, which has written its first line.
func (f *family) begun(name string, wanted limits) (*Recorder, error) {
	f.mutex.Lock()
	defer f.mutex.Unlock()
	switch {
	case f.ended:
		return nil, refused(name, ErrEnded)
	case f.names[name]:
		return nil, refused(name, ErrNameTwice)
	case len(f.names) == wanted.processes:
		return nil, refused(name, ErrProcesses)
	case f.open == nil:
		return nil, refused(name, ErrNoPlace)
	}
	out, err := f.open(name)
	if err != nil {
		return nil, err
	}
	strand, err := over(name, out, wanted, nil)
	if err != nil {
		return nil, err
	}
	strand.family, strand.isStrand = f, true
	f.names[name] = true
	f.strands = append(f.strands, strand)
	return strand, nil
}

// endAll ends each of the strands, and gives the first error. No lock of the process is held.
func (f *family) endAll(end func(*Recorder) error) (err error) {
	f.mutex.Lock()
	f.ended = true
	strands := f.strands
	f.mutex.Unlock()
	for _, strand := range strands {
		if ended := end(strand); err == nil {
			err = ended
		}
	}
	return err
}

type contextKey struct{}

// NewContext is a context that carries the recorder, so that whatever is called with it can record.
func NewContext(ctx context.Context, r *Recorder) context.Context {
	return context.WithValue(ctx, contextKey{}, r)
}

// FromContext is the recorder that the context carries, and whether it carries one.
func FromContext(ctx context.Context) (*Recorder, bool) {
	r, ok := ctx.Value(contextKey{}).(*Recorder)
	return r, ok
}

// A Mutex is a lock between goroutines, whose unlocking is a message to whoever locks it next: a send of the recorder
// that is given and a receipt, if that is by another one. So what the mutex keeps apart is kept apart in the recording.
// But the order in which it was locked is a cause then, and no other order is judged. The zero Mutex is unlocked. None
// may be copied once it was used.
type Mutex struct {
	mutex  sync.Mutex
	sender *Recorder
	sent   string // the id of the message of the last unlocking, if nobody has received it
}

// Lock locks the mutex, as sync.Mutex does, and then records the receipt. If that fails the mutex isn't locked. Without
// a recorder, which is nil, nothing is recorded.
func (m *Mutex) Lock(r *Recorder) error {
	m.mutex.Lock()
	isHeld := false
	defer func() {
		if !isHeld {
			m.mutex.Unlock()
		}
	}()
	isNew, err := r.receiveFrom(m.sender, m.sent, nil)
	if isNew {
		m.sender, m.sent = nil, ""
	}
	isHeld = err == nil
	return err
}

// Unlock records the send, and then unlocks the mutex, whatever becomes of the send. It may be deferred: what its error
// says each later call of the recorder says too.
func (m *Mutex) Unlock(r *Recorder) error {
	defer m.mutex.Unlock()
	if r == nil {
		return nil
	}
	id, err := r.Send()
	if err == nil {
		m.sender, m.sent = r, id
	}
	return err
}

// A Carried is a value on its way from one goroutine to another, through a channel or the like, as a message:
//
//	jobs := make(chan record.Carried[Job], 8)
//
//	carried, err := record.Carry(left, job)  // BEFORE the channel has it
//	jobs <- carried                          // also in a select; what isn't sent then is a message that was lost
//
//	job, err := (<-jobs).Take(worker)        // AFTER the channel has given it
//
// What a channel tells who sends, as that there is room again or that another goroutine has the value, isn't recorded,
// and neither is that it was closed: if that is to order anything, carry a value for it.
type Carried[T any] struct {
	Value  T
	sender *Recorder
	id     string
}

// Carry records that this process sends the value to another goroutine, as Send does: call it BEFORE the value leaves.
// Without a recorder, which is nil, nothing is recorded.
func Carry[T any](r *Recorder, value T, settings ...Setting) (Carried[T], error) {
	if r == nil {
		return Carried[T]{Value: value}, nil
	}
	id, err := r.Send(settings...)
	return Carried[T]{Value: value, sender: r, id: id}, err
}

// Take records that the value has come, as Receive does, and gives it: call it AFTER that. It is no receipt if no
// recorder has carried it, or the same one; then it is an event if there are settings, and nothing otherwise.
func (c Carried[T]) Take(r *Recorder, settings ...Setting) (T, error) {
	isReceived, err := r.receiveFrom(c.sender, c.id, settings)
	if r != nil && err == nil && !isReceived && len(settings) > 0 {
		err = r.Event(settings...)
	}
	return c.Value, err
}

// receiveFrom records the receipt of the message, if there is one and another recorder has sent it, and says whether it
// has.
func (r *Recorder) receiveFrom(sender *Recorder, id string, settings []Setting) (bool, error) {
	if r == nil || id == "" || sender == r {
		return false, nil
	}
	err := r.Receive(id, settings...)
	return err == nil, err
}

func (r *Recorder) id(number int) string { return r.process + "-" + strconv.Itoa(number) }

// sendAny records a send with an id that it makes; the lock is held.
func (r *Recorder) sendAny(settings []Setting) (string, error) {
	number := r.made + 1
	for r.ids[r.id(number)] {
		number++
	}
	if err := r.put("send", r.id(number), settings); err != nil {
		return "", err
	}
	r.made = number
	return r.id(number), nil
}

// record checks an event and writes its line; the lock is held. Without a field the event has no message.
func (r *Recorder) record(field, id string, settings []Setting) error {
	if err := r.room(); err != nil {
		return err
	}
	return r.put(field, id, settings)
}

// room is an error if no event may be recorded. One of a strand's events is kept for its end.
func (r *Recorder) room() error {
	limit := r.limits.events
	if r.isStrand {
		limit--
	}
	switch {
	case r.ended:
		return refused(r.process, ErrEnded)
	case r.broken:
		return refused(r.process, ErrBroken)
	case r.events >= limit:
		return refused(r.process, ErrEvents)
	}
	return nil
}

// put checks the message and the variables of an event, and writes its line.
func (r *Recorder) put(field, id string, settings []Setting) error {
	switch {
	case field != "" && (id == "" || len(id) > r.limits.idBytes || !utf8.ValidString(id)):
		return refused(id, ErrID)
	case r.ids[id]:
		return refused(id, ErrIDTwice)
	}
	text, settings := withoutNotes(settings)
	if err := r.check(settings); err != nil {
		return err
	}
	if err := r.note(text); err != nil {
		return err
	}
	if err := r.write(lineOf(field, id, settings)); err != nil {
		return err
	}
	r.events++
	if field != "" {
		r.ids[id] = true
	}
	for _, setting := range settings {
		r.names[setting.name] = true
	}
	return nil
}

func (r *Recorder) check(settings []Setting) error {
	names := map[string]bool{}
	added := 0
	for _, setting := range settings {
		if !isName(setting.name) || names[setting.name] {
			return refused(setting.name, ErrVariableName)
		}
		if setting.fault != nil {
			return refused(setting.name, setting.fault)
		}
		names[setting.name] = true
		if !r.names[setting.name] {
			added++
		}
	}
	if len(r.names)+added > VariableLimit {
		return refused(r.process, ErrVariables)
	}
	return nil
}

// withoutNotes is the text of the notes among the settings, the last one if there are several, and the others.
func withoutNotes(settings []Setting) (text string, others []Setting) {
	for place, setting := range settings {
		if setting.isNote && others == nil {
			others = append(make([]Setting, 0, len(settings)), settings[:place]...)
		}
		if setting.isNote {
			text = setting.name
		} else if others != nil {
			others = append(others, setting)
		}
	}
	if others == nil {
		return "", settings
	}
	return text, others
}

// note writes the note of the event whose line is written next, if the events have notes: so each event that a stream
// has has its note.
func (r *Recorder) note(text string) error {
	if r.notes == nil {
		return nil
	}
	now := time.Now().UnixMicro()
	return r.writeTo(r.notes, fmt.Sprintf(`{"process": "%s", "event": %d, "text": %s, "place": %s, "clock": %d.%06d}`+"\n",
		r.process, r.events+1, escaped(bounded(text)), escaped(placeOfCaller()), now/1e6, now%1e6))
}

var _, ownFile, _, _ = runtime.Caller(0)

// placeOfCaller is FILE:LINE of the code that has called into this file, or no text.
func placeOfCaller() string {
	var callers [64]uintptr
	frames := runtime.CallersFrames(callers[:runtime.Callers(2, callers[:])])
	for {
		frame, more := frames.Next()
		// A call that is deferred comes from the runtime if there is a panic.
		if frame.File != ownFile && !strings.HasPrefix(frame.Function, "runtime.") {
			return bounded(frame.File) + ":" + strconv.Itoa(frame.Line)
		}
		if !more {
			return ""
		}
	}
}

// bounded is the text with U+FFFD for each byte that is no UTF-8, and cut if it is too long.
func bounded(text string) string {
	var kept strings.Builder
	for _, c := range text {
		if kept.Len()+utf8.RuneLen(c) > NoteByteLimit {
			break
		}
		kept.WriteRune(c)
	}
	return kept.String()
}

// escaped is the text as JSON has it between quotes. Besides what JSON escapes these are: a terminal takes some for
// commands, and what reads lines others for their ends.
func escaped(text string) string {
	var line strings.Builder
	for _, c := range quoted(text) {
		if c >= 0x7f && c <= 0x9f || c == '\u2028' || c == '\u2029' {
			fmt.Fprintf(&line, `\u%04x`, c)
		} else {
			line.WriteRune(c)
		}
	}
	return line.String()
}

// write hands the line to the system.
func (r *Recorder) write(line string) error { return r.writeTo(r.out, line) }

// writeTo hands a line to the system. If that fails, or panics, nothing more is written later.
func (r *Recorder) writeTo(out io.Writer, line string) error {
	// With the limits above no line has over 1,400 bytes, and no stream over 14,000,000: monitor takes more. A line of a
	// long recording has at most 7,200.
	r.broken = true
	written, err := out.Write([]byte(line))
	if err == nil && written < len(line) {
		err = io.ErrShortWrite
	}
	r.broken = err != nil
	return err
}

func refused(what string, reason error) error { return fmt.Errorf("record: %.80q: %w", what, reason) }

// lineOf is the line of an event, with its LF.
func lineOf(field, id string, settings []Setting) string {
	var fields, pairs []string
	if field != "" {
		fields = append(fields, quoted(field)+":"+quoted(id))
	}
	for _, setting := range settings {
		pairs = append(pairs, quoted(setting.name)+":"+strconv.FormatInt(setting.value, 10))
	}
	if len(pairs) > 0 {
		fields = append(fields, `"set":{`+strings.Join(pairs, ",")+"}")
	}
	return "{" + strings.Join(fields, ",") + "}\n"
}

// quoted is the text as JSON has it between quotes, as short as it can be.
func quoted(text string) string {
	const escaped, letters = "\"\\\b\f\n\r\t", `"\bfnrt`
	var line strings.Builder
	line.WriteByte('"')
	for i := 0; i < len(text); i++ {
		if place := strings.IndexByte(escaped, text[i]); place >= 0 {
			line.WriteString(`\` + letters[place:place+1])
		} else if text[i] < ' ' {
			fmt.Fprintf(&line, `\u%04x`, text[i])
		} else {
			line.WriteByte(text[i])
		}
	}
	line.WriteByte('"')
	return line.String()
}

func isName(name string) bool {
	switch name {
	case "", "and", "or", "not", "true", "false":
		return false
	}
	for place, c := range name {
		isLetter := 'a' <= c && c <= 'z' || 'A' <= c && c <= 'Z' || c == '_'
		isDigit := '0' <= c && c <= '9'
		if !isLetter && (place == 0 || !isDigit) {
			return false
		}
	}
	return len(name) <= NameByteLimit
}

// connection is a connection to the address, where nobody may listen yet.
func (a address) connection(ctx context.Context) (net.Conn, error) {
	inTime := ctx
	if _, ok := ctx.Deadline(); !ok {
		var cancel context.CancelFunc
		inTime, cancel = context.WithTimeout(ctx, patience)
		defer cancel()
	}
	for {
		connection, err := a.connectionNow(inTime)
		comesLater := a.network == "unix" && errors.Is(err, fs.ErrNotExist)
		if !errors.Is(err, syscall.ECONNREFUSED) && !comesLater {
			return connection, err
		}
		select {
		case <-time.After(pause):
		case <-inTime.Done():
			if ctx.Err() != nil {
				err = fmt.Errorf("record: nobody listens at %s: %w", a.text, ctx.Err())
			}
			return nil, err
		}
	}
}

func (a address) connectionNow(ctx context.Context) (net.Conn, error) {
	connection, err := new(net.Dialer).DialContext(ctx, a.network, a.text)
	if err != nil {
		return nil, err
	}
	// A connection to a port that nobody has bound can come to be with itself.
	if a.network != "unix" && connection.LocalAddr().String() == connection.RemoteAddr().String() {
		connection.Close()
		return nil, fmt.Errorf("record: nobody listens at %s: %w", a.text, syscall.ECONNREFUSED)
	}
	return connection, nil
}
